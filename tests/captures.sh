#!/usr/bin/env bash
# Drives the commands on captures as a user would. Usage: tests/captures.sh TOOL HEADER
set -u
stored=$(realpath "$(dirname "$0")/../cli/capture.hex")
# shellcheck source=tests/driving.sh
. "$(dirname "$0")/driving.sh" || exit 1

capture_max=$(defined CAPTURE_MAX)
depth_max=$(defined CAPTURE_DEPTH_MAX)
entries_max=$(defined CAPTURE_ENTRIES_MAX)
zeros=$(printf '%0128d' 0)
sample=0001000000110000000a0000012300${zeros:0:24}
count="a count, an entry, or a frame's identifier, length code or length is not what it must be"
broken="the layout of the capture is broken: $count"
too_deep="a group of the capture would be at depth $((depth_max + 1)), and the deepest may be at $depth_max"

wrong_tag() { # OTHER: what is said of a wrong tag, where the other edition is this
  local said="the tag is wrong: the key, the nonce, the identifier, the length code or the data field"
  echo "$said is not as it was sealed, or it was sealed under edition $1 (--edition $1)"
}

chain() { # DEPTH BODY: groups in one another, the section of this depth being BODY
  local depth body=$2
  for ((depth = $1; depth > 1; depth--)); do
    body=$(section "1:$body")
  done
  echo "$body"
}

lists() { # HEX LINE...: capture list prints these lines, from a file, from standard input and from hex
  local hex=$1
  shift
  printf '%s\n' "$@" >expected
  [ $# != 0 ] || : >expected
  echo "$hex" >input
  printf '%b' "$(fold -w 2 <<<"$hex" | sed 's/^/\\x/' | tr -d '\n')" >capture
  run 0 capture list --hex-in -
  check "listed from hex: ${hex:0:200}" cmp expected output
  check "nothing on standard error" [ ! -s errors ]
  run 0 capture list capture
  check "listed from a file: ${hex:0:200}" cmp expected output
  cp capture input
  run 0 capture list -
  check "listed from standard input: ${hex:0:200}" cmp expected output
}

opens() { # STATUS HEX LINE... [OPTION]...: capture open prints these lines and exits so
  local status=$1
  echo "$2" >input
  shift 2
  : >expected
  while [ $# != 0 ] && [ "${1#--}" = "$1" ]; do
    echo "$1" >>expected
    shift
  done
  run "$status" capture open - --hex-in "$@"
  check "opened: $*" cmp expected output
}

refuses_capture() { # NUMBER SENTENCE HEX: by both commands, and in JSON, nothing is printed
  echo "$3" >input
  refused "$1" "$2" capture list --hex-in -
  refused "$1" "$2" capture list --hex-in --json -
  refused "$1" "$2" capture open --hex-in - --key "$key"
  refused "$1" "$2" capture open --hex-in --json - --key "$key" --edition 2
}

the_sample() {
  lists "$sample" "0 10 00000123 0 ${zeros:0:24} -"
  opens 11 "$sample" "0 10 00000123 refusal 11: the data field is empty, and has no length byte" \
    "1 frame, 0 opened, 1 refused" --key "$key"
  check "the refusal on standard error" \
    [ "$(cat errors)" = "refusal 11: frame 0: the data field is empty, and has no length byte" ]
}

no_frames() {
  lists 0000
  opens 0 0000 "0 frames, 0 opened, 0 refused" --key "$key"
  lists "$(section 1:0000 1:0000)"
  opens 0 "$(section 1:0000 1:0000)" "0 frames, 0 opened, 0 refused" --key "$key" --edition 2
}

the_stored() { # groups in groups, sealed frames and others
  local lines
  lines=(
    "0 34 000007E8 9 000000000000000000000003 0206929de3fbcb4c983cc600"
    "1 81 18DAF110 10 000000000000000000000004 0446a128bd06a340c8834a7006000000"
    "2 124 00000123 9 000000000000000000000005 01096499f1cf426b00b70000"
    "3 155 00000123 2 000000000000000000000000 0960"
  )
  lists "$(tr -d ' \n' <"$stored")" "${lines[@]}"
  run 0 capture list --hex-in "$stored"
  check "white space between the digits" cmp expected output
  opens 7 "$(cat "$stored")" \
    "0 34 000007E8 opened 0960" \
    "1 81 18DAF110 opened 01020304" \
    "2 124 00000123 refusal 7: $(wrong_tag 2)" \
    "3 155 00000123 refusal 11: the length byte says 9, which takes 20 bytes, and the data field is 2 bytes" \
    "4 frames, 2 opened, 2 refused" --key "$key"
  check "the first refusal on standard error" [ "$(cat errors)" = "refusal 7: frame 2: $(wrong_tag 2)" ]
}

made_and_opened() { # what frame make makes, under each edition
  local body capture long short empty message number=0 refusals=() place
  message=$(printf '%02x' {0..54})
  sealed 0x123 9 '' && empty=$body
  sealed 0x1fffffff 10 0102030405 && short=$body
  sealed 0x7ff 15 "$message" && long=$body
  capture=$(section "0:$empty" "1:$(chain 4 "$(section "0:$long" 1:0000 "0:$short")")" "1:$(section "0:$empty")")
  opens 0 "$capture" "0 26 00000123 opened -" "1 111 000007FF opened $message" \
    "2 194 1FFFFFFF opened 0102030405" "3 237 00000123 opened -" \
    "4 frames, 4 opened, 0 refused" --key "$key" "${named[@]}"
  check "nothing on standard error" [ ! -s errors ]
  printf '\x00\x01\x02\x03\x04\x05\x06\x07\x08\x09\x0a\x0b\x0c\x0d\x0e\x0f' >key
  run 0 capture open --key-file key "${named[@]}" --hex-in -
  check "a key from a file" cmp expected output
  for place in "26 00000123" "111 000007FF" "194 1FFFFFFF" "237 00000123"; do
    refusals+=("$number $place refusal 7: $(wrong_tag "$other")")
    number=$((number + 1))
  done
  opens 7 "$capture" "${refusals[@]}" "4 frames, 0 opened, 4 refused" --key "${key%f}e" "${named[@]}"
  opens 7 "$capture" "${refusals[@]//edition $other/edition $edition}" "4 frames, 0 opened, 4 refused" \
    --key "$key" --edition "$other"
}

damaged_frames() { # the status is that of the first that is refused, and the others are opened
  local body whole filler renamed said_7 said_11 said_12
  sealed 0x123 9 0960 && whole=$body
  filler=${whole%?}1
  renamed=${whole/12309/12409}
  said_7=$(wrong_tag 2)
  said_11="the length byte says 0, which takes 12 bytes, and the data field is 8 bytes"
  said_12="byte 12 of the data field is 01, and filler must be 00"
  opens 0 "$(section "0:$whole" "0:$whole")" "0 18 00000123 opened 0960" "1 47 00000123 opened 0960" \
    "2 frames, 2 opened, 0 refused" --key "$key"
  opens 12 "$(section "0:$whole" "0:$filler" "0:$renamed")" "0 26 00000123 opened 0960" \
    "1 55 00000123 refusal 12: $said_12" "2 84 00000124 refusal 7: $said_7" "3 frames, 1 opened, 2 refused" --key "$key"
  opens 7 "$(section "0:$renamed" "0:$filler" "0:$whole")" "0 26 00000124 refusal 7: $said_7" \
    "1 55 00000123 refusal 12: $said_12" "2 84 00000123 opened 0960" "3 frames, 1 opened, 2 refused" --key "$key"
  opens 11 "$(section "0:$(frame 0x123 8 "${zeros:0:16}")" "0:$whole")" "0 18 00000123 refusal 11: $said_11" \
    "1 43 00000123 opened 0960" "2 frames, 1 opened, 1 refused" --key "$key"
}

json() {
  local first second
  echo "$sample" >input
  run 0 capture list --hex-in --json -
  first='"number":0,"place":10,"identifier":"00000123"'
  second="\"code\":0,\"nonce\":\"${zeros:0:24}\",\"data\":\"\""
  check "the sample in JSON" cmp output <(printf '%s\n' '{"frames":[' "{$first,$second}" '],"count":1}')
  check "well-formed" well_formed
  run 11 capture open --hex-in --json - --key "$key"
  second='"refusal":11,"reason":"the data field is empty, and has no length byte"'
  check "the sample opened, in JSON" \
    cmp output <(printf '%s\n' '{"frames":[' "{$first,$second}" '],"count":1,"opened":0,"refused":1}')
  check "well-formed" well_formed
  run 0 capture list --json --hex-in "$stored"
  check "four objects, a line each" [ "$(grep -c '^{"number":[0-3],"place":.*,"data":"[0-9a-f]*"},\{0,1\}$' output)" = 4 ]
  check "well-formed" well_formed
  run 7 capture open --json --hex-in "$stored" --key "$key"
  check "the messages in JSON" [ "$(grep -c '"message":"\(0960\|01020304\)"}' output)" = 2 ]
  check "the refusals in JSON" [ "$(grep -c '"refusal":\(7\|11\),"reason":"[^"]*"}' output)" = 2 ]
  check "the counts in JSON" [ "$(tail -n 1 output)" = '],"count":4,"opened":2,"refused":2}' ]
  check "well-formed" well_formed
  echo 0000 >input
  run 0 capture list --hex-in --json -
  check "no frames in JSON" [ "$(cat output)" = '{"frames":[],"count":0}' ]
  check "well-formed" well_formed
  run 0 capture open --hex-in --json - --key "$key"
  check "no frames opened, in JSON" [ "$(cat output)" = '{"frames":[],"count":0,"opened":0,"refused":0}' ]
  check "well-formed" well_formed
}

broken_captures() {
  local size
  refuses_capture 16 "the capture is 0 bytes, and its count alone is 2" ""
  refuses_capture 16 "the capture is 1 byte, and its count alone is 2" 00
  for size in 2 3 9 10 11 26; do
    refuses_capture 16 "$broken" "${sample:0:2*size}"
  done
  refuses_capture 16 "$broken" "${sample}00"
  refuses_capture 16 "$broken" "${sample/0001/0002}"
  refuses_capture 16 "$broken" "${sample/000100/000102}"
  refuses_capture 16 "$broken" "${sample/000011/000012}"
  refuses_capture 16 "$broken" "${sample/00000a/000009}"
  refuses_capture 16 "$broken" "${sample/0000012300/2000012300}"
  refuses_capture 16 "$broken" "${sample/0000012300/0000012301}"
  refuses_capture 16 "$broken" "$(section "0:$(frame 0x123 16 "")")"
  refuses_capture 16 "$broken" "$(section "0:$(frame 0x123 0 "")" 1:00)"
  # shellcheck disable=SC2046 # words
  refuses_capture 16 "$broken" "$(section $(yes 1:0000 | head -n $((entries_max + 1))))"
}

most_entries() {
  # shellcheck disable=SC2046 # words
  lists "$(section $(yes 1:0000 | head -n "$entries_max"))"
}

depths() { # of 16 and 18 the first in walking order
  local body first
  body=$(section "0:$(frame 0x123 1 aa)")
  lists "$(chain "$depth_max" "$body")" "0 $((10 * depth_max)) 00000123 1 $nonce aa"
  refuses_capture 18 "$too_deep" "$(chain $((depth_max + 1)) "$body")"
  refuses_capture 18 "$too_deep" "$(chain $((depth_max + 3)) 0000)"
  refuses_capture 18 "$too_deep" "$(chain $((depth_max + 1)) ff)"
  first=$(chain "$depth_max" 0000)
  refuses_capture 18 "$too_deep" "$(section "1:$first" 0:00)"
  refuses_capture 16 "$broken" "$(section 0:00 "1:$first")"
  refuses_capture 16 "$broken" "$(section "1:$first")00"
}

lengths() { # up to the longest
  local i frames=() groups=() full
  for ((i = 0; i < 255; i++)); do
    frames+=("0:$(frame $i 0 "")")
  done
  full=$(section "${frames[@]}")
  for ((i = 0; i < 10; i++)); do
    groups+=("1:$full")
  done
  # 10 groups of 6377 bytes and one of 1676, with their entries and the count.
  frames=("${frames[@]:0:65}" "0:$(frame 65 12 "${zeros:0:48}")")
  groups+=("1:$(section "${frames[@]}")")
  section "${groups[@]}" >input
  check "the longest capture" [ "$(tr -d '\n' <input | wc -c)" = $((2 * capture_max)) ]
  run 0 capture list --hex-in -
  check "2616 frames" [ "$(wc -l <output)" = 2616 ]
  check "the last frame" grep -qx "2615 $((capture_max - 41)) 00000041 12 $nonce ${zeros:0:48}" <(tail -n 1 output)
  echo 00 >>input
  refused 16 "the capture is $((capture_max + 1)) bytes, and may be at most $capture_max" capture list --hex-in -
  bytes 100000 >input
  refused 16 "the capture is 100000 bytes, and may be at most $capture_max" capture list -
  refused 16 "the capture is 100000 bytes, and may be at most $capture_max" capture open --key "$key" -
}

refusals_of_keys() { # before the capture is looked at
  local hex zero_key="the key is 16 zero bytes, which anybody can guess"
  zero_key+=": open the capture with the key that its frames were sealed with"
  for hex in "" 0000 "$sample" "$(chain $((depth_max + 1)) 0000)"; do
    echo "$hex" >input
    for json in "" --json; do
      refused 23 "the edition is 3, and must be 1 or 2" capture open --hex-in - --key "" --edition 3 $json
      refused 23 "the edition is 4294967297, and must be 1 or 2" \
        capture open --hex-in - --key "$key" --edition 4294967297 $json
      refused 1 "the key is 15 bytes, and must be 16" capture open --hex-in - --key "${key%??}" $json
      refused 1 "the key is 0 bytes, and must be 16" capture open --hex-in - --key "" --edition 2 $json
      refused 15 "$zero_key" capture open --hex-in - --key "${zeros:0:32}" $json
      refused 15 "$zero_key" capture open --hex-in - --key "${zeros:0:32}" --edition 2 $json
    done
  done
}

wrong_usage() {
  local file='FILE is needed, or - for standard input' command
  echo "$sample" >input
  misused "capture: list or open is needed" capture
  misused "unknown command 'capture lst'" capture lst -
  misused "unknown command 'capture capture'" capture capture
  misused "unknown command 'list'" list -
  misused "$file" capture list
  misused "$file" capture list --json
  misused "$file" capture open --key "$key"
  misused "--key or --key-file is needed" capture open
  misused "--key or --key-file is needed" capture open -
  misused "FILE: no file 'absent'" capture list absent
  misused "FILE: no file 'absent'" capture open absent --key "" --edition 3
  misused "--key-file: no file 'absent'" capture open absent --key-file absent
  misused "--key and --key-file exclude each other" capture open - --key "$key" --key-file key
  misused "--edition: 'x' is no number in decimal digits" capture open - --key "$key" --edition x
  misused "--key: 'x' at place 2 is no hex digit" capture open - --key 0x
  misused "--json takes no value" capture list --json=yes -
  misused "--json is given twice" capture list --json --json -
  misused "unknown option '--key'" capture list - --key "$key"
  misused "unknown option '--edition'" capture list - --edition 1
  for command in "list" "open --key $key"; do
    read -ra command <<<"$command"
    misused "unexpected argument 'second'" capture "${command[@]}" - second
    misused "unexpected argument '-'" capture "${command[@]}" first -
    misused "unknown option '--out'" capture "${command[@]}" - --out lines
    misused "unknown option '--in'" capture "${command[@]}" --in capture
    misused "unknown option '-x'" capture "${command[@]}" -x
    fails_to "read '.'" capture "${command[@]}" .
  done
  for option in --nonce --nonce-file; do
    misused "$option: each frame of a capture has its own nonce" capture open - --key "$key" $option 00
  done
  for option in --cipher --tag-bits; do
    misused "$option: frames are for grain-128aead alone" capture open - --key "$key" $option 8
  done
  misused "--hex-in: 'z' at place 1 is no hex digit" capture list --hex-in <(echo z)
  misused "unknown option '--json'" frame read "${secrets[@]}" --json
  misused "unexpected argument '-'" parts -
}

full_output() { # standard output can't be written
  local status=0
  "$tool" capture list --hex-in "$stored" >/dev/full 2>errors || status=$?
  check "capture list: standard output full" [ "$status" = 74 ]
  status=0
  "$tool" capture open --hex-in "$stored" --key "$key" >/dev/full 2>errors || status=$?
  check "capture open: standard output full" [ "$status" = 74 ]
}

help_of_captures() {
  local command
  : >input
  run 0 --help
  cp output help
  check "--help shows how to list" grep -q "^ *tikhoplav capture list FILE \[--json\] \[--hex-in\]$" help
  check "--help shows how to open" grep -q "^ *tikhoplav capture open FILE KEY \[--edition 1|2\] \[--json\]" help
  check "--help has the longest capture" grep -q "  16 the capture is over $capture_max bytes, " help
  check "--help has the most entries" grep -q "a section of over $entries_max entries" help
  check "--help has the depth" grep -q "  18 a group would be at depth $((depth_max + 1)) " help
  for command in "" list open; do
    run 0 capture ${command:+"$command"} --help
    check "capture $command --help" cmp help output
  done
  run 0 selftest
  check "selftest has the sample" grep -q "^  ok     the sample: frame 0 where it is$" output
  check "selftest has groups" grep -q "^  ok     a capture with groups: frame 1 opened$" output
}

the_sample
no_frames
the_stored
for named_edition in '' 1 2; do
  under ${named_edition:+"$named_edition"}
  made_and_opened
done
under
damaged_frames
json
broken_captures
most_entries
depths
lengths
refusals_of_keys
wrong_usage
full_output
help_of_captures
echo "$checks checks hold"
