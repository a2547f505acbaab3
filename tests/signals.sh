#!/usr/bin/env bash
# Drives the commands on signals as a user would. Usage: tests/signals.sh TOOL HEADER
set -u
root=$(realpath "$(dirname "$0")/..")
# shellcheck source=tests/driving.sh
. "$(dirname "$0")/driving.sh" || exit 1

width_max=$(defined SIGNAL_WIDTH_MAX)
identifier_max=$(printf '%X' "$(defined IDENTIFIER_MAX)")
frame_bits=$((8 * $(defined FRAME_MESSAGE_MAX)))
most=1.7976931348623157e308
beyond=1.7976931348623159e308

# Options of a signal whose value is its raw number, and of one with the numbers of document 02.
plain=(--scale 1 --offset 0 --low -1e10 --high 1e10)
half=(--start 0 --width 8 --scale 0.5 --offset 10)

ends_behind() { # LAST BITS: what is said of a signal that ends behind the message
  echo "the signal ends with bit $1, counted from 0, and the message has $2 bits"
}

gives() { # HEX LINE ARGUMENT...: signal prints this line, and nothing on standard error
  local hex=$1 line=$2
  shift 2
  echo "$hex" >input
  run 0 signal --hex-in "$@"
  check "signal $*: $(cat output)" cmp output <(echo "$line")
  check "nothing on standard error" [ ! -s errors ]
}

gives_json() { # HEX VALUE BITS VERDICT ARGUMENT...
  local hex=$1 line="{\"value\":$2,\"bits\":\"$3\",\"verdict\":\"$4\"}"
  shift 4
  gives "$hex" "$line" --json "$@"
  check "well-formed" well_formed
}

refuses_signal() { # NUMBER SENTENCE HEX ARGUMENT...: in JSON too, nothing is printed
  local number=$1 sentence=$2
  echo "$3" >input
  shift 3
  refused "$number" "$sentence" signal --hex-in "$@"
  refused "$number" "$sentence" signal --hex-in --json "$@"
}

the_sample() { # in hex, as bytes, and from a file
  local options=("${half[@]}" --signed --low -40 --high 120)
  gives ff "9.5 within" "${options[@]}"
  gives_json ff 9.5 4023000000000000 within "${options[@]}"
  printf '\xff' >input
  cp input message
  run 0 signal "${options[@]}"
  check "from bytes" [ "$(cat output)" = "9.5 within" ]
  : >input
  run 0 signal "${options[@]}" --in message
  check "from a file" [ "$(cat output)" = "9.5 within" ]
  gives ff "137.5 above" "${half[@]}" --low -40 --high 120
}

verdicts() { # both ends are within
  local options=("${half[@]}" --signed)
  gives ff "9.5 within" "${options[@]}" --low 9.5 --high 9.5
  gives ff "9.5 below" "${options[@]}" --low 9.500000000000002 --high 10
  gives ff "9.5 above" "${options[@]}" --low -10 --high 9.499999999999998
  gives 02 "inf not-finite" --start 0 --width 8 --scale $most --offset -$most --low 0 --high 1
  gives fe "-inf not-finite" --start 0 --width 8 --signed --scale $most --offset $most --low 0 --high 1
  gives_json 02 null 7ff0000000000000 not-finite --start 0 --width 8 --scale $most --offset 0 --low 0 --high 1
  gives_json fe null fff0000000000000 not-finite --start 0 --width 8 --scale -$most --offset 0 --low 0 --high 1
  gives 00 "-0.0 within" --start 0 --width 8 --scale -1 --offset -0 --low 0 --high 0
  gives_json 00 -0.0 8000000000000000 within --start 0 --width 8 --scale -1 --offset -0 --low 0 --high -0
}

places() {
  gives 000fff8000 "8191.0 within" --start 12 --width 13 "${plain[@]}"
  gives 000fff8000 "-1.0 within" --start 12 --width 13 --signed "${plain[@]}"
  gives ffffffff "4294967295.0 within" --start 0 --width "$width_max" "${plain[@]}"
  gives 00ffffffff "-1.0 within" --start 8 --width "$width_max" --signed "${plain[@]}"
  gives 80000000 "-2147483648.0 within" --start 0 --width "$width_max" --signed "${plain[@]}"
  gives 01 "1.0 within" --start 7 --width 1 "${plain[@]}"
  gives 01 "-1.0 within" --start=7 --width=1 --signed "${plain[@]}"
  gives 80 "0.0 within" --start 1 --width 7 "${plain[@]}"
}

digits() { # the fewest that are read back
  local wide=(--low "-$most" --high "$most") one
  one=(--start 7 --width 1 "${wide[@]}")
  gives 01 "0.1 within" "${one[@]}" --scale 0.1 --offset 0
  gives 01 "0.30000000000000004 within" "${one[@]}" --scale 0.1 --offset 0.2
  gives 03 "5.551115123125783e-17 within" --start 6 --width 2 "${wide[@]}" --scale 0.1 --offset -0.3
  gives 01 "5e-324 within" "${one[@]}" --scale 4.9e-324 --offset 0
  gives 01 "$most within" "${one[@]}" --scale $most --offset 0
  gives 01 "9007199254740992.0 within" "${one[@]}" --scale 9007199254740993 --offset 0
  gives_json 01 1e300 7e37e43c8800759c within "${one[@]}" --scale 1e300 --offset 0
}

refusals_of_places() { # before those of the numbers
  local width start
  for width in 0 33 64 4294967295 4294967296 99999999999999999999; do
    refuses_signal 21 "the width is $width, and must be 1 to $width_max" ffffffffffffffffff \
      --start 0 --width $width --scale nan --offset 0 --low 1 --high 0
  done
  refuses_signal 21 "$(ends_behind 8 8)" ff --start 1 --width 8 --scale inf --offset 0 --low 0 --high 1
  refuses_signal 21 "$(ends_behind 0 0)" "" --start 0 --width 1 "${plain[@]}"
  refuses_signal 21 "$(ends_behind 32 32)" ffffffff --start 1 --width 32 "${plain[@]}"
  for start in 4294967264 4294967288 4294967295; do
    refuses_signal 21 "$(ends_behind $((start + 31)) 40)" ffffffffff --start $start --width 32 "${plain[@]}"
  done
}

refusals_of_numbers() { # the first that is not finite is told
  local name said number
  local -A x
  for name in scale offset low high; do
    said=$name
    [ ${#name} -gt 4 ] || said="$name limit"
    for number in nan NaN -nan inf -inf infinity 1e309 $beyond -$beyond; do
      x=([scale]=1 [offset]=0 [low]=0 [high]=1)
      x[$name]=$number
      refuses_signal 22 "the $said is $number, which is no finite double" ff --start 0 --width 8 \
        --scale "${x[scale]}" --offset "${x[offset]}" --low "${x[low]}" --high "${x[high]}"
    done
  done
  refuses_signal 22 "the offset is inf, which is no finite double" ff "${half[@]/10/inf}" --low nan --high 0
  refuses_signal 22 "the low limit is 1e-9, above the high limit, 0" ff "${half[@]}" --low 1e-9 --high 0
  refuses_signal 22 "the low limit is 2.50, above the high limit, -3" ff "${half[@]}" --low 2.50 --high -3
}

wrong_usage() {
  local name number given
  echo ff >input
  for name in start width scale offset low high; do
    given=()
    for number in start width scale offset low high; do
      [ $number = $name ] || given+=("--$number" 1)
    done
    misused "--$name is needed" signal "${given[@]}" --hex-in
    misused "--$name has no value" signal "${given[@]}" --$name
    misused "--low is given twice" signal --low 1 --low 1
    for number in x "" 1,5 0x10 "1 2"; do
      case $name in
        start | width) misused "--$name: '$number' is no number in decimal digits" signal "${given[@]}" "--$name=$number" ;;
        *) misused "--$name: '$number' is no number" signal "${given[@]}" "--$name=$number" ;;
      esac
    done
  done
  for number in -1 1.5 1e1 +1; do
    misused "--width: '$number' is no number in decimal digits" signal --start 0 --width $number "${plain[@]}"
  done
  misused "--start: 4294967296 is over 4294967295, the last start that the call takes" \
    signal --start 4294967296 --width 1 "${plain[@]}"
  given=("${half[@]}" --low 0 --high 1)
  misused "--signed takes no value" signal "${given[@]}" --signed=yes
  misused "--hex-in: 'z' at place 1 is no hex digit" signal "${given[@]}" --hex-in --in <(echo z)
  misused "--in: no file 'absent'" signal "${given[@]}" --in absent
  misused "unknown option '--unsigned'" signal "${given[@]}" --unsigned
  misused "unknown option '--out'" signal "${given[@]}" --out value
  misused "unexpected argument 'input'" signal "${given[@]}" input
  for name in --key --key-file --nonce --nonce-file; do
    misused "$name: signal takes a message that is opened already" signal "${given[@]}" $name 00
  done
  misused "unknown command 'signals'" signals
  misused "unknown option '--signals'" frame read "${secrets[@]}" --signals input
  misused "--signals: capture list opens no frame" capture list - --signals input
  fails_to "read '.'" signal "${given[@]}" --in .
}

signal_of_the_readme() { # the command that README has, and the line below it
  local shown
  shown=$(sed -n '/^    \$ .* build\/tikhoplav signal /,/^$/s/^    //p' "$root/README.md")
  check "README has the command" [ "$(wc -l <<<"$shown")" = 2 ]
  (cd "$root" && bash -c "$(sed -n '1s/^\$ //p' <<<"$shown")" >"$scratch/output")
  check "what README shows" cmp output <(tail -n 1 <<<"$shown")
}

sample_of_the_readme() { # the command that README has, and what it says that the command prints
  local shown command
  shown=$(sed -n '/^    \$ build.* samples\/bus.signals/,/^    refusal/s/^    //p' "$root/README.md")
  command=$(head -n 2 <<<"$shown")
  check "README has the command" [ "${command:0:34}" = "\$ build/tikhoplav capture open --h" ]
  (cd "$root" && bash -c "${command#\$ }" 2>"$scratch/errors" >"$scratch/output")
  check "the status of README's sample" [ $? = 21 ]
  check "what README shows" cmp <(cat output errors) <(tail -n +3 <<<"$shown")
  : >input
  run 21 capture open --hex-in "$root/samples/bus.hex" --signals "$root/samples/bus.signals" --key "$key" --json
  check "well-formed" well_formed
  check "eight values" [ "$(grep -c '^{"name":"[a-z_]*","value":[-0-9.]*,"unit":".*","bits":"[0-9a-f]*","verdict":' output)" = 8 ]
  check "two refusals" [ "$(grep -c '^{"name":"[a-z_]*","refusal":21,"reason":"the signal ends with ' output)" = 2 ]
  check "the counts" [ "$(tail -n 1 output)" = '],"count":4,"opened":4,"refused":0,"signals":10,"refused_signals":2}' ]
}

opens() { # STATUS LINE... [OPTION]...: capture open prints these lines of ./capture with ./signals
  local status=$1
  shift
  : >expected
  while [ $# != 0 ] && [ "${1#--}" = "$1" ]; do
    echo "$1" >>expected
    shift
  done
  cp capture input
  run "$status" capture open - --hex-in --key "$key" --signals signals "$@"
  check "opened with signals: $*: $(cat output)" cmp expected output
}

of_frames() { # under each edition: the signals go by the identifier's number, in the order of their lines
  local body first second
  sealed 0x123 9 0960 && first=$body
  sealed 0x1fffffff 9 "" && second=$body
  section "0:$first" "1:$(section "0:$second")" "0:$first" >capture
  printf '%s\n' '00000123 last 15 1 unsigned 1 0 0 1' '# 123 none 0 1' '' '  # none' \
    $'123\tfirst 0 16 signed 0.5 -0.5 0 1e3 km/h' '124 other 0 1 unsigned 1 0 0 1' >signals
  opens 0 "0 26 00000123 opened 0960" "  last 0.0 within" "  first 1199.5 km/h above" "1 65 1FFFFFFF opened -" \
    "2 94 00000123 opened 0960" "  last 0.0 within" "  first 1199.5 km/h above" \
    "3 frames, 3 opened, 0 refused; 4 signals, 0 refused" "${named[@]}"
  check "nothing on standard error" [ ! -s errors ]
  printf '# none\n\n' >signals
  opens 0 "0 26 00000123 opened 0960" "1 65 1FFFFFFF opened -" "2 94 00000123 opened 0960" \
    "3 frames, 3 opened, 0 refused; 0 signals, 0 refused" "${named[@]}"
  : >signals
  run 0 capture open - --hex-in --key "$key" --signals signals "${named[@]}" --json
  check "frames without signals" [ "$(grep -c ',"signals":\[\]},\{0,1\}$' output)" = 3 ]
  check "well-formed" well_formed
}

refused_beside_frames() { # the status is that of the first refusal, of a frame or of a signal
  local body whole damaged short once="1 signal, 0 refused" two="2 signals, 1 refused" said wrong_tag
  sealed 0x123 9 0960 && whole=$body
  sealed 0x123 9 09 && short=$body
  damaged=${whole/12309/12409}
  said="refusal 21: $(ends_behind 15 8)"
  wrong_tag="refusal 7: the tag is wrong: the key, the nonce, the identifier, the length code or the data field"
  wrong_tag+=" is not as it was sealed, or it was sealed under edition 2 (--edition 2)"
  printf '%s\n' '123 speed 0 16 unsigned 0.25 0 0 1000' '124 speed 0 16 unsigned 0.25 0 0 1000' >signals
  section "0:$whole" "0:$short" >capture
  opens 21 "0 18 00000123 opened 0960" "  speed 600.0 within" "1 47 00000123 opened 09" "  speed $said" \
    "2 frames, 2 opened, 0 refused; $two"
  check "the refusal on standard error" [ "$(cat errors)" = "${said/21:/21: frame 1: speed:}" ]
  section "0:$damaged" "0:$whole" >capture
  opens 7 "0 18 00000124 $wrong_tag" "1 47 00000123 opened 0960" "  speed 600.0 within" \
    "2 frames, 1 opened, 1 refused; $once"
  section "0:$short" "0:$damaged" "0:$whole" >capture
  opens 21 "0 26 00000123 opened 09" "  speed $said" "1 55 00000124 $wrong_tag" "2 84 00000123 opened 0960" \
    "  speed 600.0 within" "3 frames, 2 opened, 1 refused; $two"
  section "0:$damaged" "0:$short" "0:$whole" >capture
  opens 7 "0 26 00000124 $wrong_tag" "1 55 00000123 opened 09" "  speed $said" "2 84 00000123 opened 0960" \
    "  speed 600.0 within" "3 frames, 2 opened, 1 refused; $two"
  cp capture input
  run 7 capture open - --hex-in --key "$key" --signals signals --json
  check "a refused frame has no signals" grep -q '^{"number":0,.*"refusal":7,"reason":"[^"]*"},$' output
  check "a refused signal has no value" \
    grep -qx "{\"name\":\"speed\",\"refusal\":21,\"reason\":\"${said#refusal 21: }\"}" output
  check "well-formed" well_formed
}

without_signals() { # what is printed without --signals
  run 0 capture open --hex-in "$root/samples/bus.hex" --key "$key"
  check "no signals" [ "$(tail -n 1 output)" = "4 frames, 4 opened, 0 refused" ]
  check "five lines" [ "$(wc -l <output)" = 5 ]
  run 0 capture open --hex-in "$root/samples/bus.hex" --key "$key" --json
  check "no signals in JSON" [ "$(tail -n 1 output)" = '],"count":4,"opened":4,"refused":0}' ]
  check "no list of signals" [ "$(grep -c signals output)" = 0 ]
}

wrong_line() { # WHAT LINE: wrong usage, behind two lines that are in order
  printf '%s\n' '# first' '123 a 0 1 unsigned 1 0 0 1' "$2" >signals
  misused "--signals: line 3: $1" capture open absent_or_not --signals signals --key "$key"
}

wrong_lines() {
  local columns='columns, and must have 9, or 10 with a unit' identifier
  echo 0000 >absent_or_not
  wrong_line "1 $columns" '123'
  wrong_line "8 $columns" '123 b 0 1 unsigned 1 0 0'
  wrong_line "11 $columns" '123 b 0 1 unsigned 1 0 0 1 km h'
  for identifier in 12 1234 0x123 800 FFF 123456789 x; do
    wrong_line "'$identifier' is no identifier: three hex digits, 000 to 7FF, or eight" \
      "$identifier b 0 1 unsigned 1 0 0 1"
  done
  for identifier in 20000000 80000000 FFFFFFFF; do
    wrong_line "the identifier is $identifier, and may be at most $identifier_max" "$identifier b 0 1 unsigned 1 0 0 1"
  done
  wrong_line "start: 'x' is no number in decimal digits" '123 b x 1 unsigned 1 0 0 1'
  wrong_line "start: 4294967296 is over 4294967295, the last start that the call takes" \
    '123 b 4294967296 1 unsigned 1 0 0 1'
  wrong_line "width: '-1' is no number in decimal digits" '123 b 0 -1 unsigned 1 0 0 1'
  wrong_line "'Signed' is neither signed nor unsigned" '123 b 0 1 Signed 1 0 0 1'
  wrong_line "scale: '1,5' is no number" '123 b 0 1 signed 1,5 0 0 1'
  wrong_line "offset: '--' is no number" '123 b 0 1 signed 1 -- 0 1'
  wrong_line "low: 'low' is no number" '123 b 0 1 signed 1 0 low 1'
  wrong_line "high: 'rpm' is no number" '123 b 0 1 signed 1 0 0 rpm'
  wrong_line "00000123 has a signal 'a' already, in line 2" '00000123 a 0 2 signed 1 0 0 1'
  wrong_line "no UTF-8" $'\xff'
  printf '%s a 0 1 unsigned 1 0 0 1\r\n' 000 7FF "$identifier_max" >signals
  echo 0000 >input
  run 0 capture open - --hex-in --key "$key" --signals signals
}

control_characters() { # in names, units and comments; tab and CR are white space
  local pair said
  for pair in $'01 \x01' $'08 \b' $'0B \v' $'0C \f' $'1B \e' $'1F \x1f' $'7F \x7f' $'80 \xc2\x80' $'85 \xc2\x85' \
    $'9B \xc2\x9b' $'9F \xc2\x9f'; do
    said="U+00${pair% *} is a control character"
    wrong_line "$said" "123 b 0 1 unsigned 1 0 0 1 ${pair#* }[31m"
    wrong_line "$said" "123 b${pair#* } 0 1 unsigned 1 0 0 1"
    wrong_line "$said" "# ${pair#* }"
  done
  printf '123 a\0 0 1 unsigned 1 0 0 1\n' >signals
  misused "--signals: line 1: U+0000 is a control character" capture open absent_or_not --signals signals --key "$key"
  printf '123\ta\t0\r1 unsigned 1 0 0 1 \xc2\xb0C\r\n' >signals
  run 0 capture open - --hex-in --key "$key" --signals signals
}

byte_order_mark() { # passed over where the file begins, and nowhere else
  local mark=$'\xef\xbb\xbf' line='000 a 0 1 unsigned 1 0 0 1' said="'\xef\xbb\xbf000' is no identifier"
  said+=": three hex digits, 000 to 7FF, or eight"
  wrong_line "$said" "$mark$line"
  printf '%s\n' "$mark$mark$line" >signals
  misused "--signals: line 1: $said" capture open absent_or_not --signals signals --key "$key"
  for line in "$line" '# none' ''; do
    printf '%s\r\n' "$mark$line" >signals
    run 0 capture open - --hex-in --key "$key" --signals signals
  done
}

refused_line() { # NUMBER WHAT LINE: refused before edition, key and capture, in JSON too
  printf '%s\n' '123 a 0 1 unsigned 1 0 0 1' '' "$3" 'wrong' >signals
  refused "$1" "--signals: line 3: $2" capture open input --signals signals --key "" --edition 3
  refused "$1" "--signals: line 3: $2" capture open input --signals signals --key "" --edition 3 --json
}

refused_lines() {
  local width most_bits="and the longest message of a frame has $frame_bits bits"
  : >input
  for width in 0 33 4294967296; do
    refused_line 21 "the width is $width, and must be 1 to $width_max" "123 b 0 $width unsigned nan 0 0 1"
  done
  refused_line 21 "the signal ends with bit $frame_bits, counted from 0, $most_bits" \
    "123 b $((frame_bits - 7)) 8 unsigned nan 0 0 1"
  refused_line 21 "the signal ends with bit 4294967326, counted from 0, $most_bits" "123 b 4294967295 32 signed 1 0 0 1"
  refused_line 22 "the scale is nan, which is no finite double" "123 b $((frame_bits - 8)) 8 unsigned nan 0 0 1"
  refused_line 22 "the high limit is 1e999, which is no finite double" "123 b 0 8 unsigned 1 0 0 1e999"
  refused_line 22 "the low limit is 1, above the high limit, 0" "123 b 0 8 unsigned 1 0 1 0"
}

order() { # what is wrong usage is told first; then the lines in their order; then edition, key and capture
  : >input
  printf '%s\n' '123 a 0 0 unsigned 1 0 0 1' >signals
  misused "--signals: no file 'absent'" capture open - --signals absent --key "$key"
  misused "--signals: no file '-'" capture open absent_or_not --signals - --key "$key"
  misused "--key or --key-file is needed" capture open - --signals absent
  misused "FILE: no file 'absent'" capture open absent --signals signals --key "$key"
  misused "--signals is given twice" capture open - --signals signals --signals signals
  misused "--signals has no value" capture open - --signals
  fails_to "read '.'" capture open - --signals . --key "$key"
  refused 21 "--signals: line 1: the width is 0, and must be 1 to $width_max" \
    capture open - --signals signals --key "$key"
  : >signals
  refused 23 "the edition is 3, and must be 1 or 2" capture open - --signals signals --key "" --edition 3
  refused 1 "the key is 0 bytes, and must be 16" capture open - --signals signals --key ""
  refused 16 "the capture is 0 bytes, and its count alone is 2" capture open - --signals signals --key "$key"
}

full_output() { # standard output can't be written
  local status=0
  printf '\xff' | "$tool" signal "${half[@]}" --low 0 --high 1 >/dev/full 2>errors || status=$?
  check "signal: standard output full" [ "$status" = 74 ]
  status=0
  "$tool" capture open --hex-in "$root/samples/bus.hex" --signals "$root/samples/bus.signals" --key "$key" \
    >/dev/full 2>errors || status=$?
  check "capture open with signals: standard output full" [ "$status" = 74 ]
}

help_of_signals() {
  : >input
  run 0 --help
  cp output help
  check "--help shows how to give a signal" grep -q "^ *tikhoplav signal --start N --width N \[--signed\] " help
  check "--help has the widest signal" grep -q "  21 the signal has no bits or over $width_max, " help
  check "--help has the last start" grep -q " a start over 4294967295;" help
  check "--help has the last bit of a frame" grep -q "behind bit $((frame_bits - 1)), the last that the longest" help
  check "--help takes SIGNALS from a file alone" grep -q "SIGNALS is a file; - is not$" help
  check "--help has the columns" grep -qx "    IDENTIFIER NAME START WIDTH signed|unsigned SCALE OFFSET LOW HIGH \[UNIT\]" help
  run 0 signal --help
  check "signal --help" cmp help output
  run 0 selftest
  check "selftest has the sample" \
    grep -qx "  ok     the sample: raw -1 of width 8 with scale 0.5 and offset 10 is 9.5" output
}

under
the_sample
verdicts
places
digits
refusals_of_places
refusals_of_numbers
wrong_usage
signal_of_the_readme
sample_of_the_readme
for named_edition in '' 1 2; do
  under ${named_edition:+"$named_edition"}
  of_frames
done
under
refused_beside_frames
without_signals
wrong_lines
control_characters
byte_order_mark
refused_lines
order
full_output
help_of_signals
echo "$checks checks hold"
