#!/usr/bin/env bash
# Drives the command that checks a tag in pieces as a user would. Usage: tests/check.sh TOOL HEADER
set -u
# shellcheck source=tests/driving.sh
. "$(dirname "$0")/driving.sh" || exit 1

ad_max=$(defined AD_MAX)
message_max=$(defined MESSAGE_MAX)
sealed_max=$((message_max + $(defined TAG_SIZE)))
piece=4096 # what the command reads at a time
zero_key=00000000000000000000000000000000
ad_too_long="the associated data is over $ad_max bytes, and may be at most that"
input_too_long="the sealed input is over $sealed_max bytes, and may be at most that"

accepts() { # ARGUMENT...: the tag is right, and nothing is said
  run 0 check "$@"
  check "check $*: standard output" [ ! -s output ]
  check "check $*: standard error" [ ! -s errors ]
}

agrees() { # STATUS ARGUMENT...: open and check have this status, and say the same
  local status=$1
  shift
  run "$status" open "$@" --out opened
  mv errors said
  run "$status" check "$@"
  check "check $*: standard output" [ ! -s output ]
  check "check $*: what open says" cmp said errors
}

text() { yes "engine 2400 rpm" | head -c "$1"; } # SIZE
hex_of() { od -An -v -tx1 "$1" | tr -d ' \n'; }  # FILE
flip() { # DIGITS BIT: the hex digits with this bit changed, bit 0 the top one of the first digit
  local at=$(($2 / 4))
  printf '%s%x%s' "${1:0:at}" $((0x${1:at:1} ^ 8 >> $2 % 4)) "${1:at + 1}"
}

known_payloads() {
  of_edition 97ce60c2f47910e8 d51fd5d16177b434 >input
  accepts "${secrets[@]}" --hex-in
  of_edition 47fd828e70ea670e6ebe4f5a8e9c9437a7da12cc950440d2 96d1bda7ae11f0ba88bd33ea869b83a6d9240cb51acdec36 >input
  accepts "${secrets[@]}" --ad 0001020304050607 --hex-in
  agrees 7 "${secrets[@]}" --ad 0001020304050600 --hex-in
}

message_sizes() { # from a file, from standard input, in hex; around the borders of the pieces
  local size
  printf '\x00\x01\x02\x03\x04\x05\x06\x07\x08\x09\x0a\x0b\x0c\x0d\x0e\x0f' >key
  head -c 12 key >nonce
  for size in 0 1 7 8 9 $((piece - 9)) $((piece - 8)) $((piece - 7)) $((piece - 1)) "$piece" $((piece + 1)) \
    $((2 * piece - 8)) $((2 * piece)) "$message_max"; do
    text "$size" >input
    run 0 seal "${secrets[@]}" --ad 0102 --out sealed
    accepts --key-file key --nonce-file nonce --ad=0102 --in sealed "${named[@]}"
    cp sealed input
    agrees 0 "${secrets[@]}" --ad 0102
    accepts "${secrets[@]}" --ad 0102 --in -
    hex_of sealed >input
    accepts "${secrets[@]}" --ad 0102 --hex-in
    agrees 7 "${secrets[@]}" --ad 0103 --hex-in
  done
}

ad_sizes() { # in hex, as a file and as a pipe
  local size
  text 20 >message
  for size in 0 1 127 128 255 256 $((piece - 1)) "$piece" $((piece + 1)) $((2 * piece)) "$ad_max"; do
    text "$size" >ad
    run 0 seal "${secrets[@]}" --ad-file ad --in message --out input
    accepts "${secrets[@]}" --ad-file ad
    accepts "${secrets[@]}" --ad "$(hex_of ad)"
    accepts "${secrets[@]}" --ad-file <(cat ad)
    text $((size + 1)) >longer
    if [ "$size" -lt "$ad_max" ]; then
      agrees 7 "${secrets[@]}" --ad-file longer
      [ "$size" = 0 ] || agrees 7 "${secrets[@]}" --ad "$(hex_of longer)"
    fi
  done
}

pipes() { # that deliver a byte or a few at a time
  local size
  text 300 >ad
  text 5000 >message
  run 0 seal "${secrets[@]}" --ad-file ad --in message --out sealed
  hex_of sealed | fold -w 61 >sealed.hex
  mkfifo pipe
  for size in 1 7 4095; do
    dd bs="$size" if=sealed status=none >pipe &
    accepts "${secrets[@]}" --ad-file <(dd bs="$size" if=ad status=none) --in pipe
    dd bs="$size" if=sealed.hex status=none >pipe &
    accepts "${secrets[@]}" --ad-file ad --in pipe --hex-in
    head -c 5007 sealed | dd bs="$size" status=none >pipe &
    run 7 check "${secrets[@]}" --ad-file ad --in pipe
  done
  { head -c 4100 sealed && sleep 0.1 && tail -c +4101 sealed; } >pipe &
  accepts "${secrets[@]}" --ad-file ad --in pipe
  wait
  rm pipe
}

damage() { # every bit of the payload, a bit of each byte of key and nonce, other ADs; bytes lost, added and exchanged
  local payload bit ad=07e8
  text 15 >input
  run 0 seal "${secrets[@]}" --ad $ad --hex-out
  payload=$(cat output)
  cp output input
  agrees 0 "${secrets[@]}" --ad $ad --hex-in
  for ((bit = 0; bit < 4 * ${#payload}; bit++)); do
    flip "$payload" "$bit" >input
    agrees 7 "${secrets[@]}" --ad $ad --hex-in
  done
  for text in "${payload:2}" "${payload::-2}" "${payload}00" "00$payload" "${payload:2:2}${payload:0:2}${payload:4}" \
    "${payload::-16}${payload: -8}${payload: -16:8}"; do
    echo "$text" >input
    agrees 7 "${secrets[@]}" --ad $ad --hex-in
  done
  echo "$payload" >input
  for ad in 0fe8 07e9 07 07e800 0007e8 e807 ''; do
    agrees 7 "${secrets[@]}" --ad "$ad" --hex-in
  done
  for bit in 0 9 18 27 36 45 54 63 64 73 82 91 100 109 118 127; do
    agrees 7 "${named[@]}" --key "$(flip "$key" "$bit")" --nonce "$nonce" --ad 07e8 --hex-in
    [ "$bit" -ge 96 ] || agrees 7 "${named[@]}" --key "$key" --nonce "$(flip "$nonce" "$bit")" --ad 07e8 --hex-in
  done
}

short_inputs() {
  local size
  for size in {0..9}; do
    bytes "$size" >input
    agrees $((size < 8 ? 5 : 7)) "${secrets[@]}"
    agrees $((size < 8 ? 5 : 7)) "${secrets[@]}" --ad 07e8 --in input
    hex_of input | fold -w 1 >sealed.hex
    agrees $((size < 8 ? 5 : 7)) "${secrets[@]}" --hex-in --in sealed.hex
  done
}

limits() { # the largest AD and message, and a byte more of each
  local size
  text "$message_max" >message
  text "$ad_max" >ad
  run 0 seal "${secrets[@]}" --ad-file ad --in message --out input
  agrees 0 "${secrets[@]}" --ad-file ad
  accepts "${secrets[@]}" --ad-file ad --in <(cat input)
  for size in $((ad_max + 1)) $((ad_max + piece)) $((2 * ad_max)); do
    text "$size" >longer
    run 3 open "${secrets[@]}" --ad-file longer
    refused 3 "$ad_too_long" check "${secrets[@]}" --ad-file longer
    refused 3 "$ad_too_long" check "${secrets[@]}" --ad-file <(cat longer)
  done
  cp input sealed
  for size in 1 $piece 100000; do
    text "$size" | cat sealed - >input
    run 4 open "${secrets[@]}" --ad-file ad
    refused 4 "$input_too_long" check "${secrets[@]}" --ad-file ad
    refused 4 "$input_too_long" check "${secrets[@]}" --in input
    hex_of input | fold >sealed.hex
    refused 4 "$input_too_long" check "${secrets[@]}" --ad-file ad --hex-in --in sealed.hex
  done
  head -c $((sealed_max - 1)) sealed >input
  agrees 7 "${secrets[@]}" --ad-file ad
}

order() { # everything behind is wrong too
  local size true_key="check with the key that it was sealed with"
  local blank="the key is 16 zero bytes, which anybody can guess: $true_key"
  blank+="; what was sealed with zeros opens with the version that sealed it, one before 3.0.0"
  text $((ad_max + 1)) >ad
  for size in 0 7 8 $((sealed_max + 1)); do
    bytes "$size" >input
    agrees 23 --edition 3 --key 00 --nonce 00 --ad-file ad
    agrees 1 "${named[@]}" --key "${zero_key}00" --nonce 00 --ad-file ad
    agrees 1 "${named[@]}" --key "" --nonce "$nonce"
    agrees 2 "${named[@]}" --key "$zero_key" --nonce "${nonce}00" --ad-file ad
    agrees 2 "${named[@]}" --key "$key" --nonce "${nonce%??}"
    run 15 open "${named[@]}" --key "$zero_key" --nonce "$nonce" --ad-file ad
    refused 15 "$blank" check "${named[@]}" --key "$zero_key" --nonce "$nonce" --ad-file ad
    refused 15 "$blank" check "${named[@]}" --key "$zero_key" --nonce "$nonce"
    run 3 open "${secrets[@]}" --ad-file ad
    refused 3 "$ad_too_long" check "${secrets[@]}" --ad-file ad
  done
  bytes 8 >input
  for one_bit in "80${zero_key:2}" "${zero_key:2}01"; do
    agrees 7 "${named[@]}" --key "$one_bit" --nonce "$nonce"
  done
}

editions() { # what one seals the other refuses, and no other number is one
  local first number
  text 20 >message
  for first in 1 2; do
    under "$first"
    run 0 seal "${secrets[@]}" --ad 07e8 --in message --out input
    agrees 0 "${secrets[@]}" --ad 07e8
    under $((3 - first))
    agrees 7 "${secrets[@]}" --ad 07e8
    check "the other edition is named" grep -q "edition $first (--edition $first)$" errors
  done
  under
  run 0 seal "${secrets[@]}" --in message --out input
  for number in '' 1 01; do
    agrees 0 --key "$key" --nonce "$nonce" ${number:+--edition "$number"}
  done
  for number in 0 3 257 4294967297 18446744073709551617; do
    agrees 23 --key "$key" --nonce "$nonce" "--edition=$number"
  done
}

hex_in_pieces() { # cut between the digits of a byte, and white space of more than a piece
  local payload shift at
  text 5000 >message
  run 0 seal "${secrets[@]}" --in message --hex-out
  payload=$(cat output)
  for shift in 0 1 2; do # spaces in front move the digits along the borders of the pieces
    printf '%*s%s\n' "$shift" '' "$payload" >input
    agrees 0 "${secrets[@]}" --hex-in
    printf '%*s%s' "$shift" '' "${payload::-1}" >input
    agrees 64 "${secrets[@]}" --hex-in
    for at in 1 $((piece - 1)) $piece $((piece + 1)) ${#payload}; do
      printf '%*s%sx%s' "$shift" '' "${payload:0:at - 1}" "${payload:at}" >input
      agrees 64 "${secrets[@]}" --hex-in
      check "place $((shift + at))" grep -q "'x' at place $((shift + at)) is no hex digit" errors
    done
  done
  fold -w 1 <<<"${payload^^}" >input
  agrees 0 "${secrets[@]}" --hex-in
  { printf '%s%10000s\n\t\r\n' "${payload:0:4001}" '' && printf '%s%10000s' "${payload:4001}" ''; } >input
  agrees 0 "${secrets[@]}" --hex-in
  : >input
  agrees 5 "${secrets[@]}" --hex-in
  bytes 10000 | tr '\0' '\n' >input
  agrees 5 "${secrets[@]}" --hex-in
}

usage_before_refusals() { # the input is read on behind a refusal
  local wrong=(--edition 3 --key 00 --nonce 00)
  text $((ad_max + 1)) >ad
  for size in 1 $piece 100000; do # digits
    { text "$size" | tr -c 0 0 && echo x; } >input
    agrees 64 "${wrong[@]}" --ad-file ad --hex-in
    agrees 64 "${secrets[@]}" --ad-file ad --hex-in
    agrees 64 "${secrets[@]}" --hex-in
  done
  echo 000 >input
  agrees 64 "${wrong[@]}" --hex-in
  agrees 64 "${wrong[@]}" --in absent
  agrees 64 "${wrong[@]}" --ad-file absent
  agrees 64 "${wrong[@]}" --ad-file . --in absent --ad 00
  agrees 64 "${wrong[@]}" --ad-file absent --in .
  agrees 74 "${wrong[@]}" --ad-file . --in absent
  agrees 74 "${wrong[@]}" --in .
  agrees 74 "${secrets[@]}" --ad-file ad --in .
  { text $((2 * sealed_max + 2)) | tr -c 0 0 && echo x; } >input # the one difference: it is not read so far
  run 64 open "${secrets[@]}" --hex-in
  { text $((2 * sealed_max + 2 * piece)) | tr -c 0 0 && echo x; } >input
  refused 4 "$input_too_long" check "${secrets[@]}" --hex-in
}

damaged() { # changes ./input, ./ad or $options in one of many ways, or nothing
  case $((RANDOM % 15)) in
    0) truncate -s $((RANDOM % 8)) input ;;
    1) truncate -s $((RANDOM % 40)) input ;;
    2) text "$message_max" >>input ;;
    3) text $((RANDOM * 4)) >>input ;;
    4) printf x | dd of=input conv=notrunc bs=1 seek=$((RANDOM % $(wc -c <input))) status=none ;;
    5) text "$ad_max" >>ad ;;
    6) printf x | dd of=ad conv=notrunc bs=1 seek=$((RANDOM % 20)) status=none ;;
    7) options+=("--key=$(flip "$key" $((RANDOM % 128)))" "--nonce=$nonce") ;;
    8) options+=("--key=${key:0:RANDOM % 16 * 2}" "--nonce=${nonce:0:RANDOM % 13 * 2}") ;;
    9) options+=("--key=$key" "--nonce=${nonce:0:RANDOM % 12 * 2}") ;;
    10) options+=("--key=$zero_key" "--nonce=$nonce") ;;
    11) options=(--ad-file ad --edition "$other") ;;
    12) options=(--ad-file ad --edition $((RANDOM + 3))) ;;
  esac
  [[ ${options[*]} = *--key* ]] || options+=(--key "$key" --nonce "$nonce")
}

random_inputs() { # COUNT: sealed, then damaged or not; open and check have the same status
  local i status options seen=' '
  RANDOM=$((1000 * edition + 17))
  for ((i = 0; i < $1; i++)); do
    text $((RANDOM % 3 ? RANDOM % 300 : RANDOM * 2)) >ad
    text $((RANDOM % 3 ? RANDOM % 50 : RANDOM * 2 % (message_max + 1))) >message
    run 0 seal "${secrets[@]}" --ad-file ad --in message --out input
    options=("${named[@]}" --ad-file ad)
    damaged
    status=0
    "$tool" open "${options[@]}" <input >opened 2>said || status=$?
    run "$status" check "${options[@]}"
    check "check ${options[*]}: standard output" [ ! -s output ]
    [[ $seen = *" $status "* ]] || seen+="$status "
  done
  for status in 0 1 2 3 4 5 7 15 23; do
    check "status $status among the random inputs" grep -q " $status " <<<"$seen"
  done
}

memory() { # in an address space where the input has no room, and without reading all of it
  local large=100000000 kib=20000 status left
  truncate -s $large large
  status=0
  (ulimit -v $kib && "$tool" open "${secrets[@]}" --in large >output 2>errors) || status=$?
  check "no room for the input" [ "$status" != 4 ]
  for from in --in=large --in=/dev/zero; do
    status=0
    (ulimit -v $kib && "$tool" check "${secrets[@]}" "$from" >output 2>errors) || status=$?
    check "check $from" [ "$status" = 4 ]
    status=0
    (ulimit -v $kib && "$tool" check "${secrets[@]}" "--ad-file=${from#*=}" >output 2>errors) || status=$?
    check "check --ad-file=${from#*=}" [ "$status" = 3 ]
  done
  left=$({ "$tool" check "${secrets[@]}" 2>errors || wc -c; } <large)
  check "the input is not read to its end: $left left" [ "$left" -ge $((large - 2 * sealed_max)) ]
  yes 00 2>errors | "$tool" check "${secrets[@]}" --hex-in >output 2>errors
  check "hex digits without an end" [ "${PIPESTATUS[1]}" = 4 ]
  text 20 >input
  run 0 seal "${secrets[@]}" --hex-out
  status=0
  { head -c $large /dev/zero | tr '\0' ' ' && cat output; } |
    (ulimit -v $kib && "$tool" check "${secrets[@]}" --hex-in 2>errors) || status=$?
  check "white space of $large bytes" [ "$status" = 0 ]
  rm large
}

odd_files() { # a length that the metadata doesn't say, and a file that changes between its two readings
  local pid status=0
  : >message
  if [ -r /proc/version ]; then
    run 0 seal "${secrets[@]}" --ad-file /proc/version --in message --out input
    agrees 0 "${secrets[@]}" --ad-file /proc/version
  fi
  text 500 >ad
  run 0 seal "${secrets[@]}" --ad-file ad --in message --out sealed
  mkfifo pipe
  "$tool" check "${secrets[@]}" --ad-file ad --in pipe >output 2>errors &
  pid=$!
  sleep 0.2 # it waits for the pipe to be opened
  text 100 >ad
  cat sealed >pipe
  wait $pid || status=$?
  check "AD of a file that became shorter: $(cat errors)" grep -qxE '7|74' <<<"$status"
  check "AD of a file that became shorter: standard output" [ ! -s output ]
  rm pipe
}

wrong_usage() {
  local option
  : >input
  for option in --out --out=absent --hex-out --id --flags --tag; do
    misused "unknown option '${option%%=*}'" check "${secrets[@]}" "$option" 00
  done
  check "no file was made" [ ! -e absent ]
  misused "unexpected argument 'log.sealed'" check "${secrets[@]}" log.sealed
  misused "unknown command 'chekc'" chekc "${secrets[@]}"
  misused "--key or --key-file is needed" check --nonce "$nonce"
  misused "--nonce or --nonce-file is needed" check --key "$key"
  misused "--key and --key-file exclude each other" check "${secrets[@]}" --key-file key
  misused "--ad and --ad-file exclude each other" check "${secrets[@]}" --ad 00 --ad-file ad
  misused "--in has no value" check "${secrets[@]}" --in
  misused "--hex-in takes no value" check "${secrets[@]}" --hex-in=yes
  misused "--ad is given twice" check "${secrets[@]}" --ad 00 --ad 00
  misused "--ad: 3 hex digits, and a byte takes two" check "${secrets[@]}" --ad 123
  misused "--ad: 'x' at place 2 is no hex digit" check "${secrets[@]}" --ad 0x
  misused "--edition: 'x' is no number in decimal digits" check "${secrets[@]}" --edition x
  misused "--in: no file 'absent'" check "${secrets[@]}" --in absent
  misused "--ad-file: no file 'absent'" check "${secrets[@]}" --ad-file absent
  misused "--key-file: no file 'absent'" check --key-file absent --nonce "$nonce"
  fails_to "read '.'" check "${secrets[@]}" --in .
  fails_to "read '.'" check "${secrets[@]}" --ad-file .
  "$tool" check "${secrets[@]}" <. >output 2>errors
  check "standard input that can't be read: status" [ $? = 74 ]
  check "standard input that can't be read" grep -q "^tikhoplav: cannot read standard input" errors
}

help_of_check() {
  : >input
  run 0 --help
  cp output help
  check "--help shows how to check" \
    grep -q "^ *tikhoplav check KEY NONCE \[AD\] \[--edition 1|2\] \[--in FILE\] \[--hex-in\]$" help
  check "--help has the size of a piece" grep -q "in pieces of at most $piece bytes" help
  check "--help has the refusals of streams" [ "$(grep -c '^        1[34] .*(the library' help)" = 2 ]
  run 0 check --help
  check "check --help" cmp help output
}

for named_edition in '' 1 2; do
  under ${named_edition:+"$named_edition"}
  known_payloads
  message_sizes
  ad_sizes
  short_inputs
  limits
  order
done
for named_edition in 1 2; do
  under "$named_edition"
  damage
  pipes
  random_inputs 150
done
editions
under
hex_in_pieces
usage_before_refusals
memory
odd_files
wrong_usage
help_of_check
echo "$checks checks hold"
