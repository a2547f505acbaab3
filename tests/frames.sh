#!/usr/bin/env bash
# Drives the commands on CAN FD frames as a user would. Usage: tests/frames.sh TOOL HEADER
set -u
# shellcheck source=tests/driving.sh
. "$(dirname "$0")/driving.sh" || exit 1

message_max=$(defined FRAME_MESSAGE_MAX)
identifier_max=$(printf '%X' "$(defined IDENTIFIER_MAX)")

# The bytes 00 01 02 .. of the longest message, and its ciphertext under each edition, whatever the identifier.
counting=$(printf '%02x' {0..54})
first=38DE8544F8858B73E768036DBB485F8D818B2A729561E66A84388A90597C9C8EC755F889B228416C12B61ED7656E1D3B14F0460BA82E89
second=8FB13395D4BAA2AD1CFFB78BB834EF85869CBB6DAB53D048AB5AF0CC10EB43531CE8DC89EC16EA32A57BD99188945820BC8074D0D997FA
zeros=$(printf '%0128d' 0)
blank_key="the key is 16 zero bytes, which anybody can guess"

wrong_tag() { # what is said of a wrong tag
  local said="the tag is wrong: the key, the nonce, the identifier, the length code or the data field"
  echo "$said is not as it was sealed, or it was sealed under edition $other (--edition $other)"
}

coded() { # M: the smallest length of CAN FD that holds a message of so many bytes, its length and its tag
  local length
  for length in 12 16 20 24 32 48 64; do
    [ "$length" -lt $(($1 + 9)) ] || break
  done
  echo "$length"
}

data_field() { # M TAG: the data field with the first M of the counting bytes
  local ciphertext sealed
  ciphertext=$(of_edition $first $second)
  sealed=$(printf '%02X' "$1")${ciphertext:0:2*$1}$2
  echo "$sealed${zeros:0:2*$(coded "$1") - ${#sealed}}"
}

sample() { # sets the message 00010203, its data field and its frame
  printf '\x00\x01\x02\x03' >message
  field=$(data_field 4 "$(of_edition 30B8D7E65A8F6F8D 83AA4F3B03CF3BAC)")
  frame=123##0$field
}

known_frames() { # made byte for byte, and read again
  local ids id size tag_1 tag_2
  while read -r ids size tag_1 tag_2; do
    for id in ${ids/,/ }; do
      echo "${counting:0:2*size}" >input
      run 0 frame make "${secrets[@]}" --id "$id" --hex-in
      check "frame $id, message of $size" \
        cmp output <(echo "$id##0$(data_field "$size" "$(of_edition "$tag_1" "$tag_2")")")
      cp output input
      run 0 frame read "${secrets[@]}" --hex-out
      check "frame $id, message of $size, read" cmp output <(echo "${counting:0:2*size}")
    done
  done <<'END'
123,00000123 0 95A47115559BA805 89818C240DE1B0AB
123,00000123 3 55E68D907D3530C8 DA679E0386DB0760
123,00000123 4 30B8D7E65A8F6F8D 83AA4F3B03CF3BAC
123,00000123 39 2FFCDE063128172C 570F620DBCBEEF8C
123,00000123 40 54EC343F057FF8DE 4EFCF3BDB0FC1B19
123,00000123 55 23F1DE9B6951EC31 BA16E42B9DF797E1
18DAF110 0 13B7543B914A358F C561A13708B4263D
18DAF110 3 D3F5A8BEB9E4AD42 9687B310838E91F6
18DAF110 4 B6ABF2C89E5EF207 CF4A6228069AAD3A
18DAF110 39 A9EFFB28F5F98AA6 1BEF4F1EB9EB791A
18DAF110 40 D2FF1111C1AE6554 021CDEAEB5A98D8F
18DAF110 55 A5E2FBB5AD8071BB F6F6C93898A20177
000,00000000 4 08E2AE37621E5286 FA9E9032A9EC58D1
7FF,000007FF 4 04486E04FF2BCF02 22F7C2BF7A7A0430
00000800 4 E33E8A47E9454C0F A0EA9340E757736D
1FFFFFFF 4 BE548501FCAE1897 F2808FE6CDF84D51
END
}

round_trips() { # the shortest and the longest message of each length code, through files and through streams
  local size
  printf '\x00\x01\x02\x03\x04\x05\x06\x07\x08\x09\x0a\x0b\x0c\x0d\x0e\x0f' >key
  head -c 12 key >nonce
  for size in 0 3 4 7 8 11 12 15 16 23 24 39 40 "$message_max"; do
    yes "engine 2400 rpm" | head -c "$size" >input
    run 0 frame make "${named[@]}" --key-file key --nonce-file nonce --id=7e8 --flags=3 --in input --out made
    check "nothing on standard output beside --out" [ ! -s output ]
    check "the line of $size bytes" grep -qxE "7E8##3[0-9A-F]{$((2 * $(coded "$size")))}" made
    run 0 frame make "${secrets[@]}" --id 7E8 --flags 3 --in - --out -
    check "files and streams, $size bytes" cmp made output
    run 0 frame read --key-file key --nonce-file nonce --in made --out read "${named[@]}"
    check "files, $size bytes" cmp input read
    cp input message && cp made input
    run 0 frame read "${secrets[@]}" --in - --out -
    check "streams, $size bytes" cmp message output
  done
}

reads() { # TEXT: the frame in it is the sample's
  printf '%s' "$1" >input
  run 0 frame read "${secrets[@]}"
  check "read: $1" cmp message output
}

notations() {
  local dotted log='(1436509052.249713) can0'
  sample
  dotted=$(fold -w 2 <<<"$field" | tr '\n' .) # one behind the last byte too
  for text in "$frame" "$frame"$'\n' "$frame"$'\r\n' $'\n\n \t'"$frame"$' \t\n\n' "123##0${field,,}" \
    "00000123##0$field"; do
    reads "$text"
  done
  for text in "123##0$dotted" "123##0${dotted%.}" "123##0.$dotted" "123##0${field::6}.${field:6}"; do
    reads "$text"
    reads "$log $text"
  done
  for text in "$log $frame" "$log $frame"$'\n' "$log $frame R" "$log $frame T"$'\n' " $log  $frame  R "$'\r\n' \
    "(1436509052.249713)   vcan10 $frame" "(000.000001) slcan0 $frame" "$log"$'\t'"$frame"$'\t'R \
    "(2015-07-10 08:17:32.249713) can0 $frame R" "$log 00000123##5${field,,}"; do
    reads "$text"
  done
}

flags() { # written as they are asked for, and not checked
  local digit
  sample
  for digit in {0..9} {a..f} {A..F}; do
    cp message input
    run 0 frame make "${secrets[@]}" --id 123 --flags "$digit"
    check "--flags $digit" cmp output <(echo "123##${digit^^}$field")
    reads "123##$digit$field"
  done
}

refuses_frame() { # NUMBER SENTENCE FRAME [OPTION...]: for reading
  local number=$1 sentence=$2
  echo "$3" >input
  shift 3
  refuses "$number" "$sentence" frame read "$@"
}

refusals_of_making() {
  local zero_key=(--key "${zeros:0:32}" --nonce "$nonce" "${named[@]}")
  local random="seal with a random one ('head -c 16 /dev/urandom >lab.key' makes one, for --key-file lab.key)"
  local too_long="the message is $((message_max + 1)) bytes, and a frame holds at most $message_max"
  local make=(frame make "${named[@]}")
  bytes $((message_max + 1)) >input # what is wrong in each case, too, and comes last
  refuses 1 "the key is 15 bytes, and must be 16" "${make[@]}" --key "${key%??}" --nonce "$nonce"00 --id 20000000
  refuses 1 "the key is 0 bytes, and must be 16" "${make[@]}" --key "" --nonce "$nonce" --id 123
  refuses 2 "the nonce is 13 bytes, and must be 12" "${make[@]}" --key "${zeros:0:32}" --nonce "$nonce"00 --id 20000000
  refuses 2 "the nonce is 1 byte, and must be 12" "${make[@]}" --key "$key" --nonce 00 --id 123
  refuses 15 "$blank_key: $random" frame make "${zero_key[@]}" --id 20000000
  refuses 15 "$blank_key: $random" frame make "${zero_key[@]}" --id 123
  for id in 20000000 2000000a 80000123 FFFFFFFF; do
    refuses 8 "the identifier is ${id^^}, and may be at most $identifier_max" frame make "${secrets[@]}" --id "$id"
  done
  refuses 9 "$too_long" frame make "${secrets[@]}" --id 123
  refuses 9 "$too_long" frame make "${secrets[@]}" --id 1FFFFFFF --flags 1
  bytes 256 >input
  refuses 9 "the message is 256 bytes, and a frame holds at most $message_max" frame make "${secrets[@]}" --id 000
}

refusals_of_inputs() { # when reading: everything behind is wrong too
  local zero_key=(--key "${zeros:0:32}" --nonce "$nonce" "${named[@]}")
  local wrong=20000000##0FF${zeros:0:24}
  refuses_frame 1 "the key is 17 bytes, and must be 16" "$wrong" --key "$key"00 --nonce 00 "${named[@]}"
  refuses_frame 2 "the nonce is 0 bytes, and must be 12" "$wrong" --key "${zeros:0:32}" --nonce "" "${named[@]}"
  refuses_frame 15 "$blank_key: read the frame with the key that it was sealed with" "$wrong" "${zero_key[@]}"
  refuses_frame 8 "the identifier is 20000000, and may be at most $identifier_max" "$wrong" "${secrets[@]}"
  refuses_frame 8 "the identifier is FFFFFFFF, and may be at most $identifier_max" ffffffff##0 "${secrets[@]}"
}

refusals_of_lengths() { # of the data field, and of the message in it
  local length says named_lengths="(0 to 8, 12, 16, 20, 24, 32, 48 or 64)"
  for length in 9 10 11 13 15 17 21 31 33 47 49 63 65 72 128 1000; do
    refuses_frame 10 "$length bytes are no coded length of CAN FD $named_lengths" \
      "123##0$(printf 'FF%0*d' $((2 * length - 2)) 0)" "${secrets[@]}"
  done
  refuses_frame 11 "the data field is empty, and has no length byte" 123##0 "${secrets[@]}"
  for says in 56 60 127 128 255; do
    refuses_frame 11 "the length byte says $says, and a frame holds at most $message_max" \
      "123##0$(printf '%02X' "$says")${zeros:0:124}01" "${secrets[@]}"
  done
  while read -r says fits length; do # the last byte is no zero: where it is filler, that comes later
    refuses_frame 11 "the length byte says $says, which takes $fits bytes, and the data field is $length" \
      "123##0$(printf '%02X' "$says")${zeros:0:2*${length% bytes} - 4}01" "${secrets[@]}"
  done <<'END'
0 12 2 bytes
0 12 8 bytes
0 12 16 bytes
3 12 16 bytes
4 16 12 bytes
7 16 20 bytes
39 48 64 bytes
40 64 48 bytes
55 64 12 bytes
END
  refuses_frame 11 "the length byte says 0, which takes 12 bytes, and the data field is 1 byte" 123##000 "${secrets[@]}"
}

refusals_of_filler() {
  local place damaged
  sample
  for place in 14 15 16; do
    damaged=${field:0:2*place - 2}10${field:2*place}
    refuses_frame 12 "byte $place of the data field is 10, and filler must be 00" "123##0$damaged" "${secrets[@]}"
  done
  refuses_frame 12 "byte 14 of the data field is 0A, and filler must be 00" "124##0${field::27}A00FF" "${secrets[@]}"
  damaged=$(data_field 40 FFFFFFFFFFFFFFFF) # a wrong tag comes later
  refuses_frame 12 "byte 64 of the data field is 01, and filler must be 00" "123##0${damaged%?}1" "${secrets[@]}"
}

refusals_of_tags() {
  local place
  sample
  for place in 3 10 11 26; do # the first and the last digit of ciphertext and of tag
    refuses_frame 7 "$(wrong_tag)" "123##0$(flipped "$place")" "${secrets[@]}"
  done
  for id in 122 323 00000124 10000123 000; do
    refuses_frame 7 "$(wrong_tag)" "$id##0$field" "${secrets[@]}"
  done
  refuses_frame 7 "$(wrong_tag)" "123##005${field:2}" "${secrets[@]}" # a longer message fits the filler
  refuses_frame 7 "$(wrong_tag)" "$frame" --key "$key" --nonce "${nonce%?}c" "${named[@]}"
  refuses_frame 7 "$(wrong_tag)" "$frame" --key "${key%?}e" --nonce "$nonce" "${named[@]}"
}

flipped() { # PLACE: the sample's data field with a bit changed in this digit
  local digit=${field:$1 - 1:1}
  printf '%s%X%s' "${field:0:$1 - 1}" $((0x$digit ^ 1)) "${field:$1}"
}

the_other_edition() { # FIRST SECOND: what one edition makes the other refuses
  under "$1"
  sample
  under "$2"
  refuses_frame 7 "$(wrong_tag)" "$frame" "${secrets[@]}"
}

unknown_editions() { # before every other refusal
  local number said
  for number in 0 3 003 257 4294967297; do
    said="the edition is $number, and must be 1 or 2"
    bytes $((message_max + 1)) >input
    refuses 23 "$said" frame make --key "" --nonce "" --id 20000000 --edition "$number"
    refuses 23 "$said" frame make "${secrets[@]}" --id 123 "--edition=$number"
    refuses_frame 23 "$said" 20000000##0 --key "" --nonce "" --edition "$number"
    refuses_frame 23 "$said" "123##000${zeros:0:22}" "${secrets[@]}" "--edition=$number"
  done
}

no_frame() { # WHAT TEXT: wrong usage, told apart from a refusal; nothing is written
  printf '%s' "$2" >input
  misused "$1" frame read "${secrets[@]}"
  run 64 frame read "${secrets[@]}" --out absent
  check "$2" [ ! -e absent ]
  misused "$1" frame read --key "" --nonce "" --edition 3 # before every refusal
}

no_identifier() { # TEXT: what is said of it
  echo "'$1' is no identifier: three hex digits, 000 to 7FF, or eight"
}

wrong_lines() {
  local text log='(1436509052.249713) can0'
  local layout="the input is neither a frame alone nor a line as candump -L has it"
  sample
  for text in '' $'\n' $' \t\r\n' 123 "$field" "$log" "$log R" '(1436509052.249713)' \
    '  can0  123  [04]  00 01 02 03'; do
    no_frame "there is no frame in the input" "$text"
  done
  for text in "$frame $frame" "$frame"$'\n'"$frame"$'\n' "$log $frame"$'\n'"$log $frame" "$log $frame R $frame" \
    "$frame 123#00" "$frame #"; do
    no_frame "there is more than one frame in the input" "$text"
  done
  for text in "can0 $frame" "$frame R" "$frame can0" "(1436509052.249713) $frame" "(1436509052.249713) $frame R" \
    "$log $frame X" "$log $frame RT" "$log $frame R T" "$log can1 $frame" "(1436509052.249713 can0 $frame" \
    "1436509052.249713 can0 $frame" "123##0 $field" "123##0${field:0:2} ${field:2}"; do
    no_frame "$layout" "$text"
  done
}

wrong_frames() {
  local text one_mark="it has one # behind the identifier, as in classic CAN, and not two"
  sample
  for text in 123#1122 123# 00000123#11.22 "123#$field" '(1436509052.249713) can0 123#1122' '123#1122334455667788_E' \
    '45123#81:00:12345678#11223344'; do
    no_frame "the frame is not CAN FD: $one_mark" "$text"
  done
  for text in 123#R 123#r 123#R5 00000123#R '(1436509052.249713) can0 123#R R'; do
    no_frame "the frame is a remote frame, which has no data" "$text"
  done
  for text in 123## 00000123## '(1436509052.249713) can0 123## T'; do
    no_frame "the frame has no flags digit behind ##" "$text"
  done
  for text in g . '#' R x; do
    no_frame "'$text' is no flags digit" "123##$text$field"
  done
  for text in '' 12 1234 12345 1234567 123456789 800 FFF 12g 0x123 +12 1.3 '12_' 0000012G 1234567890123456789; do
    no_frame "$(no_identifier "$text")" "$text##0$field"
  done
  no_frame "$(no_identifier "${zeros:0:20}")" "${zeros:0:20}##0$field"
  no_frame "$(no_identifier "${zeros:0:20}..")" "${zeros:0:21}##0$field"
  no_frame "$(no_identifier '\xc2\xb23')" "²3##0$field"
}

wrong_data() {
  sample
  no_frame "the frame's data: 31 hex digits, and a byte takes two" "123##0${field%?}"
  no_frame "the frame's data: 33 hex digits, and a byte takes two" "123##0${field}0"
  no_frame "the frame's data: 3 hex digits, and a byte takes two" "123##0112"
  no_frame "the frame's data: 'x' at place 3 is no hex digit" "123##0${field:0:2}x${field:3}"
  no_frame "the frame's data: '#' at place 1 is no hex digit" "123##0#$field"
  no_frame "the frame's data: '.' at place 2 is no hex digit" "123##0${field:0:1}.${field:1}"
  no_frame "the frame's data: '.' at place 3 is no hex digit" "123##0${field:0:2}..${field:2}"
  no_frame "the frame's data: '.' at place 1 is no hex digit" "123##0..$field"
  no_frame "the frame's data: '.' at place 33 is no hex digit" "123##0$field.."
  no_frame "the frame's data: '-' at place 3 is no hex digit" "123##0${field:0:2}-${field:2}"
}

wrong_usage() {
  local text edition_3=(--key "" --nonce "" --edition 3)
  : >input
  misused "frame: make or read is needed" frame
  misused "unknown command 'frame mkae'" frame mkae "${secrets[@]}" --id 123
  misused "unknown command 'frame --id'" frame --id 123 make
  misused "unknown command 'make'" make "${secrets[@]}" --id 123
  misused "--id is needed" frame make "${secrets[@]}"
  misused "--id is needed" frame make "${edition_3[@]}"
  misused "--id has no value" frame make "${secrets[@]}" --id
  misused "--id is given twice" frame make "${secrets[@]}" --id 123 --id 123
  for text in '' 1 12 1234 1234567 123456789 800 FFF 0x123 12g ' 123' '123 ' +12 -12 123## 200000000; do
    misused "--id: $(no_identifier "$text")" frame make "${secrets[@]}" --id "$text"
    misused "--id: $(no_identifier "$text")" frame make "${edition_3[@]}" "--id=$text" --out absent
    check "--id '$text'" [ ! -e absent ]
  done
  for text in '' 00 10 g 0x1 ' ' -1 +; do
    misused "--flags: '$text' is no flags digit" frame make "${secrets[@]}" --id 123 --flags "$text"
  done
  misused "--flags has no value" frame make "${secrets[@]}" --id 123 --flags
  for text in --ad --ad-file --hex-out; do
    misused "unknown option '$text'" frame make "${secrets[@]}" --id 123 "$text" 00
  done
  for text in --ad --ad-file --hex-in --id --flags; do
    misused "unknown option '$text'" frame read "${secrets[@]}" "$text" 00
  done
  misused "unexpected argument '123##0'" frame read "${secrets[@]}" 123##0
  misused "unknown option '--id'" seal "${secrets[@]}" --id 123
}

wrong_inputs() { # as for seal and open
  sample
  cp message input
  misused "--key or --key-file is needed" frame make --nonce "$nonce" --id 123
  misused "--nonce or --nonce-file is needed" frame read --key "$key"
  misused "--key and --key-file exclude each other" frame read "${secrets[@]}" --key-file key
  misused "--edition: 'x' is no number in decimal digits" frame make "${secrets[@]}" --id 123 --edition x
  misused "--edition: '' is no number in decimal digits" frame read "${secrets[@]}" --edition=
  misused "--hex-in: '\\x00' at place 1 is no hex digit" frame make "${secrets[@]}" --id 123 --hex-in
  misused "--in: no file 'absent'" frame make "${secrets[@]}" --id 123 --in absent
  misused "--in: no file 'absent'" frame read "${secrets[@]}" --in absent
  fails_to "read '.'" frame make "${secrets[@]}" --id 123 --in .
  fails_to "read '.'" frame read "${secrets[@]}" --in .
  fails_to "write 'absent/out'" frame make "${secrets[@]}" --id 123 --out absent/out
  fails_to "write '/dev/full'" frame make "${secrets[@]}" --id 123 --out /dev/full
  echo "$frame" >input
  fails_to "write '/dev/full'" frame read "${secrets[@]}" --out /dev/full
}

help_of_frames() {
  local said order command
  : >input
  run 0 --help
  cp output help
  check "--help shows how to make" grep -q "^ *tikhoplav frame make KEY NONCE --id ID \[OPTION...\]$" help
  check "--help shows how to read" grep -q "^ *tikhoplav frame read KEY NONCE \[OPTION...\] " help
  check "--help has the largest identifier" grep -q "8 the identifier is over $identifier_max " help
  check "--help has the longest message" grep -q "9 the message is over $message_max bytes " help
  said="not authenticated: the flags, and whether the identifier is written with three digits or eight"
  check "--help says what is not authenticated" grep -q "$said" <(paste -sd ' ' help)
  order=$(sed -n '/in this order:$/,/^  64/s/^        \([0-9][0-9]*\) .*/\1/p' help | paste -sd ' ')
  check "--help has the order of the refusals" [ "$order" = "23 1 2 15 19 20 3 14 13 4 5 16 18 17 8 9 10 11 12 6 7 21 22" ]
  for command in "" make read; do
    run 0 frame ${command:+"$command"} --help
    check "frame $command --help" cmp help output
  done
}

for named_edition in '' 1 2; do
  under ${named_edition:+"$named_edition"}
  known_frames
  round_trips
  refusals_of_making
  refusals_of_inputs
  refusals_of_lengths
  refusals_of_filler
  refusals_of_tags
done
the_other_edition 1 2
the_other_edition 2 1
under
notations
flags
unknown_editions
wrong_lines
wrong_frames
wrong_data
wrong_usage
wrong_inputs
help_of_frames
echo "$checks checks hold"
