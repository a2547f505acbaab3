#!/usr/bin/env bash
# Drives the command-line tool as a user would. Usage: tests/tool.sh TOOL HEADER
set -u
# shellcheck source=tests/driving.sh
. "$(dirname "$0")/driving.sh" || exit 1

version=$(defined VERSION)
ad_max=$(defined AD_MAX)
message_max=$(defined MESSAGE_MAX)
sealed_max=$((message_max + $(defined TAG_SIZE)))
sealed_before="a version before 2.0.0 sealed it: what those sealed with associated data of 128 to 255 bytes no longer opens"

wrong_tag() { # [WHY]: what is said of a wrong tag
  local said="the tag is wrong: the key, the nonce, the associated data or the sealed input is not as it was sealed"
  echo "$said${1:+, or $1}, or it was sealed under edition $other (--edition $other)"
}

round_trips() {
  printf '\x00\x01\x02\x03\x04\x05\x06\x07\x08\x09\x0a\x0b\x0c\x0d\x0e\x0f' >key
  head -c 12 key >nonce
  bytes "$ad_max" | tr '\0' 'a' >ad
  for size in 0 1 8 1000 "$message_max"; do
    yes "engine 2400 rpm" | head -c "$size" >input
    run 0 seal "${named[@]}" --key-file key --nonce-file nonce --ad-file ad --in input --out sealed
    check "size of the payload" [ "$(wc -c <sealed)" = $((size + 8)) ]
    run 0 open --key-file key --nonce-file nonce --ad-file ad --in sealed --out opened "${named[@]}"
    check "files, $size bytes" cmp input opened
    run 0 seal "${secrets[@]}" --ad 0102
    cp input message && cp output input
    run 0 open "${secrets[@]}" --ad=0102 --in - --out -
    check "streams, $size bytes" cmp message output
  done
}

hex() {
  echo "00 01 02 03 04 05 06 07 08090A0B0C0D0E0F" >input
  run 0 seal "${secrets[@]}" --ad 0001020304050607 --hex-in --hex-out
  check "known answer" [ "$(cat output)" = "$(
    of_edition 47fd828e70ea670e6ebe4f5a8e9c9437a7da12cc950440d2 96d1bda7ae11f0ba88bd33ea869b83a6d9240cb51acdec36)" ]
  cp output input
  run 0 open "${secrets[@]}" --ad 0001020304050607 --hex-in --hex-out --out opened
  check "opened in hex" [ "$(cat opened)" = 000102030405060708090a0b0c0d0e0f ]
  check "nothing on standard output beside --out" [ ! -s output ]
}

ad_lengths() { # sealed and opened at the borders of the forms in which the length is coded, and at the limit
  local counting size first second before=''
  counting=$(yes "$(printf '%02x' {0..255})" | head -n $((ad_max / 256 + 1)) | tr -d '\n')
  while read -r size first second; do
    echo 00 >input
    run 0 seal "${secrets[@]}" --ad "${counting:0:2*size}" --hex-in --hex-out
    check "sealed with an AD of $size bytes" [ "$(cat output)" = "$(of_edition "$first" "$second")" ]
    cp output input
    run 0 open "${secrets[@]}" --ad "${counting:0:2*size}" --hex-in --hex-out
    check "opened with an AD of $size bytes" [ "$(cat output)" = 00 ]
  done <<END
127 a2207cc5f6ba726f2e 5fc4d42667f661984d
128 874da861f8fc923ac3 8d228ed27ece2d5097
255 bfd25bb44ddede2220 fbf25bba1cf5747465
256 536e8b79a3c2e58bc7 9c162baa790a6584c3
$ad_max 8560c8a34f0fd0d1fe 4aadca1b3d20b902dc
END
  # Versions before 2.0.0 coded these lengths with 0x82 and two bytes, and sealed under edition 1.
  [ "$edition" = 2 ] || before=$sealed_before
  while read -r size first second; do
    of_edition "$first" "$second" >input
    refuses 7 "$(wrong_tag "$before")" open "${secrets[@]}" --ad "${counting:0:2*size}" --hex-in
  done <<'END'
128 9635b961e8b68c5125 10ce32857c6d2a561b
255 d6c66cd4cafa94b22a cb1b5ae747340ea4d4
END
  for size in 127 256; do
    refuses 7 "$(wrong_tag)" open "${secrets[@]}" --ad "${counting:0:2*size}" --hex-in
  done
}

another_tag() { # the tag of AD a5 and message 3c, under the AD and the ciphertext of pairs of other lengths
  local payload tag
  local options=(--key 0123456789abcdef123456789abcdef0 --nonce 0123456789abcdef12345678 --hex-in --hex-out)
  echo 3c >input
  run 0 seal "${options[@]}" --ad a5
  payload=$(cat output) tag=d6c32c33d667067f
  check "AD a5, message 3c" [ "$payload" = "24$tag" ]
  echo 8000 >input
  run 0 seal "${options[@]}" --ad a53c
  payload=$(cat output)
  echo "${payload::-16}$tag" >input
  refuses 7 "$(wrong_tag)" open "${options[@]}" --ad a53c
  echo 812944edc3157ad6 >input
  run 0 seal "${options[@]}" --ad a53c
  check "AD a53c, message 812944edc3157ad6" [ "$(cat output)" = "4793b233639328d6$tag" ]
  cp output input
  run 0 open "${options[@]}" --ad a53c
  check "opened with the other's tag" [ "$(cat output)" = 812944edc3157ad6 ]
}

file_in_place() {
  echo "engine 2400 rpm" >log
  run 0 seal "${secrets[@]}" --in log --out log
  run 0 open "${secrets[@]}" --in log --out log
  check "sealed and opened in place" [ "$(cat log)" = "engine 2400 rpm" ]
}

parts() {
  local all=000102030405060708090a0b0c0d0e0f10111213 ciphertext tag said
  printf '\x00\x01\x02\x03\x04\x05\x06\x07\x08\x09\x0a\x0b\x0c\x0d\x0e\x0f\x10\x11\x12\x13' >whole
  for size in {0..20}; do
    ciphertext=${all:0:2*size} tag='' said="$size bytes"
    [ "$size" != 1 ] || said="1 byte"
    if [ "$size" -ge 8 ]; then
      ciphertext=${all:0:2*(size - 8)} tag=${all:2*(size - 8):16}
    fi
    head -c "$size" whole >sealed
    run 0 parts --in sealed
    check "both parts of $size bytes" cmp output <(printf '%s\n' "$ciphertext" "$tag")
    echo "${all:0:2*size}" >input
    run 0 parts --hex-in
    check "both parts of $size bytes in hex" cmp output <(printf '%s\n' "$ciphertext" "$tag")
    if [ "$size" -ge 8 ]; then
      check "$size bytes have a tag" [ ! -s errors ]
      continue
    fi
    check "$size bytes have no tag" \
      [ "$(cat errors)" = "tikhoplav: too short to have a tag: the sealed input is $said, and a tag alone is 8" ]
    refuses 5 "the sealed input is $said, and its tag alone is 8" open "${secrets[@]}" --hex-in
  done
  bytes $((sealed_max + 1)) | tr '\0' 'a' >sealed
  run 0 parts --in sealed
  check "both parts of an input over the limit" \
    cmp output <(printf '%s\n' "$(yes 61 | head -n $((message_max + 1)) | tr -d '\n')" 6161616161616161)
  cp output input
  run 0 parts --hex-in --in -
  check "both lines together are the input" cmp output input
}

refusals() {
  local said
  bytes 20 >input
  refuses 1 "the key is 15 bytes, and must be 16" seal "${named[@]}" --key "${key%??}" --nonce "$nonce"00
  refuses 1 "the key is 0 bytes, and must be 16" open "${named[@]}" --key "" --nonce "$nonce"
  refuses 1 "the key is 1 byte, and must be 16" open "${named[@]}" --key 00 --nonce "$nonce"
  refuses 2 "the nonce is 13 bytes, and must be 12" seal "${named[@]}" --key "$key" --nonce "$nonce"00
  bytes $((ad_max + 1)) >ad
  said="the associated data is $((ad_max + 1)) bytes, and may be at most $ad_max"
  refuses 3 "$said" seal "${secrets[@]}" --ad-file ad
  refuses 3 "$said" open "${secrets[@]}" --ad-file ad
  refuses 7 "$(wrong_tag)" open "${secrets[@]}"
  bytes $((message_max + 1)) >input
  refuses 4 "the message is $((message_max + 1)) bytes, and may be at most $message_max" seal "${secrets[@]}"
  for size in $((sealed_max + 1)) $((2 * sealed_max)); do
    bytes "$size" >input
    refuses 4 "the sealed input is $size bytes, and may be at most $sealed_max" open "${secrets[@]}"
  done
  bytes 7 >input
  refuses 5 "the sealed input is 7 bytes, and its tag alone is 8" open "${secrets[@]}"
}

blank_key() {
  local zeros=00000000000000000000000000000000 before=745ae7df99e53357c1e73755b3251b58e360a2a0ccdb9d
  local is="the key is 16 zero bytes, which anybody can guess"
  local seal="$is: seal with a random one ('head -c 16 /dev/urandom >lab.key' makes one, for --key-file lab.key)"
  local open="$is: open with the key that it was sealed with"
  open+="; what was sealed with zeros opens with the version that sealed it, one before 3.0.0"
  bytes 16 >key
  bytes $((ad_max + 1)) >ad
  bytes 20 >input
  refuses 15 "$seal" seal "${named[@]}" --key "$zeros" --nonce "$nonce"
  refuses 15 "$seal" seal "${named[@]}" --key-file key --nonce "$nonce" --ad-file ad
  refuses 15 "$open" open "${named[@]}" --key "$zeros" --nonce "$nonce"
  bytes $((sealed_max + 1)) >input
  refuses 15 "$seal" seal "${named[@]}" --key "$zeros" --nonce "$nonce" --ad-file ad
  refuses 15 "$open" open "${named[@]}" --key "$zeros" --nonce "$nonce" --ad-file ad
  bytes 7 >input
  refuses 15 "$open" open "${named[@]}" --key "$zeros" --nonce "$nonce"
  refuses 2 "the nonce is 11 bytes, and must be 12" open "${named[@]}" --key "$zeros" --nonce "${nonce%??}"
  refuses 1 "the key is 15 bytes, and must be 16" seal "${named[@]}" --key "${zeros%??}" --nonce "$nonce"
  refuses 1 "the key is 17 bytes, and must be 16" open "${named[@]}" --key "$zeros"00 --nonce "$nonce"
  echo "$before" >input # sealed by a version before 3.0.0
  refuses 15 "$open" open "${named[@]}" --key "$zeros" --nonce 000000000000000000000001 --ad 07e8 --hex-in
  for one_bit in "80${zeros:2}" "${zeros:2}01"; do
    echo 00 >input
    run 0 seal "${named[@]}" --key "$one_bit" --nonce "$nonce" --out sealed
    run 0 open "${named[@]}" --key "$one_bit" --nonce "$nonce" --in sealed --out opened
    check "a key with one bit" cmp input opened
  done
}

the_other_edition() { # FIRST SECOND: what one edition seals the other refuses
  under "$1"
  echo "engine 2400 rpm" >input
  run 0 seal "${secrets[@]}" --ad 07e8 --out sealed
  under "$2"
  refuses 7 "$(wrong_tag)" open "${secrets[@]}" --ad 07e8 --in sealed
  under "$1"
  run 0 open "${secrets[@]}" --ad 07e8 --in sealed
  check "sealed and opened under edition $1" cmp input output
}

edition_numbers() { # a number is taken by its value, and none is the first edition
  local first second
  under
  echo "engine 2400 rpm" >input
  run 0 seal "${secrets[@]}" --hex-out
  first=$(cat output)
  run 0 seal "${secrets[@]}" --hex-out --edition 2
  second=$(cat output)
  check "the two payloads differ" [ "$first" != "$second" ]
  for one in 1 01 0000000000000000000000000000000000000001; do
    run 0 seal "${secrets[@]}" --hex-out --edition "$one"
    check "--edition $one" [ "$(cat output)" = "$first" ]
  done
  for two in 2 02 0000000000000000000000000000000000000002; do
    run 0 seal "${secrets[@]}" --hex-out "--edition=$two"
    check "--edition=$two" [ "$(cat output)" = "$second" ]
  done
}

# Of the large numbers each is 1 or 2 where it is cut to 8, 16, 32, 64 or 128 bits.
unknown_editions() {
  local said
  under
  echo "engine 2400 rpm" >input
  run 0 seal "${secrets[@]}" --out sealed
  for number in 0 3 00 003 10 12 21 257 258 65537 65538 2147483648 4294967295 4294967296 4294967297 4294967298 \
    18446744073709551617 18446744073709551618 340282366920938463463374607431768211457; do
    said="the edition is $number, and must be 1 or 2"
    refuses 23 "$said" seal "${secrets[@]}" --edition "$number"
    refuses 23 "$said" open "${secrets[@]}" "--edition=$number" --in sealed
  done
  said="the edition is 3, and must be 1 or 2" # before every other refusal
  refuses 23 "$said" seal --edition 3 --key "${key%??}" --nonce "$nonce"00
  refuses 23 "$said" open --key "" --nonce "" --edition 3
  refuses 23 "$said" seal --edition 3 --key "$key" --nonce "$nonce"00
  refuses 23 "$said" seal --edition 3 --key 00000000000000000000000000000000 --nonce "$nonce"
  bytes $((ad_max + 1)) >ad
  refuses 23 "$said" open "${secrets[@]}" --edition 3 --ad-file ad
  bytes $((sealed_max + 1)) >input
  refuses 23 "$said" seal "${secrets[@]}" --edition 3
  refuses 23 "$said" open "${secrets[@]}" --edition 3
  bytes 7 >input
  refuses 23 "$said" open "${secrets[@]}" --edition 3
  bytes 20 >input
  refuses 23 "$said" open "${secrets[@]}" --edition 3
}

no_number() { # an edition that is no number is wrong usage, for either command
  under
  : >input
  for text in x '' -1 +1 1.5 1.0 ' 1' '1 ' 1,2 '1|2' 0x1 1e0 one I ² １ v2; do
    misused "--edition: '$text' is no number in decimal digits" seal "${secrets[@]}" --edition "$text"
    misused "--edition: '$text' is no number in decimal digits" open "${secrets[@]}" "--edition=$text"
  done
  misused "--edition has no value" seal "${secrets[@]}" --edition
  misused "--edition has no value" open --edition "${secrets[@]}"
  misused "--edition is given twice" seal "${secrets[@]}" --edition 1 --edition 1
  misused "unknown option '--edition'" parts --edition 1
  misused "unexpected argument '--edition'" selftest --edition 1
  # Wrong usage comes before a refusal, which is an answer of the library's.
  misused "--key: 'x' at place 2 is no hex digit" seal --edition 3 --key 0x00 --nonce "$nonce"
  misused "--nonce or --nonce-file is needed" open --edition 3 --key "$key"
}

wrong_usage() {
  : >input
  misused "no command"
  misused "unknown command 'sael'" sael
  misused "unknown option '--kee'" seal --kee "$key"
  misused "unexpected argument 'log.bin'" seal "${secrets[@]}" log.bin
  misused "unexpected argument 'twice'" selftest twice
  misused "unknown option '--key'" parts --key "$key"
  misused "unknown option '--out'" parts --out parts.txt
  misused "unexpected argument 'log.sealed'" parts log.sealed
  misused "--in: no file 'absent'" parts --in absent
  misused "--key or --key-file is needed" seal --nonce "$nonce"
  misused "--nonce or --nonce-file is needed" open --key "$key"
  misused "--key and --key-file exclude each other" seal "${secrets[@]}" --key-file key
  misused "--key is given twice" seal "${secrets[@]}" --key "$key"
  misused "--hex-in is given twice" seal "${secrets[@]}" --hex-in --hex-in
  misused "--nonce has no value" seal --key "$key" --nonce
  misused "--key has no value" seal --key --nonce "$nonce"
  misused "--hex-out takes no value" seal "${secrets[@]}" --hex-out=yes
  misused "--key: 'x' at place 2 is no hex digit" seal --key 0x00 --nonce "$nonce"
  misused "--ad: 3 hex digits, and a byte takes two" seal "${secrets[@]}" --ad 123
  misused "--in: no file 'absent'" seal "${secrets[@]}" --in absent
  misused "--ad-file: no file 'absent'" seal "${secrets[@]}" --ad-file absent
  echo "no hex" >input
  misused "--hex-in: 'n' at place 1 is no hex digit" open "${secrets[@]}" --hex-in
  misused "--hex-in: 'n' at place 1 is no hex digit" parts --hex-in
}

input_and_output_fail() {
  : >input
  fails_to "read '.'" seal "${secrets[@]}" --in .
  fails_to "read '.'" parts --in .
  fails_to "write 'absent/out'" seal "${secrets[@]}" --out absent/out
  fails_to "write '/dev/full'" seal "${secrets[@]}" --out /dev/full
  local status=0
  "$tool" --help >/dev/full 2>errors || status=$?
  check "standard output full" [ "$status" = 74 ]
}

help_and_selftest() {
  : >input
  run 0 --help
  check "--help shows the usage" grep -q "^usage: tikhoplav seal" output
  check "--help has the limit of the AD" grep -q "3 the AD is over $ad_max bytes" output
  check "--help has the blank key" grep -q "15 the key is 16 zero bytes" output
  check "--help has the edition first" \
    [ "$(sed -n '/in this order:$/{n;p;}' output)" = "        23 the edition is a number other than 1 and 2" ]
  check "--help says that the editions don't open one another" grep -q "The two don't open one another" output
  check "--help says which edition to expect" grep -q "A partner's box is likely to speak edition 2 if" output
  check "--help has the limits of the data" grep -q \
    "4 the message is over $message_max bytes (seal, crypt), or the sealed input over $sealed_max (open, check)" output
  cp output help
  for command in seal open parts; do
    run 0 "$command" --help
    check "$command --help" cmp help output
  done
  bytes 500 >log.bin
  bytes 12 >0001.nonce
  # One frame, the one of the examples of a frame.
  printf '\0\1\0\0\0\x1d\0\0\0\x0a\0\0\x07\xe8\x09\0\0\0\0\0\0\0\0\0\0\0\3' >bus.capture
  printf '\x02\x06\x92\x9d\xe3\xfb\xcb\x4c\x98\x3c\xc6\0' >>bus.capture
  sed -n '/^EXAMPLES/,$s/^    //p' help >examples
  check "the examples of --help" env PATH="$(dirname "$tool"):$PATH" sh -e examples >shown
  check "the examples in hex, of each edition" [ "$(grep -cE '^[0-9a-f]{46}$' shown)" = 2 ]
  check "the example of a file" cmp log.bin log.copy
  check "the example of Grain-128a" [ "$(grep -cE '^[0-9a-f]{38}$' shown)" = 1 ]
  check "the example of a file without a tag" cmp log.bin log.deciphered
  check "the example of Grain v1" grep -qx "tag 4711" shown
  check "the examples of a capture" cmp <(grep -A 2 '^0 10 000007E8 9' shown) <(printf '%s\n' \
    '0 10 000007E8 9 000000000000000000000003 0206929de3fbcb4c983cc600' '0 10 000007E8 opened 0960' \
    '1 frame, 1 opened, 0 refused')
  check "the example of a signal" grep -qx "9.5 within" shown
  check "the example of a capture with signals" cmp <(grep -A 1 '^  engine_speed' shown) <(printf '%s\n' \
    '  engine_speed 2400.0 rpm within' '1 frame, 1 opened, 0 refused; 1 signal, 0 refused')
  check "the examples of a frame" [ "$(sed -n '/##/{N;p;}' shown)" = $'7E8##10206929DE3FBCB4C983CC600\n0960' ]
  run 0 parts --in log.sealed
  check "the example of the parts" cmp output <(tail -n 2 shown)
  run 0 --version
  check "--version" [ "$(cat output)" = "tikhoplav $version" ]
  run 0 selftest
  check "selftest" [ "$(tail -n 1 output)" = "255 passed, 0 failed" ]
  check "selftest says which published vector it leaves out" grep -q "^  Published vector 1 is under this key" output
}

for named_edition in '' 1 2; do
  under ${named_edition:+"$named_edition"}
  round_trips
  hex
  ad_lengths
  file_in_place
  refusals
  blank_key
done
under
another_tag
parts
the_other_edition 1 2
the_other_edition 2 1
edition_numbers
unknown_editions
no_number
under
wrong_usage
input_and_output_fail
help_and_selftest
echo "$checks checks hold"
