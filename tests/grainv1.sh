#!/usr/bin/env bash
# Drives the command-line tool with Grain v1. Usage: tests/grainv1.sh TOOL HEADER
set -u
# shellcheck source=tests/driving.sh
. "$(dirname "$0")/driving.sh" || exit 1

message_max=$(defined MESSAGE_MAX)
key_size=$(defined GRAINV1_KEY_SIZE)
nonce_size=$(defined GRAINV1_NONCE_SIZE)

cipher=(--cipher grain-v1)
key=0123456789abcdef1234
nonce=0123456789abcdef
crypting=("${cipher[@]}" --key "$key" --nonce "$nonce")
blank=00000000000000000000

turned() { # HEX: the bits of every byte turned round
  local hex=$1 byte bit round
  while [ -n "$hex" ]; do
    byte=$((0x${hex:0:2})) round=0
    for ((bit = 0; bit < 8; bit++)); do
      round=$((round << 1 | (byte >> bit & 1)))
    done
    printf '%02x' "$round"
    hex=${hex:2}
  done
}

# The designers' vectors have the lowest bit of a byte first.
published() { # KEY NONCE KEYSTREAM
  local options keystream
  options=("${cipher[@]}" --key "$(turned "$1")" --nonce "$(turned "$2")")
  keystream=$(turned "$3")
  for size in 0 1 9 10; do
    bytes "$size" >input
    run 0 crypt "${options[@]}" --hex-out
    check "$size bytes of the keystream under $1" [ "$(cat output)" = "${keystream:0:2*size}" ]
    cp output input
    run 0 crypt "${options[@]}" --hex-in
    check "$size zeros out of the keystream under $1" cmp output <(bytes "$size")
  done
}

round_trips() {
  printf '\x01\x23\x45\x67\x89\xab\xcd\xef\x12\x34' >key
  head -c 8 key >nonce
  for size in 0 1 8 1000 "$message_max"; do
    yes "tag 4711" | head -c "$size" >input
    run 0 crypt "${cipher[@]}" --key-file key --nonce-file nonce --in input --out enciphered
    check "size of the ciphertext" [ "$(wc -c <enciphered)" = "$size" ]
    run 0 crypt --key-file key --nonce-file nonce --cipher=grain-v1 --in enciphered --out deciphered
    check "files, $size bytes" cmp input deciphered
    run 0 crypt "${crypting[@]}"
    check "the same from options and from files, $size bytes" cmp output enciphered
    cp input message && cp output input
    run 0 crypt "${crypting[@]}" --in - --out -
    check "streams, $size bytes" cmp message output
  done
  echo "tag 4711" >log
  run 0 crypt "${crypting[@]}" --in log --out log
  check "enciphered in place" [ "$(tr -d '\0' <log)" != "tag 4711" ]
  run 0 crypt "${crypting[@]}" --in log --out log
  check "deciphered in place" [ "$(cat log)" = "tag 4711" ]
}

nothing_is_noticed() { # a damaged bit is that bit of the message, and a wrong key or nonce gives other bytes
  local enciphered bit
  echo 0096 >input
  run 0 crypt "${crypting[@]}" --hex-in --hex-out
  enciphered=$(cat output)
  for ((bit = 0; bit < 16; bit++)); do
    printf '%04x' $((0x$enciphered ^ 1 << bit)) >input
    run 0 crypt "${crypting[@]}" --hex-in --hex-out
    check "bit $bit changed" [ "$(cat output)" = "$(printf '%04x' $((0x0096 ^ 1 << bit)))" ]
  done
  bytes 8 >input
  run 0 crypt "${crypting[@]}" --hex-out --out right
  run 0 crypt "${cipher[@]}" --key "${key%4}5" --nonce "$nonce" --hex-out
  check "another key" [ "$(cat output)" != "$(cat right)" ]
  run 0 crypt "${cipher[@]}" --key "$key" --nonce "${nonce%f}e" --hex-out
  check "another nonce" [ "$(cat output)" != "$(cat right)" ]
}

blank_key() { # is taken
  bytes 8 >input
  for nonce in "$nonce" 0000000000000000 ffffffffffffffff; do
    run 0 crypt "${cipher[@]}" --key "$blank" --nonce "$nonce"
    check "eight bytes under the blank key" [ "$(wc -c <output)" = 8 ]
    check "no word about the blank key" [ ! -s errors ]
  done
}

any_first_bit() { # of a nonce
  : >input
  for first in 00 7f 80 ff; do
    run 0 crypt "${cipher[@]}" --key "$key" --nonce "$first${nonce:2}"
  done
}

refusals() {
  local wrong_key="and must be $key_size for grain-v1" wrong_nonce="and must be $nonce_size for grain-v1"
  for size in 0 20 $((message_max + 1)); do # with faults of the later ones too
    bytes "$size" >input
    refuses 1 "the key is 9 bytes, $wrong_key" crypt "${cipher[@]}" --key "${key%??}" --nonce "$nonce"00
    refuses 1 "the key is 11 bytes, $wrong_key" crypt "${cipher[@]}" --key "$key"00 --nonce "${nonce%??}"
    refuses 1 "the key is 16 bytes, $wrong_key" crypt "${cipher[@]}" --key "$key"001122334455 --nonce "$nonce"
    refuses 1 "the key is 1 byte, $wrong_key" crypt "${cipher[@]}" --key 00 --nonce "$nonce"
    refuses 1 "the key is 0 bytes, $wrong_key" crypt "${cipher[@]}" --key "" --nonce ""
    refuses 2 "the nonce is 7 bytes, $wrong_nonce" crypt "${cipher[@]}" --key "$blank" --nonce "${nonce%??}"
    refuses 2 "the nonce is 9 bytes, $wrong_nonce" crypt "${cipher[@]}" --key "$key" --nonce "$nonce"00
    refuses 2 "the nonce is 12 bytes, $wrong_nonce" crypt "${cipher[@]}" --key "$key" --nonce "$nonce"00112233
    refuses 2 "the nonce is 0 bytes, $wrong_nonce" crypt "${cipher[@]}" --key "$key" --nonce=
  done
  for size in $((message_max + 1)) 65536 100000; do
    bytes "$size" >input
    refuses 4 "the message is $size bytes, and may be at most $message_max" crypt "${crypting[@]}"
    refuses 4 "the message is $size bytes, and may be at most $message_max" \
      crypt "${cipher[@]}" --key "$blank" --nonce "$nonce"
  done
}

wrong_usage() {
  local none="is none of grain-128aead, grain-128a and grain-v1"
  : >input
  for name in Grain-v1 grainv1 grain-v2 "grain-v1 " ""; do
    misused "--cipher: '$name' $none" crypt --cipher "$name" --key "$key" --nonce "$nonce"
  done
  misused "--ad: crypt authenticates nothing" crypt "${crypting[@]}" --ad 00
  misused "--ad-file: crypt authenticates nothing" crypt "${crypting[@]}" --ad-file absent
  misused "--tag-bits: crypt makes no tag" crypt "${crypting[@]}" --tag-bits 8
  misused "--edition: no cipher of crypt has editions" crypt "${crypting[@]}" --edition 1
  misused "--key or --key-file is needed" crypt "${cipher[@]}" --nonce "$nonce"
  misused "--nonce or --nonce-file is needed" crypt "${cipher[@]}" --key "$key"
  misused "--cipher is given twice" crypt "${crypting[@]}" --cipher grain-128a
  misused "--key: 'x' at place 2 is no hex digit" crypt "${cipher[@]}" --key 0x --nonce "$nonce"
  misused "unexpected argument 'log.bin'" crypt "${crypting[@]}" log.bin
  misused "--in: no file 'absent'" crypt "${crypting[@]}" --in absent
  fails_to "write 'absent/out'" crypt "${crypting[@]}" --out absent/out
}

commands_without() { # those that need a tag
  local named
  : >input
  for command in seal open; do
    for named in "--cipher grain-v1" --cipher=grain-v1; do
      read -ra named <<<"$named"
      misused "--cipher: grain-v1 has no tag; it goes with crypt" "$command" "${named[@]}" --key "$key" --nonce "$nonce"
      misused "--cipher: grain-v1 has no tag; it goes with crypt" "$command" "${named[@]}" --ad 00 --tag-bits 8
    done
  done
  for named in "--cipher grain-v1" --cipher=grain-v1; do
    read -ra named <<<"$named"
    misused "--cipher: check is for grain-128aead alone; grain-v1 has no tag" check "${named[@]}" --key "$key"
    misused "--cipher: frames are for grain-128aead alone; grain-v1 has no tag" frame make --id 7E8 "${named[@]}"
    misused "--cipher: frames are for grain-128aead alone; grain-v1 has no tag" frame read "${named[@]}"
    misused "--cipher: parts is for grain-128aead alone, whose tags have 8 bytes; grain-v1 has no tag" \
      parts "${named[@]}"
  done
  misused "--cipher: check is for grain-128aead alone" check --cipher
  misused "--tag-bits: check is for grain-128aead alone" check --tag-bits grain-v1
  misused "unexpected argument '--cipher'" selftest --cipher grain-v1
}

help_of_grainv1() {
  : >input
  run 0 --help
  check "--help shows crypt" grep -q "^ *tikhoplav crypt --cipher grain-v1 KEY NONCE \[OPTION...\]$" output
  check "--help says what it is for" grep -q "It is for reading those only, and never for new designs" output
  check "--help has the key's size" grep -q "  1 the key is not 16 bytes ($key_size with grain-v1)$" output
  check "--help has the nonce's size" grep -q "  2 the nonce is not 12 bytes ($nonce_size with grain-v1)$" output
  run 0 selftest
  check "selftest has the first vector" grep -q "^  ok     key $blank: the keystream$" output
  check "selftest has the second vector" grep -q "^  ok     key $key: the keystream$" output
}

published "$blank" 0000000000000000 dee931cf1662a72f77d0
published "$key" "$nonce" 7f362bd3f7abae203664
round_trips
nothing_is_noticed
blank_key
any_first_bit
refusals
wrong_usage
commands_without
help_of_grainv1
echo "$checks checks hold"
