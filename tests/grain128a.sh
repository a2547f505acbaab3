#!/usr/bin/env bash
# Drives the command-line tool with Grain-128a. Usage: tests/grain128a.sh TOOL HEADER
set -u
# shellcheck source=tests/driving.sh
. "$(dirname "$0")/driving.sh" || exit 1

message_max=$(defined MESSAGE_MAX)
tag_bits_max=$(defined GRAIN128A_TAG_BITS_MAX)

# Of the paper's table 3: the fourth column, with authentication, and the second, without.
key=0123456789abcdef123456789abcdef0
with=8123456789abcdef12345678
without=0123456789abcdef12345678
cipher=(--cipher grain-128a)
sealing=("${cipher[@]}" --key "$key" --nonce "$with")
crypting=("${cipher[@]}" --key "$key" --nonce "$without")
zeros=00000000000000000000000000000000

wrong_tag="the tag is wrong: the key, the nonce, the number of tag bits or the sealed input is not as it was sealed"
first_bit="bit 0 of the nonce, the top bit of its first byte, is"
not_1="$first_bit 0, and must be 1 for seal and open (crypt takes the others)"
not_0="$first_bit 1, and must be 0 for crypt (seal and open take the others)"

published() {
  echo "$zeros" >input
  run 0 seal "${sealing[@]}" --hex-in --hex-out
  check "the keystream with authentication" [ "$(head -c 32 output)" = a49d971c976bf596b45f93e242ded8c1 ]
  printf '%080d' 0 >input
  run 0 crypt "${crypting[@]}" --hex-in --hex-out
  check "the pre-output without authentication" [ "$(cat output)" = \
    f88720c13f46e6a43c07eeed89161a4dd73bd6b8be8b6b116879714ebb630e0a4c12f0399412982c ]
  cp output input
  run 0 crypt "${crypting[@]}" --hex-in
  check "crypt twice" cmp output <(bytes 40)
}

# The published tag d2d1bda8 of the empty message, cut to its last bits: behind them zeros up to a whole byte.
tag_of() { # BITS
  local size=$((($1 + 7) / 8))
  printf "%0$((2 * size))x" $(((0xd2d1bda8 & ((1 << $1) - 1)) << (8 * size - $1)))
}

tag_lengths() {
  local tag
  for ((bits = 1; bits <= tag_bits_max; bits++)); do
    tag=$(tag_of "$bits")
    : >input
    run 0 seal "${sealing[@]}" --tag-bits "$bits" --hex-out
    check "a tag of $bits bits" [ "$(cat output)" = "$tag" ]
    echo "$tag" >input
    run 0 open "${sealing[@]}" "--tag-bits=$bits" --hex-in
    check "opened with $bits bits" [ ! -s output ]
    printf "%0${#tag}x" $((0x$tag ^ 1)) >input
    refuses 7 "$wrong_tag" open "${sealing[@]}" --tag-bits "$bits" --hex-in
  done
  : >input
  run 0 seal "${sealing[@]}" --hex-out
  check "32 bits where the option is not given" [ "$(cat output)" = d2d1bda8 ]
  run 0 seal "${sealing[@]}" --hex-out --tag-bits 0000000000000000000000000000000000000012
  check "a number with zeros before it" [ "$(cat output)" = da80 ]
}

bits_past() { # every bit behind the 12 of a tag, alone and together
  for past in 1 2 3 4 8 15; do
    printf 'da%02x' $((0x80 | past)) >input
    refuses 7 "$wrong_tag" open "${sealing[@]}" --tag-bits 12 --hex-in
  done
}

round_trips() {
  printf '\x01\x23\x45\x67\x89\xab\xcd\xef\x12\x34\x56\x78\x9a\xbc\xde\xf0' >key
  printf '\x81\x23\x45\x67\x89\xab\xcd\xef\x12\x34\x56\x78' >with
  printf '\x01\x23\x45\x67\x89\xab\xcd\xef\x12\x34\x56\x78' >without
  for size in 0 1 8 1000 "$message_max"; do
    yes "engine 2400 rpm" | head -c "$size" >input
    for bits in 1 8 9 32; do
      run 0 seal "${cipher[@]}" --key-file key --nonce-file with --in input --out sealed --tag-bits "$bits"
      check "size of the payload" [ "$(wc -c <sealed)" = $((size + (bits + 7) / 8)) ]
      run 0 open "${cipher[@]}" --key-file key --nonce-file with --in sealed --out opened --tag-bits "$bits"
      check "files, $size bytes, $bits bits" cmp input opened
    done
    run 0 crypt "${cipher[@]}" --key-file key --nonce-file without --in input --out enciphered
    check "size of the ciphertext" [ "$(wc -c <enciphered)" = "$size" ]
    run 0 crypt "${cipher[@]}" --key-file key --nonce-file without --in enciphered --out deciphered
    check "files, $size bytes, without a tag" cmp input deciphered
    run 0 seal "${sealing[@]}"
    cp input message && cp output input
    run 0 open "${sealing[@]}" --in - --out -
    check "streams, $size bytes" cmp message output
  done
  echo "engine 2400 rpm" >log
  run 0 crypt "${crypting[@]}" --in log --out log
  check "enciphered in place" [ "$(head -c 6 log)" != engine ]
  run 0 crypt "${crypting[@]}" --in log --out log
  check "deciphered in place" [ "$(cat log)" = "engine 2400 rpm" ]
}

both_ciphers() { # grain-128aead is the cipher where none is named, and the two don't open one another
  echo "engine 2400 rpm" >input
  run 0 seal --key "$key" --nonce "$with" --out first
  run 0 seal --key "$key" --nonce "$with" --out named --cipher grain-128aead
  check "no cipher named" cmp first named
  run 0 open --cipher=grain-128aead --key "$key" --nonce "$with" --in first
  check "opened with the cipher named" cmp input output
  refuses 7 "$wrong_tag" open "${sealing[@]}" --in first
  run 0 seal "${sealing[@]}" --out second
  run 7 open --key "$key" --nonce "$with" --in second
  check "nothing is handed out" [ ! -s output ]
}

keys_and_nonces() { # COMMAND NONCE BLANK MODE: refusals 1, 2, 15 and 19, with faults of the later ones too
  local command=$1 nonce=$2 blank=$3 mode=$4 other=$without
  [ "$nonce" = "$with" ] || other=$with
  refuses 1 "the key is 15 bytes, and must be 16" "$command" "${cipher[@]}" --key "${key%??}" --nonce "${other%??}"
  refuses 1 "the key is 17 bytes, and must be 16" "$command" "${cipher[@]}" --key "$zeros"00 --nonce "$nonce"
  refuses 1 "the key is 0 bytes, and must be 16" "$command" "${cipher[@]}" --key "" --nonce ""
  refuses 2 "the nonce is 11 bytes, and must be 12" "$command" "${cipher[@]}" --key "$zeros" --nonce "${other%??}"
  refuses 2 "the nonce is 13 bytes, and must be 12" "$command" "${cipher[@]}" --key "$key" --nonce "$nonce"00
  refuses 15 "the key is 16 zero bytes, which anybody can guess: $blank" \
    "$command" "${cipher[@]}" --key "$zeros" --nonce "$other"
  refuses 19 "$mode" "$command" "${cipher[@]}" --key "$key" --nonce "$other"
}

refusals() {
  local how="('head -c 16 /dev/urandom >lab.key' makes one, for --key-file lab.key)"
  for size in 0 20 $((message_max + 5)); do # with every size wrong behind them
    bytes "$size" >input
    keys_and_nonces seal "$with" "seal with a random one $how" "$not_1"
    keys_and_nonces open "$with" "open with the key that it was sealed with" "$not_1"
    keys_and_nonces crypt "$without" \
      "encipher with a random one $how, decipher with the key that it was enciphered with" "$not_0"
  done
}

# Of the large numbers each is 1 to 32 where it is cut to 8, 16, 32, 64 or 128 bits.
no_tag_lengths() {
  local said
  for size in 20 $((message_max + 5)); do
    bytes "$size" >input
    for number in 0 33 00 64 256 257 288 65537 4294967295 4294967296 4294967297 4294967328 18446744073709551617 \
      340282366920938463463374607431768211457; do
      said="the tag is to have $number bits, and must have 1 to $tag_bits_max"
      refuses 20 "$said" seal "${sealing[@]}" --tag-bits "$number"
      refuses 20 "$said" open "${sealing[@]}" "--tag-bits=$number"
      refuses 19 "$not_1" open "${crypting[@]}" --tag-bits "$number"
    done
  done
}

sizes() {
  local most
  bytes $((message_max + 1)) >input
  for command in "seal ${sealing[*]}" "crypt ${crypting[*]}"; do
    read -ra command <<<"$command"
    refuses 4 "the message is $((message_max + 1)) bytes, and may be at most $message_max" "${command[@]}"
  done
  for bits in 1 8 9 16 17 24 25 32; do
    most=$((message_max + (bits + 7) / 8))
    bytes $((most + 1)) >input
    refuses 4 "the sealed input is $((most + 1)) bytes, and may be at most $most" \
      open "${sealing[@]}" --tag-bits "$bits"
    bytes $(((bits + 7) / 8 - 1)) >input
    run 5 open "${sealing[@]}" --tag-bits "$bits"
  done
  : >input
  refuses 5 "the sealed input is 0 bytes, and its tag alone is 1" open "${sealing[@]}" --tag-bits 8
  bytes 1 >input
  refuses 5 "the sealed input is 1 byte, and its tag alone is 2" open "${sealing[@]}" --tag-bits 9
  bytes 3 >input
  refuses 5 "the sealed input is 3 bytes, and its tag alone is 4" open "${sealing[@]}"
}

damage() { # each bit of the payload of three bytes and a tag of 32 bits
  local payload
  echo 00960b >input
  run 0 seal "${sealing[@]}" --hex-in --hex-out
  payload=$(cat output)
  for ((bit = 0; bit < 56; bit++)); do
    printf '%014x' $((0x$payload ^ 1 << bit)) >input
    refuses 7 "$wrong_tag" open "${sealing[@]}" --hex-in
  done
}

wrong_usage() {
  : >input
  for command in seal open; do
    misused "--cipher: 'aes' is none of grain-128aead, grain-128a and grain-v1" "$command" --cipher aes
    misused "--cipher: '' is none of grain-128aead, grain-128a and grain-v1" "$command" --cipher ""
    misused "--cipher: 'Grain-128a' is none of grain-128aead, grain-128a and grain-v1" "$command" --cipher=Grain-128a
    misused "--ad: grain-128a has no associated data" "$command" "${sealing[@]}" --ad 00
    misused "--ad: grain-128a has no associated data" "$command" "${sealing[@]}" --ad ""
    misused "--ad-file: grain-128a has no associated data" "$command" "${sealing[@]}" --ad-file absent
    misused "--edition: grain-128a has no editions" "$command" "${sealing[@]}" --edition 1
    misused "--tag-bits: it goes with --cipher grain-128a" "$command" --key "$key" --nonce "$with" --tag-bits 32
    misused "--tag-bits: it goes with --cipher grain-128a" "$command" --cipher grain-128aead --tag-bits 32
    for text in x '' -1 +1 1.5 ' 1' '1 ' 0x20 1e1 eight; do
      misused "--tag-bits: '$text' is no number in decimal digits" "$command" "${sealing[@]}" --tag-bits "$text"
    done
    misused "--tag-bits has no value" "$command" "${sealing[@]}" --tag-bits
    misused "--key or --key-file is needed" "$command" "${cipher[@]}" --nonce "$with"
    misused "--nonce or --nonce-file is needed" "$command" "${cipher[@]}" --key "$key"
    misused "--cipher is given twice" "$command" "${sealing[@]}" --cipher grain-128a
  done
  misused "--cipher has no value" seal --cipher --key "$key"
}

wrong_usage_of_crypt() {
  : >input
  misused "--cipher is needed: grain-128a or grain-v1" crypt --key "$key" --nonce "$without"
  misused "--cipher: grain-128aead has no mode without authentication" \
    crypt --cipher grain-128aead --key "$key" --nonce "$without"
  misused "--cipher: 'aes' is none of grain-128aead, grain-128a and grain-v1" crypt --cipher aes
  misused "--ad: crypt authenticates nothing" crypt "${crypting[@]}" --ad 00
  misused "--ad-file: crypt authenticates nothing" crypt "${crypting[@]}" --ad-file absent
  misused "--tag-bits: crypt makes no tag" crypt "${crypting[@]}" --tag-bits=8
  misused "--edition: no cipher of crypt has editions" crypt "${crypting[@]}" --edition 1
  misused "--key or --key-file is needed" crypt "${cipher[@]}" --nonce "$without"
  misused "--nonce: 'x' at place 2 is no hex digit" crypt "${cipher[@]}" --key "$key" --nonce 0x
  misused "unexpected argument 'log.bin'" crypt "${crypting[@]}" log.bin
  misused "--in: no file 'absent'" crypt "${crypting[@]}" --in absent
  echo "no hex" >input
  misused "--hex-in: 'n' at place 1 is no hex digit" crypt "${crypting[@]}" --hex-in
  fails_to "write 'absent/out'" crypt "${crypting[@]}" --out absent/out
}

commands_without() { # those that are for the other cipher alone
  : >input
  for option in "--cipher grain-128a" "--cipher grain-128aead" "--tag-bits 8"; do
    read -ra option <<<"$option"
    misused "${option[0]}: check is for grain-128aead alone" check "${option[@]}" --key "$key" --nonce "$with"
    misused "${option[0]}: frames are for grain-128aead alone" frame make "${option[@]}" --id 7E8
    misused "${option[0]}: frames are for grain-128aead alone" frame read --key "$key" "${option[@]}"
    misused "${option[0]}: parts is for grain-128aead alone, whose tags have 8 bytes" parts "${option[@]}"
  done
  misused "unexpected argument '--cipher'" selftest --cipher grain-128a
}

help_of_grain128a() {
  : >input
  run 0 --help
  cp output help
  check "--help shows how to seal" \
    grep -q "^ *tikhoplav seal --cipher grain-128a KEY NONCE \[--tag-bits N\] \[OPTION...\]$" help
  check "--help shows crypt" grep -q "^ *tikhoplav crypt --cipher grain-128a KEY NONCE \[OPTION...\]$" help
  check "--help has the longest tag" \
    grep -q "how many bits the tag has, 1 to $tag_bits_max; $tag_bits_max if not given" help
  check "--help has the modes" \
    grep -q "  19 bit 0 of the nonce is not 1 (seal, open with grain-128a), or not 0 (crypt with grain-128a)$" help
  check "--help has the tag's bits" grep -q "  20 the tag is to have no bits, or more than $tag_bits_max " help
  run 0 crypt --help
  check "crypt --help" cmp help output
  run 0 selftest
  check "selftest has table 3" grep -q "^  ok     column 4: the tag of message 4$" output
}

published
tag_lengths
bits_past
round_trips
both_ciphers
refusals
no_tag_lengths
sizes
damage
wrong_usage
wrong_usage_of_crypt
commands_without
help_of_grain128a
echo "$checks checks hold"
