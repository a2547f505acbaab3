#!/usr/bin/env bash
# Seals a line, opens it again, and has a payload with one bit changed refused. Usage: cli/demo.sh TOOL
set -eu
tool=$1
options=(--key 000102030405060708090a0b0c0d0e0f --nonce 000102030405060708090a0b --ad 07e8)

step() { # STATUS INPUT COMMAND OPTION: shows a command and what it prints, which is left in $printed
  local status=0
  echo "\$ echo '$2' | tikhoplav $3 ${options[*]} $4"
  printed=$(echo "$2" | "$tool" "$3" "${options[@]}" "$4" 2>&1) || status=$?
  printf '%s\n\n' "$printed"
  [ "$status" = "$1" ]
}

step 0 'engine 2400 rpm' seal --hex-out
sealed=$printed
step 0 "$sealed" open --hex-in
[ "$printed" = 'engine 2400 rpm' ]
last=${sealed: -1}
step 7 "${sealed%?}$(printf %x $((0x$last ^ 1)))" open --hex-in
