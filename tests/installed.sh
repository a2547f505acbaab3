#!/usr/bin/env bash
# What `make install` has put below a prefix is enough to build and run the header's examples.
# Usage: tests/installed.sh PREFIX VERSION CC
set -eu
prefix=$1 version=$2 cc=$3
scratch=$(mktemp -d)
trap 'rm -rf "$scratch"' EXIT

fail() {
  echo "tests/installed.sh: $*" >&2
  exit 1
}

flags=(-I"$prefix/include" -L"$prefix/lib" -ltikhoplav)
if command -v pkg-config >/dev/null; then
  export PKG_CONFIG_PATH=$prefix/lib/pkgconfig
  found=$(pkg-config --modversion tikhoplav)
  [ "$found" = "$version" ] || fail "tikhoplav.pc has version $found, not $version"
  read -ra flags <<<"$(pkg-config --cflags --libs tikhoplav)"
fi

example() { # HEADING: the program that stands below it in the header builds and runs
  sed -n "/^ \* $1/,/^ \*\//s/^ \*     //p" "$prefix/include/tikhoplav.h" >"$scratch/example.c"
  "$cc" -std=c99 -Wall -Wextra -Wpedantic -Werror "$scratch/example.c" "${flags[@]}" -o "$scratch/example"
  shown=$("$scratch/example")
  [ "$shown" = "2400 rpm" ] || fail "the header's program below '$1' prints '$shown', not '2400 rpm'"
}

example 'Example: a whole program'
example 'A whole program that makes and reads a frame'
example 'A whole program that opens all frames of a capture'
example 'A whole program that reads a frame and gives the signal in it'
example 'A whole program that seals and checks in pieces'
example 'A whole program that seals and opens with Grain-128a'
example 'A whole program that enciphers and deciphers with Grain v1'
"$prefix/bin/tikhoplav" selftest >"$scratch/selftest" || fail "the installed tool fails its selftest"
echo "the header's examples build and run, and the tool passes its selftest"
