# shellcheck shell=bash
# What the scripts share that drive the command-line tool. They are given TOOL HEADER, and source this.
script=$0
tool=$(realpath "$1")
header=$(realpath "$2")
scratch=$(mktemp -d)
trap 'rm -rf "$scratch"' EXIT
cd "$scratch" || exit 1

defined() { sed -n "s/^#define TIKHOPLAV_$1 //p" "$header" | tr -d '"'; } # NAME: what the header has for it

key=000102030405060708090a0b0c0d0e0f
nonce=000102030405060708090a0b
checks=0

# shellcheck disable=SC2034 # the scripts use them
under() { # [EDITION]: what follows names this edition, or none and means edition 1
  edition=${1:-1} other=2 named=()
  [ "$edition" = 1 ] || other=1
  [ $# = 0 ] || named=(--edition "$1")
  secrets=(--key "$key" --nonce "$nonce" "${named[@]}")
}

of_edition() { # FIRST SECOND: the one that goes with the edition
  [ "$edition" = 1 ] && echo "$1" || echo "$2"
}

check() { # WHAT COMMAND...: the command succeeds
  checks=$((checks + 1))
  local what=$1
  shift
  "$@" || { echo "$script: $what: does not hold: $*" >&2; exit 1; }
}

run() { # STATUS ARGUMENT...: the tool exits so; its input is ./input, its output ./output and ./errors
  local status=0 expected=$1
  shift
  "$tool" "$@" <input >output 2>errors || status=$?
  check "tikhoplav $*: $(cat errors)" [ "$status" = "$expected" ]
}

refused() { # NUMBER SENTENCE ARGUMENT...: nothing is written to standard output
  local number=$1 sentence=$2
  shift 2
  run "$number" "$@"
  check "$*" [ "$(cat errors)" = "refusal $number: $sentence" ]
  check "$*" [ ! -s output ]
}

refuses() { # NUMBER SENTENCE ARGUMENT...: nothing is written to any output
  local number=$1
  refused "$@"
  shift 2
  run "$number" "$@" --out absent
  check "$*" [ ! -e absent ]
  echo kept >present
  run "$number" "$@" --out present
  check "$*" [ "$(cat present)" = kept ]
}

misused() { # WHAT ARGUMENT...: wrong usage, told apart from a refusal
  local what=$1
  shift
  run 64 "$@"
  check "$*" [ "$(cat errors)" = "tikhoplav: $what (see tikhoplav --help)" ]
  check "$*" [ ! -s output ]
}

fails_to() { # WHAT ARGUMENT...: input or output fails
  local what=$1
  shift
  run 74 "$@"
  check "$*: $(cat errors)" grep -q "^tikhoplav: cannot $what" errors
}

bytes() { head -c "$1" /dev/zero; }

section() { # [KIND:BODY]...: a section of a capture with these bodies, in hex
  local item body entry entries='' bodies='' offset=$((2 + 8 * $#))
  for item; do
    body=${item#*:}
    printf -v entry '%02x%06x%08x' "${item%%:*}" $((${#body} / 2)) "$offset"
    entries+=$entry bodies+=$body offset=$((offset + ${#body} / 2))
  done
  printf '%04x%s%s' $# "$entries" "$bodies"
}

frame() { # IDENTIFIER CODE DATA [NONCE]: a frame's body in a capture
  printf '%08x%02x%s%s' "$1" "$2" "${4:-$nonce}" "$3"
}

sealed() { # IDENTIFIER CODE MESSAGE: sets body to that of the frame that frame make makes
  echo "$3" >input
  run 0 frame make "${secrets[@]}" --id "$(printf '%08X' "$1")" --hex-in
  body=$(cut -d '#' -f 3 output)
  body=$(frame "$1" "$2" "${body:1}")
}

well_formed() { # the output is one JSON value: strings, numbers, objects and lists of them, reduced until one is left
  local string='"([^"\\]|\\["\\/bfnrt]|\\u[0-9a-f]{4})*"' number='-?(0|[1-9][0-9]*)(\.[0-9]+)?(e[+-]?[0-9]+)?'
  [ "$(tr -d '\n' <output | sed -E "s/$string/s/g; s/$number|null/n/g; :again
    s/\{\}|\{s:[snv](,s:[snv])*\}/v/g; s/\[\]|\[[snv](,[snv])*\]/v/g; tagain")" = v ]
}
