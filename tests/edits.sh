#!/usr/bin/env bash
# Edits as people make them: tests/edits/NAME.toml, the list NAME.N.json, and the whole text that is expected of it,
# NAME.N.toml, byte for byte; `tomled verify` has to say yes of each.
#   tests/edits.sh crates/tomled/out/tomled
set -u
program=$(realpath "$1")
cases=$(dirname "$(realpath "$0")")/edits
folder=$(mktemp -d)
trap 'rm -rf "$folder"' EXIT
cd "$folder"
passed=0
failed=0

fail() {
  printf 'FAILED %s\n' "$1"
  failed=$((failed + 1))
}

# edited NAME BEFORE EDITS EXPECTED: the text is EXPECTED, and its certificate is taken
edited() {
  rm -f text cert
  "$program" edit "$2" "$3" text cert >out 2>err
  local status=$?
  if [ "$status" -ne 0 ] || [ "$(cat out)" != ok ] || [ -s err ]; then
    fail "$1: edit ended with $status: $(head -n 1 err)"
  elif ! cmp text "$4"; then
    fail "$1: another text"
    diff -a "$4" text | head -c 2000
  elif [ "$("$program" verify "$2" "$3" text cert 2>&1)" != yes ]; then
    fail "$1: not verified"
  else
    passed=$((passed + 1))
  fi
}

# refused NAME BEFORE EDITS LINE: the one line LINE, and nothing written
refused() {
  rm -f text cert
  "$program" edit "$2" "$3" text cert >out 2>err
  local status=$?
  if [ "$status" -ne 1 ] || [ -s out ] || [ "$(cat err)" != "$4" ]; then
    fail "$1: edit ended with $status: $(head -n 1 err)"
  elif [ -e text ] || [ -e cert ]; then
    fail "$1: a file was written"
  else
    passed=$((passed + 1))
  fi
}

for edits in "$cases"/*.json; do
  case=${edits%.json}
  edited "$(basename "$case")" "${case%.*}.toml" "$edits" "$case.toml"
done

# The length counts at the end alone: two values of 9,000,000 bytes are too long together, and the list may mend it.
long() {
  head -c 9000000 /dev/zero | tr '\0' x
}

two_long() {
  printf '[{"op":"set","at":["a"],"value":"\\"'
  long
  printf '\\""},{"op":"set","at":["b"],"value":"\\"'
  long
  printf '\\""}'
}

printf 'a = 1\nb = 1\n' >short.toml
{ two_long && printf ']'; } >two_long.json
{ two_long && printf ',{"op":"set","at":["a"],"value":"2"}]'; } >mended.json
{ printf 'a = 2\nb = "' && long && printf '"\n'; } >mended.toml
refused 'two long values' short.toml two_long.json 'refused 102 16777216'
edited 'two long values, one mended' short.toml mended.json mended.toml

printf '[]' >none.json
head -c 16777217 /dev/zero | tr '\0' ' ' >too_long.toml
refused 'a file that is too long' too_long.toml none.json 'refused 102 16777216'

# A refusal leaves the files of an earlier edit as they are.
printf 'a = 2\n' >twice.toml
printf 'a = 2\n' >kept.toml
printf '[{"op":"remove","at":["c"]}]' >missing.json
"$program" edit short.toml missing.json twice.toml cert >out 2>err
if cmp -s twice.toml kept.toml; then passed=$((passed + 1)); else fail 'a refusal touched a file'; fi

printf '%s passed, %s failed\n' "$passed" "$failed"
[ "$failed" -eq 0 ]
