#!/usr/bin/env bash
# Refused memory: each command on some texts, where each allocation of the run is refused in turn, until a run has none
# left to refuse. Each run before that ends with status 4, `no memory` and no file; the last one gives the answer. A file
# that is edited in place then has its old text or the new one, and no other file is left beside it; once it is to be
# replaced, want of memory is a file fault, status 3.
# So too the edits of data and the reader of names, by a test as it is built: memory that is refused leaves both as they
# were, and they go on once there is some. The last line is `N passed, M failed`.
#   tests/memory.sh crates/tomled/out/tomled crates/toml_tests/out/toml_tests_tests
# What is looked at is dealt out to as many shells as there are processors (tests/memory/share.sh).
set -u
program=$(realpath "$1")
tests=$(realpath "$2")
scripts=$(realpath "$(dirname "$0")")/memory
shares=$(nproc)
folder=$(mktemp -d)
trap 'rm -rf "$folder"' EXIT
passed=0
failed=0
refusals=0

fail() {
  printf 'FAILED %s\n' "$1"
  failed=$((failed + 1))
}

# counted: the last line, and the exit status
counted() {
  printf '%s passed, %s failed\n' "$passed" "$failed"
  [ "$failed" -eq 0 ]
  exit
}

# begin SHARE: looks at a share, in a folder of its own
begin() {
  mkdir "$folder/$1"
  (cd "$folder/$1" && exec "$scripts/share.sh" "$program" "$tests" "$folder/refuse.so" "$1" "$shares") >"$folder/$1.said" &
}

# add SHARE: adds what it has counted; a share that has counted nothing is a failure
add() {
  local last
  grep -a '^FAILED' "$folder/$1.said"
  last=$(tail -n 1 "$folder/$1.said")
  if [[ $last =~ ^([0-9]+)\ refused,\ ([0-9]+)\ passed,\ ([0-9]+)\ failed$ ]]; then
    refusals=$((refusals + BASH_REMATCH[1]))
    passed=$((passed + BASH_REMATCH[2]))
    failed=$((failed + BASH_REMATCH[3]))
  else
    fail "a share of the runs did not end: $last"
  fi
}

if ! command -v cc >/dev/null; then
  fail 'there is no C compiler: apt-get install gcc libc6-dev'
  counted
elif ! cc -shared -fPIC -o "$folder/refuse.so" "$scripts/refuse.c" -ldl; then
  fail 'cc does not compile: apt-get install gcc libc6-dev'
  counted
fi

for share in $(seq 0 $((shares - 1))); do begin "$share"; done
wait
for share in $(seq 0 $((shares - 1))); do add "$share"; done
printf '%s allocations were refused\n' "$refusals"
counted
