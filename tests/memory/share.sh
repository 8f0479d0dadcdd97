#!/usr/bin/env bash
# One share of what tests/memory.sh looks at: each command on some texts, and one test of the libraries. It goes through all of
# them, in the folder that it is run in, and looks at each that is its turn.
#   tests/memory/share.sh PROGRAM TESTS REFUSER SHARE SHARES
set -u
program=$1
tests=$2
refuser=$3
share=$4
shares=$5
turn=0
passed=0
failed=0
refusals=0

# is_mine: whether what comes now is looked at here
is_mine() {
  turn=$(((turn + 1) % shares))
  [ "$turn" -eq "$share" ]
}

# fail TEXT, or else pass: how what was looked at came out
fail() {
  printf 'FAILED %s\n' "$1"
  failed=$((failed + 1))
}

pass() {
  passed=$((passed + 1))
}

# holds FILE TEXT: the bytes of the file, `-` for no such file
holds() {
  if [ "$2" = - ]; then [ ! -e "$1" ]; else [ -e "$1" ] && printf "$2" | cmp -s - "$1"; fi
}

# refusing NUMBER WORDS..: a run with this allocation refused, for half a minute at most; `refused` says whether it was
refusing() {
  local number=$1
  shift
  timeout 30 env REFUSE="$number" LD_PRELOAD="$refuser" "$@" <"${input:-/dev/null}" >out 2>err 9>refused
}

# tells TEXT: standard error has these bytes, or, where they end in `+`, them and more lines
tells() {
  case $1 in
  *'+') [ "$(head -n 1 err)" = "${1%?}" ] && [ "$(wc -l <err)" -gt 1 ] ;;
  *) holds err "$1" ;;
  esac
}

# answers STATUS OUT ERR TEXT CERT: the run ended so; STATUS is the first word, the others are bytes of files
answers() {
  [ "$status" -eq "$1" ] && holds out "$2" && tells "$3" && holds text "$4" && holds cert "$5"
}

# each STATUS OUT ERR TEXT CERT WORDS..: what the last run prints and writes. With goes_on=N so many of the others do too, and
# no more. Two calls go on where they get less room than they asked for: the library that measures how near two names are
# makes two lists of characters for each pair; and an array's list of elements moves its gap as far as it gets room, and a
# change then moves more elements.
each() {
  local wanted=("${@:1:5}") number=0 went_on=0 status
  shift 5
  is_mine || return
  while :; do
    number=$((number + 1))
    rm -f text cert
    refusing "$number" "$program" "$@"
    status=$?
    [ -s refused ] || break
    if answers 4 '' 'no memory\n' - -; then continue; fi
    went_on=$((went_on + 1))
    if [ "$went_on" -gt "${goes_on:-0}" ] || ! answers "${wanted[@]}"; then
      fail "tomled $*: allocation $number: status $status"
      return
    fi
  done
  if [ "$number" -lt 2 ] || ! answers "${wanted[@]}"; then fail "tomled $*: status $status"; else pass; fi
  refusals=$((refusals + number - 1))
}

# replaces OLD NEW WORDS..: the words change the file of the folder `place` in place, whole or not at all; with goes_on=N as
# for `each`
replaces() {
  local old=$1 new=$2 number=0 went_on=0 status
  shift 2
  is_mine || return
  while :; do
    number=$((number + 1))
    rm -rf place cert
    mkdir place
    printf "$old" >place/file
    refusing "$number" "$program" "$@"
    status=$?
    [ -s refused ] || break
    if is_unchanged_or "$new"; then continue; fi
    went_on=$((went_on + 1))
    if [ "$went_on" -gt "${goes_on:-0}" ] || ! is_replaced "$new"; then
      fail "tomled $*: allocation $number: status $status, beside the file: $(ls -A place)"
      return
    fi
  done
  if [ "$number" -lt 2 ] || ! is_replaced "$new"; then
    fail "tomled $*: status $status"
  else
    pass
  fi
  refusals=$((refusals + number - 1))
}

# is_unchanged_or NEW: the run had no memory, or could not replace the file, which holds its old text or this one
is_unchanged_or() {
  { answers_in_place 4 'no memory\n' || answers_in_place 3 'file fault+'; } \
    && { holds place/file "$old" || holds place/file "$1"; }
}

# is_replaced NEW: the run did what it was asked for, and the file holds this text; with certificate=TEXT the certificate that
is_replaced() {
  answers_in_place 0 '' && holds place/file "$1" && { [ -z "${certificate:-}" ] || holds cert "$certificate"; }
}

# answers_in_place STATUS ERR: the run ended so, printed nothing else, and left one file
answers_in_place() {
  [ "$status" -eq "$1" ] && holds out '' && tells "$2" && [ "$(ls -A place)" = file ]
}

# before TEXT: the file that is edited
before() {
  old=$1
  printf "$old" >before
}

# document TEXT DATA ADDRESSES: what is read of it
document() {
  before "$1"
  each 0 'ok\n' '' - - check before
  each 0 '' '' - - validate before
  each 0 "$2\n" '' - - get --tagged before .
  each 0 "$2\n" '' - - show before
  each 0 "$3\n" '' - - show --list before
}

# edited EDITS TEXT CERT: what the edits make of the document before, and the verdict on it
edited() {
  printf '%s' "$1" >edits
  each 0 'ok\n' '' "$2" "$3" edit before edits text cert
  printf "$2" >after
  printf "$3" >shown
  each 0 'yes\n' '' - - verify before edits after shown
  each 0 'yes\n' '' - "$3" certify before edits after cert
  input=after each 0 'yes\n' '' - "$3" certify before edits - cert
  each 0 "$2" '' - "$3" apply before edits --certificate cert
  replaces "$old" "$2" apply -i place/file edits
}

# refused LINE WORDS..: a refusal
refused() {
  local line=$1
  shift
  each 1 '' "refused $line\n" - - "$@"
}

# explained LINE WORDS..: a refusal that is explained
explained() {
  local line=$1
  shift
  each 1 '' "refused $line+" - - "$@"
}

# made WORDS NEW: what the words make of the file before, printed and in place; they have FILE for it
made() {
  local words
  read -ra words <<<"$1"
  each 0 "$2" '' - - "${words[@]/#FILE/before}"
  replaces "$old" "$2" "${words[@]/#FILE/place/file}" -i
}

integer() {
  printf '{"type":"integer","value":"%s"}' "$1"
}

document 'port = 1_000 # keep\n' "{\"port\":$(integer 1000)}" '["port"]'
edited '[{"op":"set","at":["port"],"value":"0x1F"}]' 'port = 0x1F # keep\n' 'kept 1\n1 1\n2 2\n'
document 'a.b = 1\n' "{\"a\":{\"b\":$(integer 1)}}" '["a"]\n["a","b"]'
edited '[{"op":"remove","at":["a","b"]}]' 'a = {}\n' 'kept 1\n1 1\n'
document 'x = [1, # one\n 2]\n' "{\"x\":[$(integer 1),$(integer 2)]}" '["x"]'
goes_on=1 edited '[{"op":"remove","at":["x",0]}]' 'x = [ # one\n 2]\n' 'kept 1\n2 1\n3 2\n4 3\n'
document 'x = [1, 2, 3]\n' "{\"x\":[$(integer 1),$(integer 2),$(integer 3)]}" '["x"]'
goes_on=1 edited '[{"op":"remove","at":["x",0]},{"op":"remove","at":["x",0]}]' 'x = [3]\n' 'kept 1\n3 1\n4 2\n'
document '[a.b]\n' '{"a":{"b":{}}}' '["a"]\n["a","b"]'
edited '[{"op":"insert","at":["a","x"],"value":"1"}]' '[a]\nx = 1\n[a.b]\n' 'kept 1\n0 2\n1 3\n'
document '[[a]]\n[a.b]\n[[a]]\nx = 1' "{\"a\":[{\"b\":{}},{\"x\":$(integer 1)}]}" \
  '["a"]\n["a",0]\n["a",0,"b"]\n["a",1]\n["a",1,"x"]'
edited '[{"op":"section","at":["a",0,"c"]},{"op":"element","at":["a",2]}]' \
  '[[a]]\n[a.b]\n[a.c]\n[[a]]\nx = 1\n[[a]]' 'kept 1\n0 0\n1 1\n2 3\n3 4\n'
document 'f = +6.626_0E-34\nd = 1979-05-27 07:32:00.50z\n' \
  '{"d":{"type":"datetime","value":"1979-05-27T07:32:00.50Z"},"f":{"type":"float","value":"6.6260e-34"}}' '["f"]\n["d"]'

# In profile 2
printf 't = {\n  x = 1, # one\n  y = 2,\n}\n' >before
printf '[{"op":"insert","at":["t","z"],"value":"{ # c\\n}"}]' >edits
printf 't = {\n  x = 1, # one\n  y = 2, z = { # c\n},\n}\n' >after
printf 'kept 1\n1 1\n2 2\n3 3\n4 6\n' >shown
each 0 'ok\n' '' - - check --profile 2 before
each 0 '["t"]\n["t","x"]\n["t","y"]\n' '' - - show --list --profile 2 before
each 0 "{\"t\":{\"x\":$(integer 1),\"y\":$(integer 2)}}\n" '' - - show --profile 2 before
each 0 'ok\n' '' "$(cat after)\n" "$(cat shown)\n" edit --profile 2 before edits text cert
each 0 'yes\n' '' - - verify --profile 2 before edits after shown
each 0 'yes\n' '' - - certify --profile 2 before edits after
printf '[a.b.c]\n[a]\nb.x = 1\n[a.b]\n' >before
refused '201 4' check before
refused '201 4' show before
refused '201 4' show --list before
printf 'a = 1\n' >before
printf '[{"op":"set","at":["b"],"value":"1"}]' >edits
printf 'kept 1\n0 0\n' >shown
refused '301 0' edit before edits text cert
refused '403 0' verify before edits before shown
goes_on=2 explained '403 0' certify before edits before cert
printf '[]' >edits
refused '406 0' verify before edits before shown
refused '330 0' verify before edits before edits
printf '# c\na = 1\n' >after
explained '407 0' certify before edits after cert

# What stands at a place.
printf 's = "a\\tb" # c\nx = [0x1F, 2.50, nan]\n[t.u]\nd = 1979-05-27 07:32:00z\n[[v]]\nk = 1\n' >before
each 0 'a\tb\n' '' - - get before s
each 0 '"a\\tb"\n' '' - - get --json before s
each 0 '[31,2.50,"nan"]\n' '' - - get before x
each 0 '0x1F\n' '' - - get --toml before 'x[-3]'
each 0 'datetime\n' '' - - get before --type 't . "u".d'
each 0 '1\n' '' - - get before 'v[-1].k'
each 0 'none\n' '' - - get before 'v[+].k' --default none
input=before each 0 '31\n' '' - - get - 'x[0]'
goes_on=2 each 5 '' 'refused 301 0+' - - get before t.w
explained '307 0' get --toml before t
explained '340 2' get before a..b

# One edit, printed and in place.
before 'a = 1 # c\nx = [1]\n'
made 'set FILE a 2' 'a = 2 # c\nx = [1]\n'
made 'set FILE a -1' 'a = -1 # c\nx = [1]\n'
made 'set FILE b --string 2' 'a = 1 # c\nx = [1]\nb = "2"\n'
made 'insert FILE x[+] 2' 'a = 1 # c\nx = [1, 2]\n'
made 'set FILE t.u[+].k 2 --parents' 'a = 1 # c\nx = [1]\n\n[t]\n[[t.u]]\nk = 2\n'
made 'rename FILE a é' '"é" = 1 # c\nx = [1]\n'
goes_on=1 made 'remove FILE x[-1]' 'a = 1 # c\nx = []\n'
made 'set FILE a 1' 'a = 1 # c\nx = [1]\n'
each 0 'a = 2 # c\nx = [1]\n' '' - 'kept 1\n1 1\n2 2\n4 4\n' set before a 2 --certificate cert
certificate='kept 1\n1 1\n' replaces 'a = 1\n' 'a = 2\n' set -i place/file a 2 --certificate cert
goes_on=4 explained '301 0' set before z.z 1
explained '302 0' insert -i before a 1
explained '306 0' set before a '{k = 1, k = 2}'
explained '306 0' set before a abc
explained '310 0' remove before .

# What is told of texts and edits that are refused.
printf '[{"op":"set","at":["a"],"value":"2"},{"op":"rename","at":["aa"],"to":"b"}]' >edits
goes_on=4 explained '301 1' apply before edits
goes_on=4 explained '301 1' edit --explain before edits text cert
printf '[1]' >list
input=list explained '320 0' apply before - --in-place --certificate cert
printf '[{"op":"set","at":["a"],"value":"2"}]' >edits
printf 'a = 2\nx = [1]\n' >after
explained '406 0' certify before edits after
printf 'a = 2 # c\nx = [2, 1]\n' >after
explained '404 0' certify before edits after
explained '404 0' verify --explain before edits after shown
printf 'a = 1\n' >bare
printf 'a = 2 # c\n' >after
explained '408 0' certify bare edits after
printf 'a = 08' >after
explained '402 0' certify before edits after
explained '106 4' check --explain after
explained '106 4' validate before after
printf 'a.b = 1 # \xE6\x97\xA5\n[a]\n' >after
explained '201 2' show --explain after
explained '201 2' get after a
printf '\t"\xE6\x97\xA5" = "\xFF"' >after
explained '101 10' show --list --explain after
each 3 '' 'file fault+' - - get missing a
each 3 '' 'file fault+' - - validate before missing

"$program" --help >help
each 0 "$(sed 's/\\/\\\\/g; s/%/%%/g' help)\n" '' - - --help

# passes TEST SAID..: the test runs, and passes whichever of its allocations is refused. Each line is said by some run.
passes() {
  local number=0 status said
  is_mine || return
  while :; do
    number=$((number + 1))
    refusing "$number" "$tests" "$1"
    status=$?
    if [ "$status" -ne 0 ]; then fail "$1: allocation $number: status $status"; return; fi
    cat out >>all
    [ -s refused ] || break
  done
  if grep -q '^test result: ok' out; then pass; else fail "$1: no such test"; fi
  if [ "$number" -gt 1 ]; then pass; else fail "$1: no allocation was refused"; fi
  for said in "${@:2}"; do
    if grep -q "$said" all; then pass; else fail "$1: never: $said"; fi
  done
  refusals=$((refusals + number - 1))
}

passes memory::applies_and_takes_or_wants 'an edit found no memory' 'a line found no memory'
printf '%s refused, %s passed, %s failed\n' "$refusals" "$passed" "$failed"
