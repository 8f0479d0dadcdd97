#!/usr/bin/env bash
# What no proof says of the built program: bad words, files that can't be read or written, standard input, outputs that are
# full or closed, and help. The last line is `N passed, M failed`. Its parts are here and in program/*.sh: the
# commands that get, edit and validate, what is told of refusals, files in place, and the deepest texts.
#   tests/program.sh crates/tomled/out/tomled
set -u
program=$(realpath "$1")
parts=$(dirname "$(realpath "$0")")/program
folder=$(mktemp -d)
trap 'rm -rf "$folder"' EXIT
cd "$folder"
passed=0
failed=0

# fail TEXT, or else pass: how what was looked at came out
fail() {
  printf 'FAILED %s\n' "$1"
  failed=$((failed + 1))
}

pass() {
  passed=$((passed + 1))
}

# What runs the program, where something else does.
by=()

# run STATUS OUT ERR WORDS..: OUT and ERR are the one line on each output, one that ends in `*` what it begins with, one
# that ends in `+` its first line, with others behind it, `-` for nothing on it
run() {
  local status=$1 out=$2 err=$3
  shift 3
  "${by[@]}" "$program" "$@" >out 2>err
  local got=$?
  if [ "$got" -ne "$status" ] || ! says out "$out" || ! says err "$err"; then
    fail "tomled $*: status $got"
  else
    pass
  fi
}

says() {
  case $2 in
  -) [ ! -s "$1" ] ;;
  *'+') [ "$(head -n 1 "$1")" = "${2%?}" ] && [ "$(wc -l <"$1")" -gt 1 ] ;;
  *'*') [ "$(head -c $((${#2} - 1)) "$1")" = "${2%?}" ] ;;
  *) printf '%s\n' "$2" | cmp -s - "$1" ;;
  esac
}

printf 'a = 1\n' >good.toml
printf 'a = 1\na = 2\n' >twice.toml
run 0 ok - check good.toml
run 1 - 'refused 201 2' check twice.toml
run 0 '{"a":{"type":"integer","value":"1"}}' - show good.toml
run 1 - 'refused 201 2' show twice.toml
run 2 - 'error:*'
run 2 - 'error:*' check
run 2 - 'error:*' show
run 2 - 'error:*' check good.toml twice.toml
run 2 - 'error:*' unknown good.toml
run 2 - 'error:*' check --unknown good.toml
run 2 - 'bad words' check "$(printf '\377')"
run 3 - 'file fault' check missing.toml
run 3 - 'file fault' check .
run 0 'Reads and edits TOML documents*' - --help
run 0 'tomled 1.0.0' - --version
run 0 'tomled 1.0.0' - -V
run 2 - 'error:*' show good.toml twice.toml
run 2 - 'error:*' check --version
run 0 'Prints the data of a TOML document*' - show --help
run 0 'Says whether a file is a TOML document*' - check --help
run 0 'Edits a TOML document*' - edit --help
run 0 'Says whether an edited TOML document*' - verify --help
run 0 'Judges whether a TOML document*' - certify --help
printf '[]' >none.json
printf 'kept 1\n0 0\n1 1\n' >kept.txt
run 0 yes - verify good.toml none.json good.toml kept.txt
run 1 - 'refused 330 0' verify good.toml none.json good.toml none.json
run 1 - 'refused 401 0' verify twice.toml none.json good.toml kept.txt
run 2 - 'error:*' verify good.toml none.json good.toml
run 3 - 'file fault' verify good.toml none.json missing.toml kept.txt
run 3 - 'file fault' verify good.toml missing.json good.toml kept.txt

# absent FILE..: none of them was made
absent() {
  local file
  for file in "$@"; do
    if [ -e "$file" ]; then fail "$file was written"; else pass; fi
  done
}

# holds FILE TEXT: the bytes of the file
holds() {
  if printf "$2" | cmp -s - "$1"; then pass; else fail "$1 has other bytes"; fi
}

# same FILE FILE: they have the same bytes
same() {
  if cmp -s "$1" "$2"; then pass; else fail "$1 and $2 differ"; fi
}

printf 'port = 1_000 # keep\n' >before.toml
printf '[{"op":"set","at":["port"],"value":"0x1F"}]' >edits.json
printf '[{"op":"set","at":["host"],"value":"1"}]' >missing.json
printf '[{"op":"set","at":["port"]}]' >bad.json
run 0 ok - edit before.toml edits.json after.toml cert.txt
holds after.toml 'port = 0x1F # keep\n'
holds cert.txt 'kept 1\n1 1\n2 2\n'
run 0 yes - verify before.toml edits.json after.toml cert.txt
printf 'a longer text than the edited one, which is cut\n' >old.toml
run 0 ok - edit before.toml edits.json old.toml old.txt
holds old.toml 'port = 0x1F # keep\n'
run 1 - 'refused 301 0' edit before.toml missing.json after.toml cert.txt
holds after.toml 'port = 0x1F # keep\n'
run 1 - 'refused 301 0' edit before.toml missing.json refused.toml refused.txt
run 1 - 'refused 201 2' edit twice.toml edits.json refused.toml refused.txt
run 1 - 'refused 321 0' edit twice.toml twice.toml refused.toml refused.txt
run 2 - 'error:*' edit before.toml edits.json refused.toml
run 2 - 'error:*' edit before.toml edits.json refused.toml refused.txt more
run 3 - 'file fault' edit missing.toml edits.json refused.toml refused.txt
run 3 - 'file fault' edit before.toml missing.txt refused.toml refused.txt
run 3 - 'file fault' edit before.toml edits.json ./none/refused.toml refused.txt
absent refused.toml refused.txt
run 3 - 'file fault' edit before.toml edits.json opened.toml ./none/refused.txt
holds opened.toml ''

# The certificate of a text that another program wrote. CERT is made only where it is named, and there is a certificate.
printf 'port=0x1F   # keep\n' >other.toml
run 0 yes - certify before.toml edits.json other.toml other.cert
holds other.cert 'kept 1\n1 1\n2 2\n'
run 0 yes - verify before.toml edits.json other.toml other.cert
rm other.cert
run 0 yes - certify before.toml edits.json other.toml
printf 'port = 0x1F # kept\n' >lost.toml
run 1 - 'refused 406 0+' certify before.toml edits.json lost.toml other.cert
run 1 - 'refused 321 0+' certify before.toml before.toml other.toml other.cert
run 1 - 'refused 320 0+' certify before.toml bad.json other.toml other.cert
run 2 - 'error:*' certify
run 2 - 'error:*' certify before.toml edits.json
run 2 - 'error:*' certify before.toml edits.json other.toml other.cert more
run 3 - 'file fault+' certify none.toml edits.json other.toml other.cert
run 3 - 'file fault+' certify before.toml none.txt other.toml other.cert
run 3 - 'file fault+' certify before.toml edits.json none.toml other.cert
absent other.cert
printf 'what stood there before it, which is longer than the certificate\n' >other.cert
run 1 - 'refused 406 0+' certify before.toml edits.json lost.toml other.cert
holds other.cert 'what stood there before it, which is longer than the certificate\n'
run 0 yes - certify before.toml edits.json other.toml other.cert
holds other.cert 'kept 1\n1 1\n2 2\n'
run 3 - 'file fault+' certify before.toml edits.json other.toml none/other.cert
run 3 - 'file fault+' certify before.toml edits.json other.toml .
run 3 - 'file fault' certify before.toml edits.json other.toml /dev/full
# CERT may not take the place of what is read, whatever leads to it. A refusal does not ask where it leads.
cp other.toml over.toml
ln -s before.toml link.toml
ln edits.json hard.json
for cert in before.toml edits.json over.toml ./over.toml link.toml hard.json; do
  run 3 - 'file fault+' certify before.toml edits.json over.toml "$cert"
  run 1 - 'refused 406 0+' certify before.toml edits.json lost.toml "$cert"
done
run 3 - 'file fault+' certify - edits.json over.toml over.toml <before.toml
same over.toml other.toml
holds before.toml 'port = 1_000 # keep\n'
holds edits.json '[{"op":"set","at":["port"],"value":"0x1F"}]'
rm link.toml hard.json

# One of its three texts may be standard input, of which there is one. A file may have that name too.
run 0 yes - certify - edits.json other.toml piped.cert <before.toml
holds piped.cert 'kept 1\n1 1\n2 2\n'
run 0 yes - certify before.toml - other.toml <edits.json
run 0 yes - certify before.toml edits.json - <other.toml
run 0 yes - certify --profile 2 before.toml edits.json - <other.toml
run 1 - 'refused 406 0+' certify before.toml edits.json - unpiped.cert <lost.toml
run 1 - 'refused 321 0+' certify before.toml - other.toml </dev/null
run 2 - 'bad words' certify - - other.toml unpiped.cert <before.toml
run 2 - 'bad words' certify - edits.json - unpiped.cert <before.toml
run 2 - 'bad words' certify before.toml - - unpiped.cert <edits.json
run 2 - 'bad words' certify - - - unpiped.cert <before.toml
run 3 - 'file fault+' certify - edits.json other.toml unpiped.cert <.
run 3 - 'file fault+' certify - edits.json other.toml unpiped.cert <&-
absent unpiped.cert
run 3 - 'file fault' check - <before.toml
run 3 - 'file fault' verify - edits.json other.toml piped.cert <before.toml
run 0 yes - certify before.toml edits.json other.toml - <before.toml
holds ./- 'kept 1\n1 1\n2 2\n'
rm ./-
cp before.toml ./-
run 0 yes - certify ./- edits.json other.toml </dev/null
rm ./-

# The profile, before and behind the paths of each command; another one, none, two.
printf 't = {\n  x = 1, # one\n  y = 2,\n}\n' >two.toml
printf '[{"op":"remove","at":["t","x"]}]' >two.json
run 1 - 'refused 104 5' check two.toml
run 1 - 'refused 104 5' check --profile 1 two.toml
run 0 ok - check --profile 2 two.toml
run 0 ok - check two.toml --profile=2
run 0 '{"t":{"x":{"type":"integer","value":"1"},"y":{"type":"integer","value":"2"}}}' - show --profile 2 two.toml
run 1 - 'refused 104 5' show two.toml --profile 1
printf 't = { # c\n}\n' >empty.toml
run 0 '["t"]' - show --list --profile=2 empty.toml
run 1 - 'refused 104 6' show --list empty.toml
run 1 - 'refused 104 5' edit --profile 1 two.toml two.json two.out two.cert
absent two.out two.cert
run 0 ok - edit two.toml two.json two.out two.cert --profile 2
holds two.out 't = {\n   # one\n  y = 2,\n}\n'
holds two.cert 'kept 1\n2 1\n3 2\n4 3\n'
run 0 yes - verify --profile=2 two.toml two.json two.out two.cert
run 1 - 'refused 401 0' verify two.toml two.json two.out two.cert --profile 1
run 1 - 'refused 401 0+' certify --profile 1 two.toml two.json two.out no.cert
run 0 yes - certify two.toml two.json two.out found.cert --profile 2
holds found.cert 'kept 1\n2 1\n3 2\n4 3\n'
for words in 'check two.toml' 'show two.toml' 'show --list two.toml' 'edit two.toml two.json no.out no.cert' \
  'verify two.toml two.json two.out two.cert' 'certify two.toml two.json two.out no.cert' 'get two.toml t.x' \
  'set -i two.toml t.x 2' 'insert two.toml u 1' 'rename two.toml t u' 'remove two.toml t' 'apply -i two.toml two.json' \
  'validate two.toml good.toml'; do
  run 2 - 'error:*' $words --profile 3
  run 2 - 'error:*' $words --profile 0
  run 2 - 'error:*' $words --profile 01
  run 2 - 'error:*' $words --profile ''
  run 2 - 'error:*' $words --profile=
  run 2 - 'error:*' $words --profile
  run 2 - 'error:*' $words --profile 2 --profile 2
done
run 2 - 'error:*' --profile 2 check two.toml
absent no.out no.cert

# Files that can't be read or opened: a folder, one whose bytes can't be had, a folder that is not there. What is refused
# before both are open leaves nothing written.
mkdir folder
run 3 - 'file fault' check folder
run 3 - 'file fault' check /proc/self/mem
run 3 - 'file fault' edit folder edits.json unopened.toml unopened.txt
run 3 - 'file fault' edit before.toml folder unopened.toml unopened.txt
run 3 - 'file fault' edit before.toml edits.json folder unopened.txt
run 3 - 'file fault' edit before.toml edits.json none/unopened.toml unopened.txt
absent unopened.toml unopened.txt
run 3 - 'file fault' edit before.toml edits.json emptied.toml folder
holds emptied.toml ''
run 3 - 'file fault' verify before.toml edits.json folder cert.txt
run 3 - 'file fault' verify before.toml edits.json after.toml folder

# OUT may be FILE, which is read before it is opened; a refusal leaves it as it was. So may one file have two names.
cp before.toml same.toml
run 1 - 'refused 301 0' edit same.toml missing.json same.toml same.txt
holds same.toml 'port = 1_000 # keep\n'
run 0 ok - edit same.toml edits.json same.toml same.txt
holds same.toml 'port = 0x1F # keep\n'
holds same.txt 'kept 1\n1 1\n2 2\n'
cp before.toml first.toml
ln first.toml second.toml
run 0 ok - edit first.toml edits.json second.toml linked.txt
holds first.toml 'port = 0x1F # keep\n'
run 0 yes - verify before.toml edits.json second.toml linked.txt

# OUT and CERT may be one device. Of one file with two names, or one name twice, the certificate is what stands in it at
# last, over the front of the text: they have to be two files.
run 0 ok - edit before.toml edits.json /dev/null /dev/null
run 1 - 'refused 301 0' edit before.toml missing.json one.txt one.txt
absent one.txt
run 0 ok - edit before.toml edits.json one.txt one.txt
holds one.txt 'kept 1\n1 1\n2 2\neep\n'

# The limit of a text, and a certificate that is longer.
spaces() { head -c "$1" /dev/zero | tr '\0' ' '; }
spaces 16777216 >limit.toml
{ spaces 16777216; printf ' '; } >over.toml
{ spaces 16777216; printf '\303\251'; } >cut.toml
printf 'kept 1\n0 0\n' >kept.limit
run 0 ok - check limit.toml
run 0 yes - verify limit.toml none.json limit.toml kept.limit
for command in check show; do
  run 1 - 'refused 102 16777216' "$command" over.toml
  run 1 - 'refused 101 16777216' "$command" cut.toml
done
run 0 yes - certify limit.toml none.json - certified.limit <limit.toml
holds certified.limit 'kept 1\n0 0\n'
run 1 - 'refused 401 0+' certify - none.json limit.toml <over.toml
run 1 - 'refused 402 0+' certify limit.toml none.json - <over.toml
run 1 - 'refused 401 0' verify over.toml none.json limit.toml kept.limit
run 1 - 'refused 402 0' verify limit.toml none.json over.toml kept.limit
{ printf 'kept 1\n'; yes '1 1' | head -c 16777216; } >long.txt
run 1 - 'refused 405 0' verify good.toml none.json good.toml long.txt

# Outputs that take no byte: nothing is written behind one.
run 3 - 'file fault' edit before.toml edits.json /dev/full full.txt
holds full.txt ''
run 3 - 'file fault' edit before.toml edits.json full.toml /dev/full
holds full.toml 'port = 0x1F # keep\n'
"$program" check good.toml >/dev/full 2>err
if [ $? -ne 3 ] || ! says err 'file fault'; then fail 'standard output is full'; else pass; fi
"$program" check twice.toml >out 2>/dev/full
if [ $? -ne 3 ] || [ -s out ]; then fail 'standard error is full'; else pass; fi

# Outputs that are closed, as a process may be started. No file that is opened gets what is to be printed.
closed() {
  local status=$1
  shift
  "$program" "$@" >&- 2>err
  if [ $? -ne "$status" ] || ! says err 'file fault'; then fail "standard output is closed: tomled $*"; else pass; fi
}
closed 3 check good.toml
closed 3 edit before.toml edits.json closed.toml closed.txt
holds closed.toml 'port = 0x1F # keep\n'
closed 3 certify before.toml edits.json other.toml closed.cert
holds closed.cert 'kept 1\n1 1\n2 2\n'
"$program" check twice.toml >out 2>&-
if [ $? -ne 3 ] || [ -s out ]; then fail 'standard error is closed'; else pass; fi
rm closed.cert
"$program" certify before.toml edits.json other.toml closed.cert <&- >&- 2>&-
if [ $? -ne 3 ]; then fail 'all three are closed'; else pass; fi
holds closed.cert 'kept 1\n1 1\n2 2\n'

# A pipe whose reader has gone.
mkfifo pipe
rm -f piped.cert
for words in 'check good.toml' 'certify before.toml edits.json other.toml piped.cert'; do
  : <pipe &
  { wait $!; "$program" $words 2>err; } >pipe
  if [ $? -ne 3 ] || ! says err 'file fault'; then fail "nothing reads standard output: tomled $words"; else pass; fi
done
holds piped.cert 'kept 1\n1 1\n2 2\n'

# So many lines that most are let go on the way.
yes '[[a]]' | head -n 20000 >many.toml
printf '[]' >many.json
run 0 ok - edit many.toml many.json many.out many.cert
run 0 yes - verify many.toml many.json many.out many.cert
run 0 yes - certify many.toml many.json many.out found.cert
same many.cert found.cert
printf '[{"op":"insert","at":["a",19999,"b"],"value":"1"}]' >many.json
run 0 ok - edit many.toml many.json many.out many.cert
run 0 yes - verify many.toml many.json many.out many.cert
run 0 yes - certify many.toml many.json many.out found.cert
same many.cert found.cert
run 0 1 - get many.toml 'a[-1].b' --default 1
cp many.toml many.copy
run 0 - - apply -i many.copy many.json
same many.copy many.out
run 0 - - validate many.toml many.copy
run 0 1 - get many.copy 'a[-1].b'

for part in commands explained in_place deepest; do . "$parts/$part.sh"; done

printf '%s passed, %s failed\n' "$passed" "$failed"
[ "$failed" -eq 0 ]
