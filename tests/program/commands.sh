# Of `get`, the edits of one line, `apply` and `validate`: help, standard input, outputs, words. A part of ../program.sh.

# The help of each command has a line that can be typed.
helped() {
  run 0 "$2*" - "$1" --help
  if grep -q "^Example: tomled $1 " out; then pass; else fail "the help of $1 has no example"; fi
}
helped get 'Prints what stands at a place'
helped set 'Sets the value at a place'
helped insert 'Puts a new member or element'
helped rename 'Gives a member of a table'
helped remove 'Takes what stands at a place'
helped apply 'Makes a list of edits'
helped validate 'Says which files are no TOML documents'
helped check 'Says whether a file is a TOML document'
helped show 'Prints the data of a TOML document'
helped edit 'Edits a TOML document'
helped verify 'Says whether an edited TOML document'
helped certify 'Judges whether a TOML document'
run 0 'Reads and edits TOML documents*' - --help
for command in get set insert rename remove apply validate check show edit verify certify; do
  if grep -q "^ *$command\b" out; then pass; else fail "the help does not name $command"; fi
done

# What a script gets. A string with a newline is printed as it is.
printf 'port = 0x1F\ntext = """\none\\ttwo\nthree"""\n[[u]]\nk = "a"\n[[u]]\nk = "b"\n' >some.toml
run 0 31 - get some.toml port
run 0 0x1F - get some.toml --toml port
run 0 'one	two*' - get some.toml text
holds out 'one\ttwo\nthree\n'
run 0 '"one\ttwo\nthree"' - get some.toml text --json
run 0 b - get some.toml 'u[-1].k'
run 5 - 'refused 301 0+' get some.toml 'u[2].k'
run 0 none - get --default none some.toml 'u[2].k'
if [ "$("$program" get some.toml text)" = $'one\ttwo\nthree' ]; then pass; else fail 'get in a script'; fi
run 1 - 'refused 201 2+' get twice.toml a
run 1 - 'refused 340 2+' get twice.toml a..b

# Only where a name is near it is asked whether that is meant.
run 5 - 'refused 301 0+' get some.toml prot
if grep -q 'did you mean "port"?' err; then pass; else fail 'which name is meant is not asked'; fi
run 5 - 'refused 301 0+' get some.toml zebra
if grep -q 'did you mean' err; then fail 'it is asked whether a name is meant that is far'; else pass; fi

# Standard input, of which there is one. A file may have that name too, and one that begins with a hyphen.
run 0 31 - get - port <some.toml
run 0 'port = 80 # keep' - set - port 80 <before.toml
run 0 'port = 0x1F # keep' - apply - edits.json <before.toml
run 0 'port = 0x1F # keep' - apply before.toml - <edits.json
run 0 - - validate - <before.toml
run 0 - - validate before.toml - some.toml <before.toml
run 1 - 'refused 201 2+' validate - <twice.toml
run 2 - 'bad words' validate - before.toml - <before.toml
run 2 - 'bad words' apply - - <before.toml
run 2 - 'bad words' set -i - port 80 <before.toml
run 2 - 'bad words' apply -i - edits.json <before.toml
run 2 - 'bad words' get --json --type some.toml port
for words in 'get - a' 'set - a 1' 'remove - a' 'apply - edits.json' 'apply before.toml -' 'validate -'; do
  run 3 - 'file fault+' $words <.
  run 3 - 'file fault+' $words <&-
done
cp some.toml ./-
run 0 31 - get ./- port </dev/null
run 0 - - set -i ./- port 1 </dev/null
run 0 1 - get ./- port </dev/null
rm ./-
cp some.toml ./-x.toml
run 0 31 - get -- -x.toml port
run 2 - 'error:*' get -x.toml port
run 0 - - set -i -- -x.toml port -1
run 0 -1 - get ./-x.toml port
run 0 - - set -i ./-x.toml port -2
run 0 -2 - get -- -x.toml port

# Words that lack something, or have too much.
for words in get 'get some.toml' 'get some.toml port port' set 'set some.toml' 'set some.toml port' 'set some.toml port 1 2' \
  'insert some.toml port' 'rename some.toml port' remove 'remove some.toml' 'remove some.toml port 1' apply \
  'apply some.toml' 'apply some.toml edits.json more' validate 'validate --list some.toml' 'get --default' \
  'set --certificate' 'set --certificate kept.cert' 'set -i -i some.toml port 1' 'set -1 some.toml port' \
  'get --explain some.toml port' 'certify --explain some.toml edits.json some.toml'; do
  run 2 - 'error:*' $words
done
run 2 - 'bad words' get some.toml "$(printf 'a\377')"
run 2 - 'bad words' set some.toml port "$(printf '\377')"
run 2 - 'bad words' validate some.toml "$(printf '\377')"
absent kept.cert

# The profile, before and behind the other words.
run 0 1 - get --profile 2 two.toml t.x
run 0 1 - get two.toml t.x --profile=2
run 1 - 'refused 104 5+' get two.toml t.x
run 0 't = {*' - set --profile 2 empty.toml t '{'$'\n''}'
run 1 - 'refused 306 0+' set good.toml a '{'$'\n''}'
run 0 't = {*' - remove two.toml --profile 2 t.y
run 0 't = {*' - apply two.toml two.json --profile=2
run 0 - - validate --profile 2 two.toml empty.toml
run 1 - 'refused 104 5+' validate --profile 1 two.toml empty.toml

# Texts at the limit, and beyond.
run 0 '{}' - get limit.toml .
run 0 '{}' - get - . <limit.toml
run 0 - - validate limit.toml
for words in 'get over.toml .' 'validate over.toml' 'set over.toml a 1' 'check --explain over.toml' 'set limit.toml a 1'; do
  run 1 - 'refused 102 16777216+' $words
done
run 1 - 'refused 101 16777216+' get cut.toml .

# Of several files each is read, whatever the others come to.
run 3 - 'file fault+' validate missing.toml good.toml twice.toml
if [ "$(grep -c '^refused 201 2$' err)" -eq 1 ] && grep -q '^missing.toml: ' err; then pass; else fail 'not each file is read'; fi
run 3 - 'refused 201 2+' validate twice.toml . good.toml
if [ "$(grep -c '^file fault$' err)" -eq 1 ] && grep -q '^\.: ' err; then pass; else fail 'a folder is not told'; fi
mkdir files
for number in $(seq 300); do printf 'a = %s\n' "$number" >"files/$number.toml"; done
run 0 - - validate files/*.toml
printf 'a = 08\n' | tee files/17.toml >files/170.toml
run 1 - 'refused 106 4+' validate files/*.toml
if [ "$(grep -c '^refused 106 4$' err)" -eq 2 ]; then pass; else fail 'not each refused file is told'; fi

# Outputs that are full, or closed. Where nothing is to be printed none fails.
for words in 'get some.toml text' 'get - text' 'set some.toml port 1' 'remove some.toml port' 'apply before.toml edits.json'; do
  "$program" $words <some.toml >/dev/full 2>err
  if [ $? -ne 3 ] || ! says err 'file fault'; then fail "standard output is full: tomled $words"; else pass; fi
  closed 3 $words <some.toml
done
for words in 'get twice.toml a' 'get some.toml z' 'set some.toml z.z 1' 'validate twice.toml' 'validate missing.toml' \
  'check --explain twice.toml'; do
  "$program" $words >out 2>/dev/full
  if [ $? -ne 3 ] || [ -s out ]; then fail "standard error is full: tomled $words"; else pass; fi
  "$program" $words >out 2>&-
  if [ $? -ne 3 ] || [ -s out ]; then fail "standard error is closed: tomled $words"; else pass; fi
done
cp before.toml silent.toml
"$program" set -i silent.toml port 80 <&- >&- 2>&-
if [ $? -eq 0 ]; then pass; else fail 'nothing is to be printed, and all three are closed'; fi
holds silent.toml 'port = 80 # keep\n'
"$program" validate silent.toml <&- >&- 2>&-
if [ $? -eq 0 ]; then pass; else fail 'nothing is to be told, and all three are closed'; fi
"$program" set silent.toml port 81 --certificate silent.cert <&- >&- 2>&-
if [ $? -eq 3 ]; then pass; else fail 'a text is to be printed, and all three are closed'; fi
holds silent.cert 'kept 1\n1 1\n2 2\n'

# A reader that goes before it has read all.
{ printf 'a = "'; spaces 1000000; printf '"\nb = 1\n'; } >wide.toml
for words in 'get wide.toml a' 'get --json wide.toml .' 'set wide.toml b 2' 'remove wide.toml b'; do
  "$program" $words 2>err | head -c 1 >out
  if [ "${PIPESTATUS[0]}" -ne 3 ] || ! says err 'file fault'; then fail "tomled $words | head"; else pass; fi
done
for words in 'get good.toml a' 'set good.toml a 2' 'apply before.toml edits.json'; do
  : <pipe &
  { wait $!; "$program" $words 2>err; } >pipe
  if [ $? -ne 3 ] || ! says err 'file fault'; then fail "nothing reads standard output: tomled $words"; else pass; fi
done
