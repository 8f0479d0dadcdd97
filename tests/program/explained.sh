# What is told of refusals: files that can't be read, lines that are long or can't be shown. A part of ../program.sh.

# Who is not root, since root may read and write what it likes. The program and its files are where that user may go.
other=()
if [ "$(id -u)" -eq 0 ]; then
  if command -v setpriv >/dev/null; then
    other=(setpriv --reuid=65534 --regid=65534 --clear-groups)
  elif command -v su >/dev/null; then
    other=(su -s /bin/sh nobody -c 'exec "$0" "$@"' --)
  else
    fail 'there is no other user: apt-get install util-linux'
  fi
fi
given=$program
cp "$given" tomled
chmod 755 . tomled
if "${other[@]}" ./tomled check good.toml >out 2>err && says out ok; then pass; else fail "$folder: no other user comes there"; fi

# as_other WORDS..: a run by that user
as_other() {
  program=$folder/tomled
  by=("${other[@]}")
  run "$@"
  program=$given
  by=()
}

# reasoned FILE: what is told behind `file fault` is one line, the file's word and the system's reason
reasoned() {
  if [ "$(wc -l <err)" -eq 2 ] && sed -n 2p err | grep -q "^$1: .*[a-z]"; then
    pass
  else
    fail "$1: no reason is told"
  fi
}

# A file that may not be read. The first commands explain where they are asked to.
printf 'a = 1\n' >secret.toml
chmod 000 secret.toml
for words in 'check secret.toml' 'show secret.toml' 'edit secret.toml none.json secret.out secret.cert'; do
  as_other 3 - 'file fault' $words
done
for words in 'check --explain secret.toml' 'show --explain secret.toml' 'get secret.toml a' 'get secret.toml a --default 1' \
  'set secret.toml a 2' 'set -i secret.toml a 2' 'remove secret.toml a' 'apply secret.toml none.json' \
  'edit secret.toml none.json secret.out secret.cert --explain' 'validate secret.toml' 'certify secret.toml none.json good.toml'; do
  as_other 3 - 'file fault+' $words
  reasoned secret.toml
done
absent secret.out secret.cert
chmod 600 secret.toml
holds secret.toml 'a = 1\n'
run 3 - 'file fault+' get missing.toml a
reasoned missing.toml
run 3 - 'file fault+' apply good.toml none.txt
reasoned none.txt
run 3 - 'file fault+' get good.toml/none a
reasoned good.toml/none
run 3 - 'file fault+' get folder a
reasoned folder
run 3 - 'file fault+' validate folder good.toml
reasoned folder
if grep -q '^folder: Is a directory' err; then pass; else fail 'of a folder the reason is not told'; fi
run 3 - 'file fault+' get - a <folder
if grep -q '^-: Is a directory' err; then pass; else fail 'of a folder as standard input the reason is not told'; fi

# Outputs that can't be opened.
run 3 - 'file fault' edit good.toml none.json folder out.cert
run 3 - 'file fault+' edit good.toml none.json folder out.cert --explain
reasoned folder
run 3 - 'file fault+' edit good.toml none.json out.toml none/out.cert --explain
reasoned none/out.cert
run 3 - 'file fault+' certify good.toml none.json good.toml folder
reasoned folder
run 3 - 'file fault+' get '' a

# An empty file.
: >blank.toml
run 0 '{}' - get blank.toml .
run 5 - 'refused 301 0+' get blank.toml a
run 0 - - validate blank.toml
run 0 'a = 1' - set blank.toml a 1
run 0 - - set -i blank.toml a 1
holds blank.toml 'a = 1\n'
run 0 - - remove -i blank.toml a
holds blank.toml ''
run 1 - 'refused 301 0+' remove blank.toml a

# drawn LINE CARETS: the line of the file that is shown, and what stands below
drawn() {
  local shown below
  shown=$(sed -n 3p err)
  below=$(sed -n 4p err)
  if [ "${shown#*| }" = "$1" ] && [ "${below#*| }" = "$2" ]; then pass; else fail "shown is $shown, below $below"; fi
}

# Lines end in CRLF here. No CR is shown, and none is lost in an edit.
printf 'a = 1\r\n\r\nb = 08\r\n' >crlf.toml
run 1 - 'refused 106 13+' check --explain crlf.toml
drawn 'b = 08' '    ^^'
if grep -q "$(printf '\r')" err; then fail 'a CR is shown'; else pass; fi
printf 'a = \r\n' >crlf.toml
run 1 - 'refused 104 4+' validate crlf.toml
drawn 'a = ' '    ^'
printf 'a = 1 # c\r\nb = 2\r\n' >crlf.toml
run 0 - - set -i crlf.toml c 3
holds crlf.toml 'a = 1 # c\r\nb = 2\r\nc = 3\r\n'
run 0 2 - get crlf.toml b

# Wide characters and tabs, before the carets and below them.
printf '\t"日本"\t= 08\n' >wide_name.toml
run 1 - 'refused 106 12+' get wide_name.toml a
drawn '	"日本"	= 08' '	      	  ^^'
printf 'a = "é" 日 # \n' >wide_name.toml
run 1 - 'refused 104 9+' check --explain wide_name.toml
drawn 'a = "é" 日 # ' '        ^^'
printf '\357\273\277"日" = 08' >marked.toml
run 1 - 'refused 106 11+' check --explain marked.toml
if sed -n 2p err | grep -q '^marked.toml:1:7: '; then pass; else fail 'the mark is a column'; fi
drawn '"日" = 08' '       ^^'

# cut FRONT BACK TEXT: a part of a long line is shown, cut in front or behind where that is `..`, and carets stand below
# the text
cut() {
  local shown below front carets
  shown=$(sed -n '3s/^[^|]*| //p' err)
  below=$(sed -n '4s/^[^|]*| //p' err)
  front=${below%%^*}
  carets=${below:${#front}}
  if [ "${#shown}" -le 160 ] && [ "${#shown}" -ge 80 ]; then pass; else fail "${#shown} columns are shown"; fi
  if [ "$([ "${shown:0:2}" = .. ] && printf ..)" = "$1" ]; then pass; else fail 'the front of a long line'; fi
  if [ "$([ "${shown: -2}" = .. ] && printf ..)" = "$2" ]; then pass; else fail 'the end of a long line'; fi
  if [ "${shown:${#front}:${#carets}}" = "$3" ]; then pass; else fail "what is meant is not $3"; fi
}

# A line of 160 columns is shown whole, of a longer one the part around the place.
{ printf 'a = 08 #'; spaces 151; printf x; } >long.toml
run 1 - 'refused 106 4+' check --explain long.toml
cut '' '' 08
{ printf 'a = 08 #'; spaces 152; printf x; } >long.toml
run 1 - 'refused 106 4+' check --explain long.toml
cut '' .. 08
{ printf 'a = ['; spaces 500; printf '08,'; spaces 500; printf ']'; } >long.toml
run 1 - 'refused 106 505+' check --explain long.toml
cut .. .. 08
{ printf 'a = ['; spaces 500; printf '08'; } >long.toml
run 1 - 'refused 106 505+' check --explain long.toml
cut .. '' 08

# A line of a megabyte, and other texts that are long: an answer takes seconds at most.
by=(timeout 10)
{ printf 'a = "'; spaces 1000000; printf '" 08'; } >mega.toml
for words in 'check --explain mega.toml' 'get mega.toml a' 'set -i mega.toml b 1' 'validate mega.toml'; do
  run 1 - 'refused 104 1000007+' $words
  cut .. '' 0
done
{ printf 'a = "'; spaces 1000000; printf '"\n'; } >mega.toml
run 5 - 'refused 301 0+' get mega.toml b
run 1 - 'refused 306 0+' set mega.toml a 08
run 0 - - set -i mega.toml a 1
holds mega.toml 'a = 1\n'
{ printf '"'; spaces 1000000; printf '" = 1\n"'; spaces 1000000; printf '" = 2\n'; } >mega.toml
run 1 - 'refused 201 2+' check --explain mega.toml
{ printf '# '; yes 日 | head -n 300000 | tr -d '\n'; printf '\n'; yes '# c' | head -n 300000; printf 'b = 08'; } >mega.toml
run 1 - 'refused 106 2100007+' check --explain mega.toml
if sed -n 2p err | grep -q '^mega.toml:300002:5: '; then pass; else fail 'the position behind many lines'; fi
for number in $(seq 20000); do printf 'key_%s = %s\n' "$number" "$number"; done >mega.toml
run 5 - 'refused 301 0+' get mega.toml "$(spaces 100000 | tr ' ' k)"
run 5 - 'refused 301 0+' get mega.toml kye_19999
run 1 - 'refused 306 0+' set mega.toml key_1 "$(spaces 100000 | tr ' ' x)"
run 1 - 'refused 340 100000+' get mega.toml "$(spaces 100000 | tr ' ' k)="
by=()

# Without the option the first commands print the line of a refusal alone.
for words in 'check twice.toml' 'show twice.toml' 'show --list twice.toml' 'edit twice.toml none.json no.out no.cert'; do
  run 1 - 'refused 201 2' $words
  run 1 - 'refused 201 2+' $words --explain
done
run 1 - 'refused 401 0' verify twice.toml none.json good.toml kept.txt
run 1 - 'refused 401 0+' verify --explain twice.toml none.json good.toml kept.txt
run 1 - 'refused 330 0+' verify --explain good.toml none.json good.toml none.json
run 1 - 'refused 405 0+' verify --explain good.toml none.json good.toml long.txt
run 1 - 'refused 321 0+' edit --explain good.toml good.toml no.out no.cert
absent no.out no.cert
