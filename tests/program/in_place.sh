# Files in place: whole or not at all, and nothing else is left or touched. A part of ../program.sh.

# state: all that stands in the folder `place`, and when the files were written
state() {
  find place -type d -printf '%p %y %i %m %u\n' -o -printf '%p %y %i %n %m %u %T@ %l\n' | sort
  find place -type f -exec cksum {} + 2>/dev/null | sort
}

# untouched STATUS OUT ERR WORDS..: a run, behind which all there is as it was
untouched() {
  local before
  before=$(state)
  run "$@"
  if [ "$(state)" = "$before" ]; then pass; else fail "tomled ${*:4}: something is touched"; fi
}

# only NAME..: these stand in the folder `place`, and nothing else
only() {
  if [ "$(ls -A place)" = "$(printf '%s\n' "$@" | sort)" ]; then pass; else fail "in the folder stands $(ls -A place)"; fi
}

# mode FILE MODE: its permissions
mode() {
  if [ "$(stat -c %a "$1")" = "$2" ]; then pass; else fail "$1 has the permissions $(stat -c %a "$1")"; fi
}

# fresh [MODE]: the folder with one file, which is old
fresh() {
  chmod -R u+rwx place 2>err
  rm -rf place
  mkdir place
  printf 'port = 8080 # keep\n' >place/f.toml
  chmod "${1:-640}" place/f.toml
  touch -d '2001-02-03 04:05:06' place/f.toml
}

# Each command, and nothing is printed.
fresh
run 0 - - set -i place/f.toml port 9090
holds place/f.toml 'port = 9090 # keep\n'
run 0 - - insert place/f.toml host '"a"' --in-place
run 0 - - rename -i place/f.toml host 'my host'
run 0 - - set -i --string place/f.toml '"my host"' b
run 0 - - set -i --parents --layout plain place/f.toml s.t.u 1
holds place/f.toml 'port = 9090 # keep\n"my host" = "b"\n[s]\n[s.t]\nu = 1\n'
run 0 - - remove -i place/f.toml s
run 0 - - apply --in-place place/f.toml edits.json
holds place/f.toml 'port = 0x1F # keep\n"my host" = "b"\n'
only f.toml
mode place/f.toml 640
run 0 - - remove -i place/f.toml port
run 0 - - remove -i place/f.toml '"my host"'
holds place/f.toml ''
cd place || exit 1
"$program" set -i f.toml a 1 >../out 2>../err
"$program" set -i ../place/./f.toml b 2 >>../out 2>>../err
cd ..
holds place/f.toml 'a = 1\nb = 2\n'
if [ -s out ] || [ -s err ]; then fail 'something is printed'; else pass; fi
only f.toml

# A text that FILE has already is not written: the file is the same one, and was not opened to be written.
fresh 444
untouched 0 - - set -i place/f.toml port 8080
untouched 0 - - set -i place/f.toml port 8080 --certificate kept.cert
holds kept.cert 'kept 1\n1 1\n2 2\n'
untouched 0 - - apply -i place/f.toml none.json

# Without -i FILE is not touched, nor where something is refused. Then no certificate is written either.
fresh
rm kept.cert
untouched 0 'port = 9090 # keep' - set place/f.toml port 9090
untouched 0 'port = 9090 # keep' - set place/f.toml port 9090 --certificate kept.cert
holds kept.cert 'kept 1\n1 1\n2 2\n'
rm kept.cert
untouched 1 - 'refused 306 0+' set -i place/f.toml port 08 --certificate kept.cert
untouched 1 - 'refused 301 0+' set -i place/f.toml a.b 1 --certificate kept.cert
untouched 1 - 'refused 340 2+' set -i place/f.toml a..b 1 --certificate kept.cert
untouched 1 - 'refused 301 0+' apply -i place/f.toml missing.json --certificate kept.cert
untouched 2 - 'error:*' set -i place/f.toml port --certificate kept.cert
untouched 3 - 'file fault+' apply -i place/f.toml none.txt --certificate kept.cert
untouched 3 - 'file fault+' set -i place/none.toml port 1 --certificate kept.cert
absent kept.cert
cp limit.toml place/limit.toml
untouched 1 - 'refused 102 16777216+' set -i place/limit.toml a 1
if grep -q '^place/limit.toml: .*the edits make a longer one$' err; then pass; else fail 'the edited text is too long, and not FILE'; fi
rm place/limit.toml
only f.toml

# The certificate is written before FILE has its text, and where it can't be FILE stays as it was.
fresh
run 0 - - set -i place/f.toml port 0x1F --certificate place/kept.cert
holds place/f.toml 'port = 0x1F # keep\n'
holds place/kept.cert 'kept 1\n1 1\n2 2\n'
only f.toml kept.cert
mode place/f.toml 640
printf 'a longer text than the certificate, which is cut\n' >place/kept.cert
run 0 - - apply -i place/f.toml none.json --certificate=place/kept.cert
holds place/kept.cert 'kept 1\n0 0\n2 2\n'
for path in none/kept.cert folder; do
  untouched 3 - 'file fault+' set -i place/f.toml port 1 --certificate "$path"
  reasoned "$path"
  untouched 3 - 'file fault+' set -i place/f.toml port 0x1F --certificate "$path"
  reasoned "$path"
  untouched 3 - 'file fault+' set place/f.toml port 1 --certificate "$path"
  reasoned "$path"
done
untouched 3 - 'file fault+' set -i place/f.toml port 1 --certificate /dev/full
untouched 3 - 'file fault' set -i place/f.toml port 0x1F --certificate /dev/full
untouched 3 - 'file fault' set place/f.toml port 1 --certificate /dev/full

# It may not take the place of FILE or of EDITS, by whatever name, in place or not. Then nothing is printed.
ln -s f.toml place/link.toml
ln place/f.toml place/hard.toml
cp edits.json place/list.json
ln -s list.json place/list.link
ln place/list.json place/list.hard
for path in place/f.toml ./place/f.toml place/link.toml place/hard.toml; do
  untouched 3 - 'file fault+' set -i place/f.toml port 1 --certificate "$path"
  untouched 3 - 'file fault+' set -i place/f.toml port 0x1F --certificate "$path"
  untouched 3 - 'file fault+' set -i place/link.toml port 1 --certificate "$path"
  untouched 3 - 'file fault+' set place/f.toml port 1 --certificate "$path"
  untouched 3 - 'file fault+' set place/link.toml port 1 --certificate "$path"
  untouched 3 - 'file fault+' apply place/f.toml place/list.json --certificate "$path"
  reasoned "$path"
done
for path in place/list.json place/list.link place/list.hard; do
  untouched 3 - 'file fault+' apply place/f.toml place/list.json --certificate "$path"
  untouched 3 - 'file fault+' apply -i place/f.toml place/list.json --certificate "$path"
  reasoned "$path"
  untouched 3 - 'file fault+' apply - place/list.json --certificate "$path" <place/f.toml
done
untouched 3 - 'file fault+' apply place/f.toml - --certificate place/f.toml <place/list.json
# Standard input is no file of a name, and of `edit` both outputs may be FILE.
run 0 'a = 2' - set - a 2 --certificate place/kept.cert <good.toml
holds place/kept.cert 'kept 1\n1 1\n'
cp place/f.toml place/out.toml
run 0 ok - edit place/out.toml none.json place/out.toml place/out.cert

# Permissions are kept, whatever new files get.
for bits in 640 600 444 751 666 0; do
  for mask in 022 077 000; do
    fresh "$bits"
    # who is not root may not read a file without rights
    if [ "$bits" = 0 ] && [ ! -r place/f.toml ]; then continue; fi
    usual=$(umask)
    umask "$mask"
    run 0 - - set -i place/f.toml port 9090
    umask "$usual"
    mode place/f.toml "$bits"
    only f.toml
    chmod 600 place/f.toml
    holds place/f.toml 'port = 9090 # keep\n'
  done
done

# A symbolic link is followed, and stays, also one to a link in another folder.
fresh 604
mkdir -p links
ln -sf ../place/f.toml links/first.toml
ln -sf "$folder/links/first.toml" links/second.toml
for link in first second; do
  run 0 - - set -i "links/$link.toml" port 9090
  holds place/f.toml 'port = 9090 # keep\n'
  run 0 - - set -i "links/$link.toml" port 8080
done
if [ "$(readlink links/first.toml) $(readlink links/second.toml)" = "../place/f.toml $folder/links/first.toml" ]; then
  pass
else
  fail 'a link did not stay'
fi
if [ "$(ls -A links)" = $'first.toml\nsecond.toml' ]; then pass; else fail 'a file is left beside a link'; fi
only f.toml
mode place/f.toml 604
ln -sf none.toml links/first.toml
run 3 - 'file fault+' set -i links/first.toml a 1
absent links/none.toml
ln -sf first.toml links/first.toml
run 3 - 'file fault+' set -i links/first.toml a 1

# A hard link is broken: FILE is a new one, and the other name keeps the old text.
fresh
ln place/f.toml place/other.toml
run 0 - - set -i place/f.toml port 9090
holds place/f.toml 'port = 9090 # keep\n'
holds place/other.toml 'port = 8080 # keep\n'
if [ "$(stat -c %h place/f.toml place/other.toml)" = $'1\n1' ]; then pass; else fail 'a hard link is not broken'; fi
only f.toml other.toml

# Names with other characters, and one that a run before has left.
fresh
mv place/f.toml 'place/my é.toml'
run 0 - - set -i 'place/my é.toml' port 9090
holds 'place/my é.toml' 'port = 9090 # keep\n'
only 'my é.toml'
fresh
for number in 0 1 2; do printf left >"place/.f.toml.tomled$number"; done
run 0 - - set -i place/f.toml port 9090
only .f.toml.tomled0 .f.toml.tomled1 .f.toml.tomled2 f.toml
for number in 0 1 2; do holds "place/.f.toml.tomled$number" left; done

# What is no plain file is not replaced.
fresh
mkdir place/inner
mkfifo place/pipe
untouched 3 - 'file fault+' set -i place/inner a 1
untouched 3 - 'file fault+' set -i place a 1
timeout 10 sh -c 'printf "a = 1\n" >place/pipe' &
writer=$!
by=(timeout 10)
run 3 - 'file fault+' set -i place/pipe a 2
by=()
wait "$writer"
if [ -p place/pipe ]; then pass; else fail 'a pipe is replaced'; fi
only f.toml inner pipe
as_other 3 - 'file fault+' set -i /dev/null a 1
if [ -c /dev/null ]; then pass; else fail '/dev/null is no device'; fi

# The new file can't be written to its end. A limit for the length of files does as a full disk would.
fresh
{ printf 'a = "'; spaces 3000; printf '"\nport = 8080 # keep\n'; } >place/f.toml
limited() {
  (trap '' XFSZ && ulimit -f 1 && exec "$program" "$@")
}
before=$(state)
limited set -i place/f.toml port 9090 >out 2>err
if [ $? -eq 3 ] && says err 'file fault+'; then pass; else fail 'the new file is too long'; fi
if [ "$(state)" = "$before" ]; then pass; else fail 'something is left of a new file that is too long'; fi
limited set -i place/f.toml a 1 >out 2>err
if [ $? -eq 0 ] && [ ! -s out ] && [ ! -s err ]; then pass; else fail 'the new file is short enough'; fi
holds place/f.toml 'a = 1\nport = 8080 # keep\n'

# Rights. To rename, the rights on the folder count, and not those on FILE: one that may not be written is replaced, and so is
# one of another user, which is then one's own. In a folder that may not be written nothing is touched.
fresh 444
chmod 777 place
[ ${#other[@]} -eq 0 ] || chown 65534 place/f.toml
as_other 0 - - set -i place/f.toml port 9090
holds place/f.toml 'port = 9090 # keep\n'
mode place/f.toml 444
only f.toml
fresh 644
chmod 777 place
as_other 0 - - set -i place/f.toml port 9090
holds place/f.toml 'port = 9090 # keep\n'
mode place/f.toml 644
only f.toml
fresh 666
chmod 555 place
mkdir -p theirs
chmod 777 theirs
before=$(state)
as_other 3 - 'file fault+' set -i place/f.toml port 9090
as_other 3 - 'file fault+' set -i place/f.toml port 9090 --certificate theirs/kept.cert
as_other 0 'port = 9090 # keep' - set place/f.toml port 9090
as_other 0 - - set -i place/f.toml port 8080
if [ "$(state)" = "$before" ]; then pass; else fail 'a folder that may not be written'; fi
absent theirs/kept.cert
fresh 200
[ ${#other[@]} -eq 0 ] || chown 65534 place/f.toml
chmod 777 place
before=$(state)
as_other 3 - 'file fault+' set -i place/f.toml port 9090
if [ "$(state)" = "$before" ]; then pass; else fail 'a file that may not be read'; fi
fresh
