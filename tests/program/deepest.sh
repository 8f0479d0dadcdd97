# The deepest texts, under a stack of 256 KiB. The last part of ../program.sh, since that limit stays.
deep() {
  local count
  for count in $(seq "$1"); do printf '%s' "$2"; done
}
{ printf 'a = '; deep 100 '['; deep 100 ']'; printf '\n'; } >arrays.toml
{ printf 'a = '; deep 99 '{b = '; printf 1; deep 99 '}'; printf '\n'; } >tables.toml
{ printf 'a = '; deep 99 $'{\nb = '; printf 1; deep 99 $', # c\n}'; printf '\n'; } >lines.toml
{ deep 99 'a.'; printf 'a = 1\n'; } >key.toml
printf '[{"op":"insert","at":["z"],"value":"1"}]' >insert.json
{ printf '[{"op":"set","at":["a"'; deep 99 ',0'; printf '],"value":"1"}]'; } >arrays.json
{ printf '[{"op":"set","at":["a"'; deep 99 ',"b"'; printf '],"value":"2"}]'; } >tables.json
cp tables.json lines.json
{ printf '[{"op":"set","at":["a"'; deep 99 ',"a"'; printf '],"value":"2"}]'; } >key.json
{ printf '[{"op":"set","at":["a"],"value":"'; deep 100 '['; deep 100 ']'; printf '"}]'; } >value.json
{ deep 1000 '['; deep 1000 ']'; } >lists.json
{ printf '[{"op":"remove","at":["a"'; deep 20000 ',"a"'; printf ']}]'; } >long.json
declare -A places
places[arrays]=a$(deep 99 '[0]')
places[tables]=a$(deep 99 .b)
places[lines]=${places[tables]}
places[key]=a$(deep 99 .a)
declare -A deepest_values=([arrays]='[]' [tables]=1 [lines]=1 [key]=1)
# deepest NAME WORDS..: each command of the text, with these words behind
deepest() {
  local text=$1
  shift
  run 0 ok - check "$text.toml" "$@"
  run 0 '{"a":*' - show "$text.toml" "$@"
  run 0 '["a"]*' - show --list "$text.toml" "$@"
  run 0 ok - edit "$text.toml" insert.json deep.toml deep.txt "$@"
  run 0 yes - verify "$text.toml" insert.json deep.toml deep.txt "$@"
  run 0 ok - edit "$text.toml" "$text.json" deep.toml deep.txt "$@"
  run 0 yes - verify "$text.toml" "$text.json" deep.toml deep.txt "$@"
  run 0 yes - certify "$text.toml" "$text.json" deep.toml found.txt "$@"
  same deep.txt found.txt
  cp "$text.toml" deep.copy
  run 0 - - apply -i deep.copy "$text.json" "$@"
  same deep.copy deep.toml
  deepest_at "$text" "$@"
}

# deepest_at NAME WORDS..: the same of the other commands, at the text as a whole, at its deepest place, and below that
deepest_at() {
  local text=$1 place=${places[$1]}
  shift
  run 0 '{"a":*' - get "$text.toml" . "$@"
  run 0 '{"a":*' - get --tagged "$text.toml" . "$@"
  run 0 - - validate "$text.toml" "$@"
  run 0 'a*' - set "$text.toml" z 1 "$@"
  run 0 'a*' - set "$text.toml" "$place" '"x"' "$@"
  run 0 "${deepest_values[$text]}" - get "$text.toml" "$place" "$@"
  run 0 "${deepest_values[$text]}" - get --toml "$text.toml" "$place" "$@"
  run 5 - 'refused 301 0+' get "$text.toml" "$place.z" "$@"
  run 1 - 'refused 30*' insert "$text.toml" "$place.z" 1 "$@"
  run 0 'a*' - remove "$text.toml" "$place" "$@"
}
# The environment lies on the stack too, so no more of it is left than PATH.
for name in $(compgen -e); do
  if [ "$name" != PATH ]; then unset "$name"; fi
done
ulimit -s 256
for text in arrays tables key; do
  deepest "$text"
  deepest "$text" --profile 2
done
deepest lines --profile 2
run 1 - 'refused 104 5' check lines.toml
run 0 ok - edit good.toml value.json deep.toml deep.txt
run 0 yes - verify good.toml value.json deep.toml deep.txt
run 1 - 'refused 32*' edit good.toml lists.json deep.toml deep.txt
run 1 - 'refused 301 0' edit good.toml long.json deep.toml deep.txt
run 1 - 'refused 301 0+' apply good.toml long.json
run 0 'a = [*' - set good.toml a "$(deep 100 '['; deep 100 ']')"
run 1 - 'refused 306 0+' set good.toml a "$(deep 20000 '[')"
run 5 - 'refused 301 0+' get good.toml "a$(deep 20000 .a)"
run 5 - 'refused 301 0+' get good.toml "a$(deep 20000 '[0]')"
run 1 - 'refused 340 40002+' get good.toml "a$(deep 20000 .a)."
: >blank.toml
# Each of these edits would have an address of its own: memory goes with the place's length alone.
by=(prlimit --as=400000000)
run 1 - 'refused 312 100+' set --parents blank.toml "a$(deep 50000 .a)" 1
run 1 - 'refused 312 100+' insert --parents blank.toml "a$(deep 50000 .a)" 1
by=()

# What is told of them.
{ printf 'a = '; deep 101 '['; } >arrays.over
sed 's/= 1/= 3/' tables.toml >tables.other
{ printf 'a = '; deep 98 '{b = '; printf '{c = 1, c = 2}'; deep 98 '}'; printf '\n'; } >tables.twice
run 1 - 'refused 109 104+' check --explain arrays.over
run 1 - 'refused 201 1+' check --explain tables.twice
run 1 - 'refused 404 0+' certify tables.toml none.json tables.other
run 1 - 'refused 403 0+' certify tables.toml long.json tables.other
run 1 - 'refused 404 0+' certify arrays.toml arrays.json arrays.toml
run 1 - 'refused 406 0+' certify lines.toml none.json tables.toml --profile 2
