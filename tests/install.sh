#!/usr/bin/env bash
# What `./install` puts where, in a copy of its folder in which nothing is built: `build` and `rt` are stand-ins there.
# The last line is `N passed, M failed`.
#   tests/install.sh crates/tomled/out/tomled
set -u
program=$(realpath "$1")
top=$(dirname "$(dirname "$(realpath "$0")")")
folder=$(mktemp -d)
trap 'rm -rf "$folder"' EXIT
cd "$folder"
passed=0
failed=0

# held NAME WORDS..: the words end with status 0
held() {
  if "${@:2}"; then
    passed=$((passed + 1))
  else
    printf 'FAILED %s\n' "$1"
    failed=$((failed + 1))
  fi
}

# stand_in FILE LINE: a program that does what the line says
stand_in() {
  printf '#!/bin/sh\n%s\n' "$2" >"$1"
  chmod 755 "$1"
}

# install_is STATUS WORDS..: ./install ends with the status
install_is() {
  PATH="$folder/bin:$PATH" HOME="$folder/home" ./top/install "${@:2}" >out 2>err
  [ "$?" -eq "$1" ]
}

# is_file MODE FILE SOURCE: the file has the mode and the bytes of the source
is_file() {
  [ "$(stat -c %a "$2")" = "$1" ] && cmp -s "$2" "$3"
}

# is_whole PREFIX: all five files stand there, and nothing else
is_whole() {
  is_file 755 "$1/bin/tomled" "$program" &&
    is_file 644 "$1/share/man/man1/tomled.1" "$top/share/tomled.1" &&
    is_file 644 "$1/share/bash-completion/completions/tomled" "$top/share/completions/tomled.bash" &&
    is_file 644 "$1/share/zsh/site-functions/_tomled" "$top/share/completions/_tomled" &&
    is_file 644 "$1/share/fish/vendor_completions.d/tomled.fish" "$top/share/completions/tomled.fish" &&
    [ "$(find "$1" -type f | wc -l)" -eq 5 ]
}

# is_bare PREFIX: no file stands there
is_bare() {
  [ -z "$(find "$1" -type f 2>/dev/null)" ]
}

# tells FILE TEXT: the text stands in the file
tells() {
  grep -qF -- "$2" "$1"
}

# runs PROGRAM: what was installed answers
runs() {
  printf 'a = 1\n' >good.toml
  [ "$("$1" get good.toml a)" = 1 ]
}

mkdir -p top/crates/tomled/out bin home
cp "$top/install" top/
cp -r "$top/share" top/
cp "$program" top/crates/tomled/out/tomled
stand_in top/build 'exit 0'
stand_in bin/rt 'exit 0'

held 'into a prefix' install_is 0 prefix
held 'what stands in it' is_whole prefix
held 'the program there runs' runs prefix/bin/tomled
held 'it says where the program is not found' tells out 'prefix/bin is not on the path'
held 'into the home folder' install_is 0
held 'what stands there' is_whole home/.local

printf 'old\n' >prefix/bin/tomled
held 'over an older one' install_is 0 prefix
held 'which is replaced' is_whole prefix

held 'two prefixes' install_is 2 one two
held 'an option' install_is 2 --help
held 'an empty prefix' install_is 2 ''

stand_in top/build 'exit 1'
held 'where the build fails' install_is 1 unbuilt
held 'nothing is installed' is_bare unbuilt
held 'and it is said' tells err 'the program was not built'
stand_in top/build 'exit 0'

printf 'x\n' >file
held 'a prefix that is a file' install_is 1 file
held 'whose file is told' tells err "can't write"
mkdir -p taken/share/man/man1/tomled.1
held 'a folder in the place of a file' install_is 1 taken
held 'which is told' tells err 'it is a folder'
held 'and nothing is installed' is_bare taken

held 'completions for bash can be read' bash -n "$top/share/completions/tomled.bash"

printf '%s passed, %s failed\n' "$passed" "$failed"
[ "$failed" -eq 0 ]
