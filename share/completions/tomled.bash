# What bash offers behind `tomled`. tests/words.py compares the words with those of --help.

# _tomled_given: how many words that are no options stand behind the command, before the one at the cursor
_tomled_given() {
  local i given=0
  for ((i = 2; i < COMP_CWORD; i++)); do
    case ${COMP_WORDS[i]} in
      --certificate | --default | --layout | --profile)
        # Readline makes three words of --option=value.
        i=$((i + 1))
        if [ "${COMP_WORDS[i]}" = = ]; then i=$((i + 1)); fi
        ;;
      -?*) ;;
      *) given=$((given + 1)) ;;
    esac
  done
  printf '%s' "$given"
}

_tomled() {
  local commands='get validate check show set insert rename remove apply edit verify certify help'
  local edits='-i --in-place --certificate --layout' values='--string --parents'
  local current=${COMP_WORDS[COMP_CWORD]} before=${COMP_WORDS[COMP_CWORD - 1]} options='' paths=0
  if [ "$current" = = ]; then
    current=''
  elif [ "$before" = = ]; then
    before=${COMP_WORDS[COMP_CWORD - 2]}
  fi
  COMPREPLY=()
  if [ "$COMP_CWORD" -eq 1 ]; then
    mapfile -t COMPREPLY < <(compgen -W "$commands -h --help -V --version" -- "$current")
    return
  fi

  case ${COMP_WORDS[1]} in
    get) options='--json --tagged --toml --type --default' paths=1 ;;
    set | insert) options="$values $edits" paths=1 ;;
    rename | remove) options=$edits paths=1 ;;
    apply) options=$edits paths=2 ;;
    validate) paths=$COMP_CWORD ;;
    check) options='--explain' paths=1 ;;
    show) options='--list --explain' paths=1 ;;
    edit | verify) options='--explain' paths=4 ;;
    certify) paths=4 ;;
    help)
      if [ "$COMP_CWORD" -eq 2 ]; then mapfile -t COMPREPLY < <(compgen -W "$commands" -- "$current"); fi
      return
      ;;
    *) return ;;
  esac

  case $before:$current in
    --profile:*) mapfile -t COMPREPLY < <(compgen -W '1 2' -- "$current") ;;
    --layout:*) mapfile -t COMPREPLY < <(compgen -W 'plain follow' -- "$current") ;;
    --certificate:*) compopt -o default ;;
    --default:*) ;;
    *:-*) mapfile -t COMPREPLY < <(compgen -W "$options --profile -h --help" -- "$current") ;;
    *) if [ "$(_tomled_given)" -lt "$paths" ]; then compopt -o default; fi ;;
  esac
}

complete -F _tomled tomled
