# Completion for fast-check-ts and fast-check. The commands, options and values are those that `--help` and `COMMAND --help` list; files stand behind a command.

# Offers words that go on as what is written.
_fast_check_offer() {
  mapfile -t COMPREPLY < <(compgen -W "$1" -- "${COMP_WORDS[COMP_CWORD]}")
}

# The words of `--help`, or of the help of a command, that a pattern of sed finds at the start of its lines.
_fast_check_help() {
  "$1" ${3:+"$3"} --help 2> /dev/null | sed -n "s/^  \(-[a-z], \)\?\($2\) .*/\2/p"
}

# Offers the values of the option before the word; fails where it takes none that are known.
_fast_check_values() {
  case ${COMP_WORDS[COMP_CWORD - 1]} in
    --format) _fast_check_offer "$("$1" check --help 2> /dev/null | sed -n '/^  --format FORMAT/{s/^.*FORMAT *//; s/,\| or / /g; p}')" ;;
    --rules) _fast_check_offer deno ;;
    --allow) _fast_check_offer "$("$1" check --help 2> /dev/null | sed -n '/^codes /,/^$/s/^  //p')" ;;
    --baseline | --exports) mapfile -t COMPREPLY < <(compgen -f -- "${COMP_WORDS[COMP_CWORD]}") ;;
    --name | --version | --max-warnings) ;;
    *) return 1 ;;
  esac
}

_fast_check() {
  local word command=
  COMPREPLY=()
  _fast_check_values "$1" && return
  for word in "${COMP_WORDS[@]:1:COMP_CWORD-1}"; do
    [[ $word == -* ]] || command=${command:-$word}
  done
  if [[ ${COMP_WORDS[COMP_CWORD]} == -* ]]; then
    _fast_check_offer "$(_fast_check_help "$1" '--[a-z-]*' "$command")"
  elif [ -z "$command" ]; then
    _fast_check_offer "$(_fast_check_help "$1" '[a-z][a-z]*')"
  fi
}

complete -o default -F _fast_check fast-check fast-check-ts
