#compdef fast-check-ts nagdrez
# Completion for fast-check-ts and nagdrez in zsh. The commands and options are those that `--help` and `help COMMAND` list.

# The words of a help text that a pattern finds at the start of its lines, each with what it does.
_fast_check_entries() {
  local tool=$1 pattern=$2
  shift 2
  $tool "$@" 2> /dev/null | sed -nE "s/^  ($pattern)(, --[a-z-]+)?( [A-Z|.\[][A-Za-z|. \[]*\]*)?  +(.*)/\1:\4/p"
}

_fast_check_codes() {
  $1 help check 2> /dev/null | sed -n '/^codes /,/^$/s/^  //p'
}

_fast_check_ts() {
  local tool=$words[1] command=${${words[2,CURRENT-1]:#-*}[1]}
  local -a entries
  case $words[CURRENT-1] in
    --format) compadd text json github sarif junit badge; return ;;
    --rules) compadd deno; return ;;
    --allow) compadd $(_fast_check_codes $tool); return ;;
    --baseline | --exports) _files; return ;;
    --name | --version | --max-warnings) return ;;
  esac
  if [[ $words[CURRENT] == -* ]]; then
    entries=("${(@f)$(_fast_check_entries $tool '-[a-z-]+' ${command:+help} ${command:---help})}")
    _describe option entries
  elif [[ -z $command ]]; then
    entries=("${(@f)$(_fast_check_entries $tool '[a-z]+' --help)}")
    _describe command entries
  elif [[ $command == explain ]]; then
    compadd $(_fast_check_codes $tool)
  else
    _files
  fi
}

_fast_check_ts "$@"
