# Completion for fast-check-ts and nagdrez in fish. The commands and options are those that `--help` and `help COMMAND` list.
function __fast_check_entries
    $argv[1] $argv[3..] 2>/dev/null | string match -r -g -- "^  ($argv[2])(?:, --[a-z-]+)?(?: [A-Z|.\[\] ]+)? {2,}(.*)" | while read -L word && read -L text
        printf '%s\t%s\n' $word $text
    end
end
for tool in fast-check-ts nagdrez
    complete -c $tool -n __fish_use_subcommand -f -a "(__fast_check_entries $tool '[a-z]+' --help)"
    complete -c $tool -n 'not __fish_use_subcommand' -a "(string match -q -- '-*' (commandline -ct); and __fast_check_entries $tool '-[a-z-]+' help (commandline -opc)[2])"
    complete -c $tool -n '__fish_seen_subcommand_from check' -l format -x -a 'text json github sarif junit badge'
    complete -c $tool -n '__fish_seen_subcommand_from check' -l rules -x -a deno
    complete -c $tool -n '__fish_seen_subcommand_from check' -l allow -x -a "($tool help check 2>/dev/null | sed -n '/^codes /,/^\$/s/^  //p' | string split ' ')"
    complete -c $tool -n '__fish_seen_subcommand_from explain' -f -a "($tool help check 2>/dev/null | sed -n '/^codes /,/^\$/s/^  //p' | string split ' ')"
end
