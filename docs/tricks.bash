# Completion of the words of tricks, for bash.
_tricks() {
    local word=${COMP_WORDS[COMP_CWORD]} before=${COMP_WORDS[COMP_CWORD - 1]} command=${COMP_WORDS[1]}
    COMPREPLY=()
    if ((COMP_CWORD == 1)); then
        mapfile -t COMPREPLY < <(compgen -W 'serial run replay check list gen' -- "$word")
    elif [[ $word == -* && $command == run ]]; then
        mapfile -t COMPREPLY < <(compgen -W '--from --port' -- "$word")
    elif [[ $word == -* && $command =~ ^(serial|replay)$ ]]; then
        mapfile -t COMPREPLY < <(compgen -W '--from' -- "$word")
    elif [[ $command != gen ]]; then
        local among='*'
        case $before in
            --from) among='*.chk' ;;
            serial | run | replay | check | list) among='*S_define' ;;
            *S_define) among='*.py' ;;
        esac
        mapfile -t COMPREPLY < <(compgen -f -X "!$among" -- "$word"; compgen -d -- "$word")
    fi
}
complete -o filenames -F _tricks tricks
