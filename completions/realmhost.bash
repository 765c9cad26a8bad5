# Completions of realmhost for bash. tools/completions makes this file of what --help says.
_realmhost() {
    local word=${COMP_WORDS[COMP_CWORD]} before=${COMP_WORDS[COMP_CWORD - 1]} command='' at
    COMPREPLY=()
    # After < or > comes a file.
    [[ $before == [\<\>]* || $word == [\<\>]* ]] && return
    # In --erase=3 the sign is a word of its own.
    if [[ $word == = ]]; then
        word=
    elif [[ $before == = ]]; then
        before=${COMP_WORDS[COMP_CWORD - 2]}
    fi
    for ((at = 1; at < COMP_CWORD; at++)); do
        case ${COMP_WORDS[at]} in replay | run) command=${COMP_WORDS[at]} && break ;; esac
    done
    case $command:$before in
        replay:--erase) mapfile -t COMPREPLY < <(compgen -W '0 1 2 3 4 5 6 7' -- "$word") ;;
        replay:*) mapfile -t COMPREPLY < <(compgen -W '--erase -h --help' -- "$word") ;;
        run:*) mapfile -t COMPREPLY < <(compgen -W '-h --help' -- "$word") ;;
        :*) mapfile -t COMPREPLY < <(compgen -W 'replay run -h --help -V --version' -- "$word") ;;
    esac
}
complete -o default -F _realmhost realmhost
