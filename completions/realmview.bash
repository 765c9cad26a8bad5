# Completions of realmview for bash. tools/completions makes this file of what --help says.
_realmview() {
    local word=${COMP_WORDS[COMP_CWORD]} before=${COMP_WORDS[COMP_CWORD - 1]} command='' at
    COMPREPLY=()
    # After < or > comes a file.
    [[ $before == [\<\>]* || $word == [\<\>]* ]] && return
    # In --erase=3 the sign is a word of its own.
    if [[ $word == = ]]; then
        word=
    elif [[ $before == = ]]; then
        before=${COMP_WORDS[COMP_CWORD - 2]}
    fi
    for ((at = 1; at < COMP_CWORD; at++)); do
        case ${COMP_WORDS[at]} in history | apply | json | page | why | explore | order | calls | check | help) command=${COMP_WORDS[at]} && break ;; esac
    done
    case $command:$before in
        history:--erase) mapfile -t COMPREPLY < <(compgen -W '0 1 2 3 4 5 6 7' -- "$word") ;;
        apply:--erase) mapfile -t COMPREPLY < <(compgen -W '0 1 2 3 4 5 6 7' -- "$word") ;;
        explore:--most-states) compopt +o default 2> /dev/null ;;
        explore:--sample) compopt +o default 2> /dev/null ;;
        explore:--seed) compopt +o default 2> /dev/null ;;
        explore:--refused) compopt +o default 2> /dev/null ;;
        explore:--waiting) mapfile -t COMPREPLY < <(compgen -W '0 1 2 3 4 5 6 7' -- "$word") ;;
        explore:--leased) compopt +o default 2> /dev/null ;;
        calls:--base) compopt +o default 2> /dev/null ;;
        history:*) [[ $word == -* ]] && mapfile -t COMPREPLY < <(compgen -W '--erase -h --help' -- "$word") ;;
        apply:*) [[ $word == -* ]] && mapfile -t COMPREPLY < <(compgen -W '--erase -h --help' -- "$word") ;;
        json:*) [[ $word == -* ]] && mapfile -t COMPREPLY < <(compgen -W '-h --help' -- "$word") ;;
        page:*) [[ $word == -* ]] && mapfile -t COMPREPLY < <(compgen -W '-h --help' -- "$word") ;;
        why:*) [[ $word == -* ]] && mapfile -t COMPREPLY < <(compgen -W '--all -h --help' -- "$word") ;;
        explore:*) [[ $word == -* ]] && mapfile -t COMPREPLY < <(compgen -W '--most-states --sample --seed --refused --waiting --leased --give-up -h --help' -- "$word") ;;
        order:*) [[ $word == -* ]] && mapfile -t COMPREPLY < <(compgen -W '--one-by-one -h --help' -- "$word") ;;
        calls:*) [[ $word == -* ]] && mapfile -t COMPREPLY < <(compgen -W '--base --c -h --help' -- "$word") ;;
        check:*) [[ $word == -* ]] && mapfile -t COMPREPLY < <(compgen -W '-h --help' -- "$word") ;;
        help:*) mapfile -t COMPREPLY < <(compgen -W 'history apply json page why explore order calls check' -- "$word") ;;
        :*) mapfile -t COMPREPLY < <(compgen -W 'history apply json page why explore order calls check help -h --help -V --version' -- "$word") ;;
    esac
}
complete -o default -F _realmview realmview
