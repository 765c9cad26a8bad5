# Completions of realmhost for fish. tools/completions makes this file of what --help says.
complete -c realmhost -f
complete -c realmhost -n __fish_use_subcommand -a replay -d 'Takes the turns of the plan in their order, and prints each answer and the map at the end'
complete -c realmhost -n __fish_use_subcommand -a run -d 'Runs each build in a thread of its own, and prints what each was answered and the map at the end'
complete -c realmhost -n '__fish_use_subcommand' -s h -l help -d 'Print help'
complete -c realmhost -n '__fish_use_subcommand' -s V -l version -d 'Print version'
complete -c realmhost -n '__fish_seen_subcommand_from replay' -l erase -x -a '0 1 2 3 4 5 6 7' -d 'Prints the map alone, of the same history without the commands of build B'
complete -c realmhost -n '__fish_seen_subcommand_from replay' -s h -l help -d 'Print help'
complete -c realmhost -n '__fish_seen_subcommand_from run' -s h -l help -d 'Print help'
