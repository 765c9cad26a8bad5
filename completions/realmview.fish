# Completions of realmview for fish. tools/completions makes this file of what --help says.
complete -c realmview -f
complete -c realmview -n __fish_use_subcommand -a history -d 'Print the history of a plan'\''s run, one event a line'
complete -c realmview -n __fish_use_subcommand -a apply -d 'Apply a history event by event, and print the map that it leads to'
complete -c realmview -n __fish_use_subcommand -a json -d 'Print a plan'\''s run as one JSON document'
complete -c realmview -n __fish_use_subcommand -a page -d 'Print a web page that shows a plan'\''s run, turn by turn'
complete -c realmview -n __fish_use_subcommand -a why -d 'Explain why steps of a plan are refused'
complete -c realmview -n __fish_use_subcommand -a explore -d 'Explore every schedule of a plan, and print what differs'
complete -c realmview -n __fish_use_subcommand -a order -d 'Print a plan with a schedule that gives each build all the turns that it needs, in rotation'
complete -c realmview -n __fish_use_subcommand -a calls -d 'Print a plan'\''s run as calls on an RMM, a trace for rmitrace'
complete -c realmview -n __fish_use_subcommand -a check -d 'Check a plan, and print each mistake with its line'
complete -c realmview -n __fish_use_subcommand -a help -d 'Print this message or the help of the given subcommand(s)'
complete -c realmview -n '__fish_use_subcommand' -s h -l help -d 'Print help'
complete -c realmview -n '__fish_use_subcommand' -s V -l version -d 'Print version'
complete -c realmview -n '__fish_seen_subcommand_from history' -l erase -x -a '0 1 2 3 4 5 6 7' -d 'Leave out the events of build B'
complete -c realmview -n '__fish_seen_subcommand_from history' -s h -l help -d 'Print help'
complete -c realmview -n '__fish_seen_subcommand_from history' -F
complete -c realmview -n '__fish_seen_subcommand_from apply' -l erase -x -a '0 1 2 3 4 5 6 7' -d 'Leave out the events of build B'
complete -c realmview -n '__fish_seen_subcommand_from apply' -s h -l help -d 'Print help'
complete -c realmview -n '__fish_seen_subcommand_from apply' -F
complete -c realmview -n '__fish_seen_subcommand_from json' -s h -l help -d 'Print help'
complete -c realmview -n '__fish_seen_subcommand_from json' -F
complete -c realmview -n '__fish_seen_subcommand_from page' -s h -l help -d 'Print help'
complete -c realmview -n '__fish_seen_subcommand_from page' -F
complete -c realmview -n '__fish_seen_subcommand_from why' -l all -d 'List the checks that passed, too'
complete -c realmview -n '__fish_seen_subcommand_from why' -s h -l help -d 'Print help'
complete -c realmview -n '__fish_seen_subcommand_from why' -F
complete -c realmview -n '__fish_seen_subcommand_from explore' -l most-states -x -d 'Explore all schedules if they have at most N states [default: 1000000]'
complete -c realmview -n '__fish_seen_subcommand_from explore' -l sample -x -d 'Draw K schedules at random, K up to 1000000 [default: 1000, if a seed is given]'
complete -c realmview -n '__fish_seen_subcommand_from explore' -l seed -x -d 'Draw schedules by the random numbers of the seed S [default: 0]'
complete -c realmview -n '__fish_seen_subcommand_from explore' -l refused -x -d 'Print the plan with the shortest schedule that ends with a refusal of step S of build B'
complete -c realmview -n '__fish_seen_subcommand_from explore' -l waiting -x -a '0 1 2 3 4 5 6 7' -d 'Print the plan with the shortest schedule after which build B waits while another holds nothing'
complete -c realmview -n '__fish_seen_subcommand_from explore' -l leased -x -d 'Print the plan with the shortest schedule after which N granules are leased, N from 1 to 4096'
complete -c realmview -n '__fish_seen_subcommand_from explore' -l give-up -d 'Let a build whose step is refused leave out its other steps, and abort'
complete -c realmview -n '__fish_seen_subcommand_from explore' -s h -l help -d 'Print help'
complete -c realmview -n '__fish_seen_subcommand_from explore' -F
complete -c realmview -n '__fish_seen_subcommand_from order' -l one-by-one -d 'Give a build all its turns before the next build has one'
complete -c realmview -n '__fish_seen_subcommand_from order' -s h -l help -d 'Print help'
complete -c realmview -n '__fish_seen_subcommand_from order' -F
complete -c realmview -n '__fish_seen_subcommand_from calls' -l base -x -d 'Place granule 0 at this address, a multiple of 0x1000 [default: 0x80000000]'
complete -c realmview -n '__fish_seen_subcommand_from calls' -l c -d 'Print the rows of a table of C, for examples/c/table.c'
complete -c realmview -n '__fish_seen_subcommand_from calls' -s h -l help -d 'Print help'
complete -c realmview -n '__fish_seen_subcommand_from calls' -F
complete -c realmview -n '__fish_seen_subcommand_from check' -s h -l help -d 'Print help'
complete -c realmview -n '__fish_seen_subcommand_from check' -F
complete -c realmview -n '__fish_seen_subcommand_from help' -a 'history apply json page why explore order calls check'
