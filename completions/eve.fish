# Completion of eve for fish. tools/install puts it where fish looks for it.
set -l commands audit explain run show help
complete -c eve -n "not __fish_seen_subcommand_from $commands" -f
complete -c eve -n "not __fish_seen_subcommand_from $commands" -a audit -d 'print the verdict on each trace'
complete -c eve -n "not __fish_seen_subcommand_from $commands" -a explain -d 'print the verdict, and why it is so'
complete -c eve -n "not __fish_seen_subcommand_from $commands" -a run -d 'run a workload, and print its trace'
complete -c eve -n "not __fish_seen_subcommand_from $commands" -a show -d 'print the frames of a trace'
complete -c eve -n "not __fish_seen_subcommand_from $commands" -a help -d 'print help'
complete -c eve -n "not __fish_seen_subcommand_from $commands" -s V -l version -d 'print version'
complete -c eve -s h -l help -d 'print help'
complete -c eve -n '__fish_seen_subcommand_from audit explain' -l workers -x -a '(seq 16)' -d 'how many threads judge'
complete -c eve -n '__fish_seen_subcommand_from audit explain show' -l json -d 'print JSON, an object a line'
complete -c eve -n '__fish_seen_subcommand_from run' -l mixer -x -a 'first whole' -d 'how to cut batches'
complete -c eve -n '__fish_seen_subcommand_from run' -l format -x -a '1 2' -d 'the format of the trace'
complete -c eve -n '__fish_seen_subcommand_from show' -l long -d 'print what each frame says, too'
complete -c eve -n '__fish_seen_subcommand_from help' -f -a 'audit explain run show'
