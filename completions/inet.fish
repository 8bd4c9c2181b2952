# Made by tools/command_line.py from --help: completions for fish.
complete -c inet -f
complete -c inet -n 'not __fish_seen_subcommand_from check derive run help' -a check -d 'Says whether a program is accepted'
complete -c inet -n 'not __fish_seen_subcommand_from check derive run help' -a derive -d 'Prints the steps that build a program'\''s rules and its net'
complete -c inet -n 'not __fish_seen_subcommand_from check derive run help' -a run -d 'Reduces a program'\''s net, and prints it'
complete -c inet -n 'not __fish_seen_subcommand_from check derive run help' -a help -d 'Print help'
complete -c inet -n 'not __fish_seen_subcommand_from check derive run help' -s h -l help -d 'Print help'
complete -c inet -n 'not __fish_seen_subcommand_from check derive run help' -s V -l version -d 'Print version'
complete -c inet -n '__fish_seen_subcommand_from check' -f -a "(__fish_complete_suffix .inet)"
complete -c inet -n '__fish_seen_subcommand_from check' -l large -d 'Allows larger programs, with texts of up to 64 MiB and nets of up to 1048576 agents'
complete -c inet -n '__fish_seen_subcommand_from check' -s h -l help -d 'Print help'
complete -c inet -n '__fish_seen_subcommand_from derive' -f -a "(__fish_complete_suffix .inet)"
complete -c inet -n '__fish_seen_subcommand_from derive' -l large -d 'Allows larger programs, with texts of up to 64 MiB and nets of up to 1048576 agents'
complete -c inet -n '__fish_seen_subcommand_from derive' -s h -l help -d 'Print help'
complete -c inet -n '__fish_seen_subcommand_from run' -f -a "(__fish_complete_suffix .inet)"
complete -c inet -n '__fish_seen_subcommand_from run' -l workers -x -d 'The workers that share the interactions, 1 to 64'
complete -c inet -n '__fish_seen_subcommand_from run' -l limit -x -d 'The most interactions, 0 to 1000000000000'
complete -c inet -n '__fish_seen_subcommand_from run' -l cells -x -d 'The cells for agents of each size, 16 to 1048576'
complete -c inet -n '__fish_seen_subcommand_from run' -l small-cells -x -d 'The cells for agents of arity 0 to 2, 16 to 16777216'
complete -c inet -n '__fish_seen_subcommand_from run' -l large-cells -x -d 'The cells for agents of arity 3 to 8, 16 to 8388608'
complete -c inet -n '__fish_seen_subcommand_from run' -l wide-cells -x -d 'The cells for agents of arity 9 to 16, 16 to 8388608'
complete -c inet -n '__fish_seen_subcommand_from run' -l no-net -d 'Prints no net, only how many interactions there were and why it stopped'
complete -c inet -n '__fish_seen_subcommand_from run' -l stats -d 'Prints figures of the run on standard error'
complete -c inet -n '__fish_seen_subcommand_from run' -l large -d 'Allows larger programs, with texts of up to 64 MiB and nets of up to 1048576 agents'
complete -c inet -n '__fish_seen_subcommand_from run' -s h -l help -d 'Print help'
complete -c inet -n '__fish_seen_subcommand_from help' -a 'check derive run'
complete -c inet_export -f -a "(__fish_complete_suffix .inet)"
complete -c inet_export -l large -d 'Allows larger programs, with texts of up to 64 MiB and nets of up to 1048576 agents'
complete -c inet_export -s h -l help -d 'Print help'
complete -c inet_export -s V -l version -d 'Print version'
complete -c inet_c -f -a "(__fish_complete_suffix .inet)"
complete -c inet_c -n 'not string match -qr "\\.inet " -- (commandline -cp)' -l large -d 'Allows larger programs, with texts of up to 64 MiB and nets of up to 1048576 agents'
complete -c inet_c -n 'not string match -qr "\\.inet " -- (commandline -cp)' -l order -x -a 'newest queue' -d 'Which pair is taken first: the newest, or as in a queue, which `inet run` does'
complete -c inet_c -n 'not string match -qr "\\.inet " -- (commandline -cp)' -s h -l help -d 'Print help'
complete -c inet_c -n 'string match -qr "\\.inet " -- (commandline -cp)' -l limit -x -d 'The most interactions, 0 to 1000000000000'
complete -c inet_c -n 'string match -qr "\\.inet " -- (commandline -cp)' -l workers -x -d 'The workers that share the interactions, 1 to 64'
