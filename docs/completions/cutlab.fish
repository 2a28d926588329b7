# Completions of cutlab for fish: put this file where fish looks for completions. Made by docs/completions/make.

complete -c cutlab -f
complete -c cutlab -n __fish_use_subcommand -l help -d 'Print help'
complete -c cutlab -n __fish_use_subcommand -l version -d 'Print version'
complete -c cutlab -n __fish_use_subcommand -a run -d 'Read a plan and print its table'
complete -c cutlab -n __fish_use_subcommand -a check -d 'Read a plan and print its cells, its trials and the quorum'
complete -c cutlab -n __fish_use_subcommand -a explain -d 'Read a plan and say in words what is right or wrong with it'
complete -c cutlab -n __fish_use_subcommand -a canonical -d 'Read a plan and print its canonical text'
complete -c cutlab -n __fish_use_subcommand -a status -d 'Print what a checkpoint holds, also while a study writes it'
complete -c cutlab -n __fish_use_subcommand -a serve -d 'Serve clients at a socket, and print how many trials were accepted'
complete -c cutlab -n __fish_use_subcommand -a ask -d 'Read a plan, ask a server for its table and print it'
complete -c cutlab -n __fish_use_subcommand -a migrate -d 'Move a checkpoint of version 1 to a new one of version 2'
complete -c cutlab -n __fish_use_subcommand -a share -d 'Run a share of a plan\'s study, and print how many trials it has'
complete -c cutlab -n __fish_use_subcommand -a join -d 'Join the checkpoints of a plan\'s study in a new one, and print how many slips it has'
complete -c cutlab -n __fish_use_subcommand -a help -d 'Print the help of a command'

complete -c cutlab -n '__fish_seen_subcommand_from run' -F
complete -c cutlab -n '__fish_seen_subcommand_from run' -l piece -x -d 'How many trials are run as one piece, from 1 to 1000000'
complete -c cutlab -n '__fish_seen_subcommand_from run' -l workers -x -d 'How many threads work on the study, from 1 to 64'
complete -c cutlab -n '__fish_seen_subcommand_from run' -l checkpoint -r -F -d 'Keep the study in this file, and go on from what it holds'
complete -c cutlab -n '__fish_seen_subcommand_from run' -l progress -d 'Say on standard error, at most once a second, how many trials are done'
complete -c cutlab -n '__fish_seen_subcommand_from run' -l help -d 'Print help'

complete -c cutlab -n '__fish_seen_subcommand_from check' -F
complete -c cutlab -n '__fish_seen_subcommand_from check' -l help -d 'Print help'

complete -c cutlab -n '__fish_seen_subcommand_from explain' -F
complete -c cutlab -n '__fish_seen_subcommand_from explain' -l help -d 'Print help'

complete -c cutlab -n '__fish_seen_subcommand_from canonical' -F
complete -c cutlab -n '__fish_seen_subcommand_from canonical' -l help -d 'Print help'

complete -c cutlab -n '__fish_seen_subcommand_from status' -F
complete -c cutlab -n '__fish_seen_subcommand_from status' -l help -d 'Print help'

complete -c cutlab -n '__fish_seen_subcommand_from serve' -F
complete -c cutlab -n '__fish_seen_subcommand_from serve' -l workers -x -d 'How many threads work on the studies, from 1 to 64'
complete -c cutlab -n '__fish_seen_subcommand_from serve' -l sessions -x -d 'How many connections are taken, from 1 to 64'
complete -c cutlab -n '__fish_seen_subcommand_from serve' -l studies -x -d 'For how many studies there is room, from 1 to 64'
complete -c cutlab -n '__fish_seen_subcommand_from serve' -l dir -r -a '(__fish_complete_directories)' -d 'Keep each study in a file of this folder, and go on from what it holds'
complete -c cutlab -n '__fish_seen_subcommand_from serve' -l help -d 'Print help'

complete -c cutlab -n '__fish_seen_subcommand_from ask' -F
complete -c cutlab -n '__fish_seen_subcommand_from ask' -l plan -r -F -d 'The file that the plan is read from, in place of standard input'
complete -c cutlab -n '__fish_seen_subcommand_from ask' -l help -d 'Print help'

complete -c cutlab -n '__fish_seen_subcommand_from migrate' -F
complete -c cutlab -n '__fish_seen_subcommand_from migrate' -l plan -r -F -d 'The file that the plan is read from, in place of standard input'
complete -c cutlab -n '__fish_seen_subcommand_from migrate' -l help -d 'Print help'

complete -c cutlab -n '__fish_seen_subcommand_from share' -F
complete -c cutlab -n '__fish_seen_subcommand_from share' -l piece -x -d 'How many trials are run as one piece, from 1 to 1000000'
complete -c cutlab -n '__fish_seen_subcommand_from share' -l workers -x -d 'How many threads work on the study, from 1 to 64'
complete -c cutlab -n '__fish_seen_subcommand_from share' -l progress -d 'Say on standard error, at most once a second, how many trials are done'
complete -c cutlab -n '__fish_seen_subcommand_from share' -l plan -r -F -d 'The file that the plan is read from, in place of standard input'
complete -c cutlab -n '__fish_seen_subcommand_from share' -l help -d 'Print help'

complete -c cutlab -n '__fish_seen_subcommand_from join' -F
complete -c cutlab -n '__fish_seen_subcommand_from join' -l which -d 'Say which of the old files is refused, on standard error'
complete -c cutlab -n '__fish_seen_subcommand_from join' -l plan -r -F -d 'The file that the plan is read from, in place of standard input'
complete -c cutlab -n '__fish_seen_subcommand_from join' -l help -d 'Print help'
