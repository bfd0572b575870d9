# Completion of adf-disk for fish.

complete -c adf-disk -n __fish_use_subcommand -a list -d 'list the partitions of a hard disk'
complete -c adf-disk -n __fish_use_subcommand -a check -d 'tell whether its volumes are sound'
complete -c adf-disk -n __fish_use_subcommand -a survey -d 'list the partitions, or look for volumes'
complete -c adf-disk -n __fish_use_subcommand -a volume -d 'write the volume of a partition'
complete -c adf-disk -n __fish_use_subcommand -a build -d 'make a hard disk of a plan'
complete -c adf-disk -n '__fish_seen_subcommand_from list check survey' -l json -d 'write objects in JSON, one a line'
complete -c adf-disk -n '__fish_seen_subcommand_from survey' -l search -d 'look for volumes without a table'
complete -c adf-disk -n '__fish_seen_subcommand_from survey' -l plan -d 'write a plan of the volumes that are found'
complete -c adf-disk -n '__fish_seen_subcommand_from build' -s o -r -d 'put the disk in this file'
complete -c adf-disk -n '__fish_is_first_token' -l help -d 'write the help'
complete -c adf-disk -n '__fish_is_first_token' -l version -d 'write the version'
