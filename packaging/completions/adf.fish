# Completion of adf for fish.

complete -c adf -f
complete -c adf -n __fish_use_subcommand -a check -d 'tell whether an image is sound'
complete -c adf -n __fish_use_subcommand -a list -d 'list the entries of an image'
complete -c adf -n __fish_use_subcommand -a cat -d 'write a file of an image'
complete -c adf -n __fish_use_subcommand -a convert -d 'lay the tree of an image anew'
complete -c adf -n __fish_use_subcommand -a build -d 'make an image of a manifest'
complete -c adf -n '__fish_seen_subcommand_from convert' -a 'ofs ffs'
complete -c adf -n '__fish_seen_subcommand_from build' -l list -d 'write each word that is not 0'
