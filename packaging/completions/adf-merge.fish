# Completion of adf-merge for fish.

complete -c adf-merge -l map -r -F -d 'the map of ddrescue of the next reading'
complete -c adf-merge -n '__fish_is_first_token' -l help -d 'write the help'
complete -c adf-merge -n '__fish_is_first_token' -l version -d 'write the version'
