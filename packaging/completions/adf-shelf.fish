# Completion of adf-shelf for fish.

complete -c adf-shelf -l null -d 'names of standard input end in zero bytes'
complete -c adf-shelf -l any-type -d 'accept volumes of types 2 to 5 too'
complete -c adf-shelf -l json -d 'write objects in JSON, one a line'
complete -c adf-shelf -n '__fish_is_first_token' -l help -d 'write the help'
complete -c adf-shelf -n '__fish_is_first_token' -l version -d 'write the version'
