# Completion of adf-edit for fish.

complete -c adf-edit -s o -r -d 'put the new disk into this file'
complete -c adf-edit -s f -r -d 'take the edits of this file'
complete -c adf-edit -n '__fish_is_first_token' -l help -d 'write the help'
complete -c adf-edit -n '__fish_is_first_token' -l version -d 'write the version'
complete -c adf-edit -n 'not __fish_is_first_token' -a 'put replace remove move dir note protect date label letters boot' -d 'edit'
