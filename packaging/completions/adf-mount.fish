# Completion of adf-mount for fish.

complete -c adf-mount -l partition -x -d 'mount this partition of a hard disk'
complete -c adf-mount -l damaged -x -d 'show what is left of damaged files in this folder'
complete -c adf-mount -l blocks -x -d 'read as if it had so many blocks'
complete -c adf-mount -l strict -d 'refuse a damaged image'
complete -c adf-mount -s f -d 'stay in the foreground'
complete -c adf-mount -s o -x -d 'options of mount and libfuse'
complete -c adf-mount -s h -l help -d 'write the usage'
complete -c adf-mount -s V -l version -d 'write the versions'
