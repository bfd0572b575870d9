# Completion of adf-map for fish.

complete -c adf-map -l partition -x -d 'draw the volume of this partition'
complete -c adf-map -l blocks -x -d 'read as if it had so many blocks'
complete -c adf-map -s h -l help -d 'write the usage'
complete -c adf-map -l version -d 'write the version'
