# Completion of adf-recipe for fish.

complete -c adf-recipe -l blocks -x -d 'read as if it had so many blocks'
complete -c adf-recipe -l strict -d 'refuse a damaged image'
complete -c adf-recipe -s h -l help -d 'write the usage'
complete -c adf-recipe -l version -d 'write the version'
