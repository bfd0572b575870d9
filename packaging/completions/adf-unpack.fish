# Completion of adf-unpack for fish.

complete -c adf-unpack -l uaem -d 'keep protection, date and comment'
complete -c adf-unpack -l escape -d 'names in the escape form'
complete -c adf-unpack -l blocks -x -d 'read as if it had so many blocks'
complete -c adf-unpack -l strict -d 'refuse a damaged image'
complete -c adf-unpack -l damaged -d 'write what is left of damaged files'
complete -c adf-unpack -l follow -d 'copies of files in place of links'
complete -c adf-unpack -l boot -r -d 'write the boot blocks into a new file'
complete -c adf-unpack -s h -l help -d 'write the usage'
complete -c adf-unpack -l version -d 'write the version'
