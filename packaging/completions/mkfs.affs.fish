# Completion of mkfs.affs for fish.

complete -c mkfs.affs -s L -x -d 'name of the volume'
complete -c mkfs.affs -s t -x -a 'ofs ffs ofs-international ffs-international' -d 'kind of the volume'
complete -c mkfs.affs -s n -d 'write nothing'
complete -c mkfs.affs -s v -d 'say what was made'
complete -c mkfs.affs -s h -l help -d 'write the usage'
complete -c mkfs.affs -l version -d 'write the version'
