# Completion of fsck.affs for fish.

for option in a f n p y
    complete -c fsck.affs -s $option -d 'nothing is repaired'
end
complete -c fsck.affs -s v -d 'write the verdict'
complete -c fsck.affs -l help -d 'write the usage'
complete -c fsck.affs -l version -d 'write the version'
