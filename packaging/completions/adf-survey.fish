# Completion of adf-survey for fish.

set -l first 'not __fish_seen_subcommand_from blank cat claims deleted rescue; and not __fish_contains_opt list; and not __fish_contains_opt json'
complete -c adf-survey -n $first -a cat -d 'write a sound file of an image'
complete -c adf-survey -n '__fish_seen_subcommand_from cat' -l damaged -d 'write what is left of a damaged file'
complete -c adf-survey -n '__fish_seen_subcommand_from cat' -l deleted -d 'write what is left of a deleted file, by the block of its header'
complete -c adf-survey -n 'not __fish_seen_subcommand_from blank cat claims deleted rescue' -l list -d 'list what is found, sound or damaged'
complete -c adf-survey -n 'not __fish_seen_subcommand_from blank cat claims deleted rescue' -l json -d 'write objects in JSON, one a line'
complete -c adf-survey -n $first -a deleted -d 'list what was deleted'
complete -c adf-survey -n $first -a blank -d 'list which bytes of files are blank'
complete -c adf-survey -n $first -a claims -d 'write what is judged to exist, in numbers'
complete -c adf-survey -n $first -a rescue -d 'write a new volume of all that stands'
complete -c adf-survey -n '__fish_seen_subcommand_from rescue' -l keep-type -d 'keep international letters, as type 2 or 3'
complete -c adf-survey -n '__fish_seen_subcommand_from rescue' -l keep-all -d 'keep international letters and links'
complete -c adf-survey -n '__fish_seen_subcommand_from rescue' -l deleted -d 'add the deleted files that are whole'
complete -c adf-survey -n '__fish_seen_subcommand_from rescue' -l before-format -d 'of what was there before the disk was formatted'
set -l last 'or test (commandline -opc)[-1] ='
complete -c adf-survey -n "$first; and begin; not __fish_contains_opt blocks; $last --blocks; end" -l blocks -x -a '1760 3520' \
    -d 'take the image as if it had so many blocks'
complete -c adf-survey -n "$first; and begin; not __fish_contains_opt map; $last --map; end" -l map -r \
    -d 'take the map of GNU ddrescue of the reading'
complete -c adf-survey -n "$first; and not __fish_contains_opt blank" -l blank -d 'count each blank block as never read'
complete -c adf-survey -n 'test (count (commandline -opc)) -eq 1' -l help -d 'write the help'
complete -c adf-survey -n 'test (count (commandline -opc)) -eq 1' -l version -d 'write the version'
