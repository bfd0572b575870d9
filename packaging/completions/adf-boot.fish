# Completion of adf-boot for fish.

complete -c adf-boot -n __fish_use_subcommand -a install -d 'write an image that starts AmigaDOS'
complete -c adf-boot -n __fish_use_subcommand -a copy -d 'write an image with the boot blocks of another file'
complete -c adf-boot -n __fish_use_subcommand -a clear -d 'write an image without boot code'
complete -c adf-boot -n 'not __fish_seen_subcommand_from install copy clear' -l json -d 'write an object in JSON'
complete -c adf-boot -n '__fish_is_first_token' -s i -d 'replace the image'
complete -c adf-boot -n '__fish_is_first_token' -s o -r -d 'put the new image into this file'
complete -c adf-boot -n '__fish_is_first_token' -l help -d 'write the help'
complete -c adf-boot -n '__fish_is_first_token' -l version -d 'write the version'
