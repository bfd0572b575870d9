# Completion of adf, the programs whose names begin with adf-, fsck.affs and mkfs.affs for bash.

_adf() {
    local word=${COMP_WORDS[COMP_CWORD]} first=${COMP_WORDS[1]}
    if [[ ${COMP_WORDS[COMP_CWORD - 1]} == [\<\>] ]]; then
        compopt -o default
    elif ((COMP_CWORD == 1)); then
        COMPREPLY=($(compgen -W "check list cat convert build" -- "$word"))
    elif ((COMP_CWORD == 2)) && [[ $first == convert ]]; then
        COMPREPLY=($(compgen -W "ofs ffs" -- "$word"))
    elif ((COMP_CWORD == 2)) && [[ $first == build ]]; then
        COMPREPLY=($(compgen -W "--list" -- "$word"))
    fi
}

_adf_survey() {
    local at=1 words="blank cat claims deleted rescue --list --json --blocks --map --blank " last=""
    while ((COMP_CWORD > at)) && [[ ${COMP_WORDS[at]} == @(--blocks|--map|--blank) ]]; do
        last=${COMP_WORDS[at]}
        [[ $last != --blank ]] && ((at += 1))
        ((at += 1))
        words=${words/"$last "/}
    done
    ((at == 1)) && words+="--help --version"
    if [[ ${COMP_WORDS[COMP_CWORD - 1]} == [\<\>] ]]; then
        compopt -o default
    elif ((COMP_CWORD == at)); then
        COMPREPLY=($(compgen -W "$words" -- "$2"))
        compopt -o default
    elif ((COMP_CWORD < at)) && [[ $last == --map ]]; then
        compopt -o default
    elif ((COMP_CWORD < at)); then
        COMPREPLY=($(compgen -W "1760 3520" -- "$2"))
    elif [[ $2 == -* && ${COMP_WORDS[at]} == cat ]]; then
        COMPREPLY=($(compgen -W "--damaged --deleted" -- "$2"))
    elif [[ $2 == -* && ${COMP_WORDS[at]} == rescue ]]; then
        COMPREPLY=($(compgen -W "--before-format --deleted --keep-all --keep-type" -- "$2"))
    elif [[ ${COMP_WORDS[at]} != cat ]] || ((COMP_CWORD > at + 1)); then
        compopt -o default
    fi
}

_adf_disk() {
    if [[ ${COMP_WORDS[COMP_CWORD - 1]} == [\<\>] ]]; then
        compopt -o default
    elif ((COMP_CWORD == 1)); then
        COMPREPLY=($(compgen -W "list check survey volume build --help --version" -- "$2"))
    elif [[ $2 == -* && ${COMP_WORDS[1]} == survey ]]; then
        COMPREPLY=($(compgen -W "--search --plan --json" -- "$2"))
    elif [[ $2 == -* && ${COMP_WORDS[1]} == @(list|check) ]]; then
        COMPREPLY=($(compgen -W "--json" -- "$2"))
    elif [[ $2 == -* && $COMP_CWORD:${COMP_WORDS[1]} == 2:build ]]; then
        COMPREPLY=($(compgen -W "-o" -- "$2"))
    elif [[ ${COMP_WORDS[1]} != volume ]] || ((COMP_CWORD > 2)); then
        compopt -o default
    fi
}

_adf_boot() {
    if ((COMP_CWORD == 1)); then
        COMPREPLY=($(compgen -W "install copy clear -i -o --json --help --version" -- "$2"))
    elif [[ $COMP_CWORD:${COMP_WORDS[1]} == @(2:-i|3:-o) ]]; then
        COMPREPLY=($(compgen -W "install copy clear" -- "$2"))
    fi
}

_adf_files() {
    case $1:${COMP_WORDS[1]}:$2 in
        adf-catalogue:find:-*)
            COMPREPLY=($(compgen -W "--sum --text --deleted --json -h --help --version" -- "$2"))
            return
            ;;
        adf-catalogue:export:-*)
            COMPREPLY=($(compgen -W "--sha256 --premis --dfxml --report --bagit -h --help --version" -- "$2"))
            return
            ;;
        adf-catalogue:scan:-*)
            COMPREPLY=($(compgen -W "--index-text --sha256-only --fresh --names -h --help --version" -- "$2"))
            return
            ;;
        adf-catalogue:merge:-*)
            COMPREPLY=($(compgen -W "--tsv --no-pages --dat --escape -h --help --version" -- "$2"))
            return
            ;;
    esac
    case $1:$2 in
        adf-mount:-*) COMPREPLY=($(compgen -W "--partition --damaged --blocks --strict -f -o -h --help -V --version" -- "$2")) ;;
        adf-edit:-*) COMPREPLY=($(compgen -W "-o -f --help --version" -- "$2")) ;;
        adf-edit:*)
            if [[ $3 == + ]] || ((COMP_CWORD == 2)); then
                COMPREPLY=($(compgen -W "put replace remove move dir note protect date label letters boot" -- "$2"))
            fi
            ;;
        adf-merge:-*) COMPREPLY=($(compgen -W "--map --help --version" -- "$2")) ;;
        adf-shelf:-*) COMPREPLY=($(compgen -W "--null --any-type --json --help --version" -- "$2")) ;;
        adf-catalogue:-*) COMPREPLY=($(compgen -W "--tsv --rescue --fresh --escape --index-text --dat --sha256-only -h --help --version" -- "$2")) ;;
        adf-pack:-*)
            COMPREPLY=($(compgen -W "--image --edits --size --international --bootable --boot --label --date --altered --created --no-uaem --escape -h --help --version" -- "$2"))
            ;;
        adf-unpack:-*) COMPREPLY=($(compgen -W "--blocks --strict --damaged --follow --boot --uaem --escape -h --help --version" -- "$2")) ;;
        adf-map:-*) COMPREPLY=($(compgen -W "--partition --blocks -h --help --version" -- "$2")) ;;
        adf-recipe:-*) COMPREPLY=($(compgen -W "--blocks --strict -h --help --version" -- "$2")) ;;
        fsck.affs:-*) COMPREPLY=($(compgen -W "-a -f -n -p -v -y --help --version" -- "$2")) ;;
        mkfs.affs:-*) COMPREPLY=($(compgen -W "-L -n -t -v -h --help --version" -- "$2")) ;;
        mkfs.affs:*) [[ $3 != -t ]] || COMPREPLY=($(compgen -W "ofs ffs ofs-international ffs-international" -- "$2")) ;;
        *:-*) COMPREPLY=($(compgen -W "-h --help --version" -- "$2")) ;;
        adf-pack:*) ((COMP_CWORD > 1)) || COMPREPLY=($(compgen -W "ofs ffs ofs-international ffs-international" -- "$2")) ;;
    esac
}

complete -F _adf adf
complete -F _adf_survey adf-survey
complete -F _adf_disk adf-disk
complete -o default -F _adf_boot adf-boot
complete -o default -F _adf_files adf-catalogue adf-edit adf-map adf-merge adf-mount adf-pack adf-recipe adf-shelf adf-unpack fsck.affs mkfs.affs
