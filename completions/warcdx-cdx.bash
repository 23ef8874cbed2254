# Completion of the words of warcdx-cdx for bash.

_warcdx_cdx() {
    local word=${COMP_WORDS[COMP_CWORD]} command='' before offered
    COMPREPLY=()
    case ${COMP_WORDS[COMP_CWORD - 1]} in
        -o | --output | --program) compopt -o default && return ;;
    esac
    if [[ $word == -* ]]; then
        _warcdx_cdx_offer -h -o -V --help --output --program --version
        return
    fi
    # The first word that is neither an option nor its value.
    for before in "${COMP_WORDS[@]:1:COMP_CWORD-1}"; do
        case $before in
            -*) offered=$before ;;
            *)
                case $offered in
                    -o | --output | --program) offered='' ;;
                    *) command=${command:-$before} ;;
                esac
                ;;
        esac
    done
    case $command in
        '') _warcdx_cdx_offer to from ;;
        to) _warcdx_cdx_files '*.cdxj' ;;
        from) _warcdx_cdx_files '*.cdx' ;;
    esac
}

# Those that begin with the word. `compgen -W` would expand it, and so run what it substitutes.
_warcdx_cdx_offer() { # OFFERED..
    local offered
    for offered; do
        if [[ $offered == "$word"* ]]; then COMPREPLY+=("$offered"); fi
    done
}

# Folders, and files of these names; all files where there are none.
_warcdx_cdx_files() { # PATTERN
    local name
    while IFS= read -r name; do COMPREPLY+=("$name"); done < <(
        compgen -f -X "!$1" -- "$word"
        compgen -d -- "$word"
    )
    compopt -o filenames -o default
}

complete -F _warcdx_cdx warcdx-cdx
