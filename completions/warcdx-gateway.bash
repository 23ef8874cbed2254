# Completion of the words of warcdx-gateway for bash.

_warcdx_gateway() {
    local word=${COMP_WORDS[COMP_CWORD]} option='' before offered
    COMPREPLY=()
    if [[ $word == -* ]]; then
        # `compgen -W` would expand the word, and so run what it substitutes.
        for offered in -h -V --address --archives --help --host --indexes --port --program --version --workers; do
            if [[ $offered == "$word"* ]]; then COMPREPLY+=("$offered"); fi
        done
        return
    fi
    # The last option, whose values the word may be.
    for before in "${COMP_WORDS[@]:1:COMP_CWORD-1}"; do
        if [[ $before == --* ]]; then option=$before; fi
    done
    case ${COMP_WORDS[COMP_CWORD - 1]} in
        --address | --host | --port | --workers) return ;;
        --program) compopt -o default && return ;;
    esac
    case $option in
        --archives) mapfile -t COMPREPLY < <(compgen -d -- "$word") ;;
        --indexes) _warcdx_gateway_files '*.cdxj' ;;
        *) _warcdx_gateway_files '*.toml' ;;
    esac
    compopt -o filenames
}

# Folders, and files of these names; all files where there are none.
_warcdx_gateway_files() { # PATTERN
    mapfile -t COMPREPLY < <(
        compgen -f -X "!$1" -- "$word"
        compgen -d -- "$word"
    )
    compopt -o default
}

complete -F _warcdx_gateway warcdx-gateway
