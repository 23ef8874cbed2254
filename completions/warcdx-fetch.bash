# Completion of the words of warcdx-fetch for bash.

_warcdx_fetch() {
    local word=${COMP_WORDS[COMP_CWORD]} offered
    COMPREPLY=()
    case ${COMP_WORDS[COMP_CWORD - 1]} in
        --at) return ;;
        -o | --output | --program) compopt -o default && return ;;
        --index | --archives) ;;
        *)
            # `compgen -W` would expand the word, and so run what it substitutes.
            for offered in -h -o -V --help --all --archives --at --index --json --output --program --quiet --record --version; do
                if [[ $word == -* && $offered == "$word"* ]]; then COMPREPLY+=("$offered"); fi
            done
            return
            ;;
    esac
    # Folders, and indexes for --index; all files where there are none.
    while IFS= read -r offered; do COMPREPLY+=("$offered"); done < <(
        if [[ ${COMP_WORDS[COMP_CWORD - 1]} == --index ]]; then compgen -f -X '!*.cdxj' -- "$word"; fi
        compgen -d -- "$word"
    )
    compopt -o filenames -o default
}

complete -F _warcdx_fetch warcdx-fetch
