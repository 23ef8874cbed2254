# Completion of the words of warcdx-verify for bash.

_warcdx_verify() {
    local word=${COMP_WORDS[COMP_CWORD]} offered
    COMPREPLY=()
    case ${COMP_WORDS[COMP_CWORD - 1]} in
        --jobs) return ;;
        -o | --output | --program | --resume) compopt -o default && return ;;
    esac
    if [[ $word == -* ]]; then
        # `compgen -W` would expand the word, and so run what it substitutes.
        for offered in -h -o -V --help --jobs --json --output --program --quiet --resume --version; do
            if [[ $offered == "$word"* ]]; then COMPREPLY+=("$offered"); fi
        done
        return
    fi
    # Folders, and archives; all files where there are none.
    while IFS= read -r offered; do COMPREPLY+=("$offered"); done < <(
        compgen -f -X '!*.warc' -- "$word"
        compgen -f -X '!*.warc.gz' -- "$word"
        compgen -d -- "$word"
    )
    compopt -o filenames -o default
}

complete -F _warcdx_verify warcdx-verify
