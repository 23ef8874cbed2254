# Completion of the words of warcdx-update for bash.

_warcdx_update() {
    local word=${COMP_WORDS[COMP_CWORD]} before=${COMP_WORDS[COMP_CWORD - 1]}
    local options='--all-faults --compact --dry-run --help --jobs --json --program --quiet --ratio --recursive --remove --scheduler --single --types --version -V -h'
    COMPREPLY=()
    case $before in
        --jobs | --ratio | --remove | --scheduler | --types) return ;;
        --program) compopt -o default && return ;;
    esac
    if [[ $word == -* ]]; then
        mapfile -t COMPREPLY < <(compgen -W "$options" -- "$word")
    else
        compopt -o default
    fi
}

complete -F _warcdx_update warcdx-update
