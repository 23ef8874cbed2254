# Prints the completions that bash offers after the start of a command line, one per line. completions.sh runs it.
#
# usage: zsh complete_bash.zsh FILE LINE      FILE has the completion function of the first word of the line
#
# The line is typed into a bash at a pseudo-terminal, which zsh opens. There the answer of the function is printed.
zmodload zsh/zpty
setup=$(mktemp)
trap 'rm -f $setup' EXIT
command=${2%% *}
function=_${command//-/_}
cat > $setup << END
[[ \$(complete -p $command) == "complete -F $function $command" ]] || exit
function=$function command=$command
END
cat >> $setup << 'END'
print_offered() {
    "$function" "$@"
    {
        echo
        if ((${#COMPREPLY[@]})); then printf 'OFFERED %s\n' "${COMPREPLY[@]}"; fi
        echo 'END''ED'
    } > /dev/tty
}
complete -F print_offered "$command"
END
zpty shell "bash --norc -i"
zpty -w shell "PS1=; source ${(q)1}; source ${(q)setup}; echo REA''DY"
zpty -r -m shell seen '*READY*'
zpty -w -n shell "$2"$'\t'
zpty -r -m shell seen '*ENDED*'
zpty -d shell
print -r -- "$seen" | tr -d '\r' | sed -n 's/^OFFERED //p'
