# Prints the completions that zsh offers after the start of a command line, one per line. completions.sh runs it.
#
# usage: zsh complete_zsh.zsh FOLDER LINE      FOLDER contains the completion _warcdx
#
# The line is typed into a zsh at a pseudo-terminal. There each call of the builtin compadd prints its matches.
zmodload zsh/zpty
setup=$(mktemp)
trap 'rm -f $setup' EXIT
cat > $setup << 'END'
autoload -Uz compinit
compinit -u -D
compadd() {
    local -a matches
    if [[ " ${(j: :)@[1,(i)(-|--)]}" != *' -'[OAD]* ]]; then
        builtin compadd -A matches "$@"
        if (( $#matches )); then print -rl -- '' "OFFERED $IPREFIX"${^matches}; fi
    fi
    builtin compadd "$@"
}
say_end() { print -r -- $'\nEND''ED' }
comppostfuncs=(say_end)
zstyle ':completion:*' insert-tab false
unsetopt beep
END
zpty shell "zsh -f -i"
zpty -w shell "PROMPT=; fpath=(${(q)1} \$fpath); source ${(q)setup}; print REA''DY"
zpty -r -m shell seen '*READY*'
zpty -w -n shell "$2"$'\t'
zpty -r -m shell seen '*ENDED*'
zpty -d shell
print -r -- "$seen" | tr -d '\r' | sed -n 's/^OFFERED //p'
