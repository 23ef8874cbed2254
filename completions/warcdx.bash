# Completion of the words of warcdx for bash.

_warcdx() {
    _warcdx_words warc
}

# Those of a program whose archives have one of these endings.
_warcdx_words() { # ENDING..
    local word=${COMP_WORDS[COMP_CWORD]} command=${COMP_WORDS[1]} operand=$((COMP_CWORD - 1))
    local option='' options=''
    COMPREPLY=()
    if ((COMP_CWORD == 1)) && [[ $word != -* ]]; then
        _warcdx_offer list verify index merge check query pages serve get scan
        return
    fi
    case $command in
        index | scan) options=' --types --name ' ;;
        get) options=' --length ' ;;
    esac
    while ((operand > 1)); do
        option=${COMP_WORDS[COMP_CWORD - operand + 1]}
        if [[ $options != *" $option "* ]]; then break; fi
        options=${options/"$option "/}
        operand=$((operand - 2))
    done
    if ((operand == 0 && COMP_CWORD > 1)); then
        if [[ $option == --types ]]; then _warcdx_types; fi
        return
    fi
    if [[ $word == -* ]]; then
        _warcdx_offer -h --help
        if ((COMP_CWORD == 1)); then _warcdx_offer -V --version; fi
        if ((operand == 1)); then
            for option in $options; do _warcdx_offer "$option"; done
        fi
        return
    fi
    if [[ $command == @(query|pages|scan) && ${COMP_LINE:0:COMP_POINT} == *[=:]"$word" ]]; then return; fi # in a query, which bash cuts there
    case $command:$operand in
        list:* | verify:* | index:* | get:2) _warcdx_files "$@" ;;
        query:1 | pages:2 | scan:2) _warcdx_query ;;
        pages:1 | scan:1) ;;
        scan:*) _warcdx_files "$@" ;;
        merge:* | check:* | serve:* | query:* | pages:*) _warcdx_files cdxj ;;
    esac
}

# Those that begin with the word. `compgen -W` would expand it, and so run what it substitutes.
_warcdx_offer() { # OFFERED..
    local offered
    for offered; do
        if [[ $offered == "$word"* ]]; then COMPREPLY+=("$offered"); fi
    done
}

# Types behind those that stand in the word, none of them twice. Nothing behind what isn't types.
_warcdx_types() {
    local given='' type
    if [[ $word == *,* ]]; then given=${word%,*},; fi
    if [[ $given == *[!a-z,]* ]]; then return; fi
    for type in response resource revisit conversion metadata; do
        if [[ ,$given != *,$type,* ]]; then _warcdx_offer "$given$type"; fi
    done
    compopt -o nospace
}

_warcdx_query() {
    _warcdx_offer url= key=
    compopt -o nospace
}

# Folders and files with one of the endings; all files where there are none.
_warcdx_files() { # ENDING..
    local ending name
    while IFS= read -r name; do COMPREPLY+=("$name"); done < <(
        for ending; do compgen -f -X "!*.$ending" -- "$word"; done
        compgen -d -- "$word"
    )
    compopt -o filenames -o default
}

complete -F _warcdx warcdx
