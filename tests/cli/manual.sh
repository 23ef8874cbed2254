#!/usr/bin/env bash
# Checks the manual pages: their form, and that they have what the help of the commands and the other pages have.
#
# usage: manual.sh [PROGRAM]
#
# `mandoc -T lint -W warning` has to be silent. docs/warcdx.1 has to have the program's version; a synopsis and a section for each command that the
# help lists; each exit status; each line of standard error of docs/COMMANDS.md; and each cause of docs/RECORDS.md and docs/QUERY.md.
#
# docs/warcdx-gz.1 has to have the version, the commands and the options of warcdx-gz, and each cause of a compressed archive in docs/RECORDS.md. Each command in Python has to
# have a page with its options and the same version. Each page has completions for bash, zsh and fish, and its SEE ALSO names all other pages.
#
# Prints a line for each check, and the counts. The exit status is 0, or 1 if a check fails. Needs Debian's packages mandoc and bsdextrautils.
set -euo pipefail
source "$(dirname "$0")/../program.sh"
read_program "$@"
read_packed
need mandoc col:bsdextrautils

page=$root/docs/warcdx.1
work=$(mktemp -d)
trap 'rm -rf "$work"' EXIT

# In wide lines, so that none is cut.
mandoc -T utf8 -O width=200 "$page" | col -bx > "$work/page"
"$program" --help > "$work/help"

in_a_line() {
    LC_ALL=C sort | paste --serial --delimiters=' '
}

commands_between() { # START END INDENT: the commands that begin lines with this indent, from START to END
    sed -n "/^$1/,/^$2/s/^$3\([a-z]*\).*/\1/p" "$work/page" | grep -v '^$' | in_a_line
}

expect_on_page() { # CASE: the lines on standard input, each of which has to begin a line of the page
    local line missing="" count=0
    while read -r line; do
        count=$((count + 1))
        grep --quiet -- "^ *$line" "$work/page" || missing+=" '$line'"
    done
    if [ "$count" = 0 ]; then missing=" any"; fi
    expect "$1, $count" "" "$missing"
}

diagnostics() { # of docs/COMMANDS.md
    grep --only-matching "\`warcdx: [^\`]*\`" "$root/docs/COMMANDS.md" | tr --delete "\`"
}

causes() { # in the tables of docs/RECORDS.md and docs/QUERY.md
    {
        grep --only-matching "^| [0-9]* | \`[A-Z][^|]*\` |" "$root/docs/RECORDS.md"
        grep --only-matching "^| \`[A-Z][^|]*\` |" "$root/docs/QUERY.md"
        grep --only-matching "\`refused [A-Z][A-Za-z]*\`" "$root/docs/QUERY.md" | sed 's/refused //'
    } | grep --only-matching "\`[A-Z][a-z][A-Za-z]*\`" | tr --delete "\`"
}

commands=$(sed -n '/^Commands:/,/^$/s/^  \([a-z]*\) .*/\1/p' "$work/help" | in_a_line)
expect "mandoc -T lint" "" "$(mandoc -T lint -W warning "$page")"
expect "version" "$(sed -n '1s/^warcdx \([0-9.]*\).*/version \1/p' "$work/help")" "$(grep --only-matching 'version [0-9.]*[0-9]' "$work/page" | tail --lines=1)"
expect "synopses" "$commands" "$(commands_between SYNOPSIS DESCRIPTION ' *warcdx ')"
expect "sections" "$commands" "$(commands_between DESCRIPTION QUERIES '   ')"
expect "exit statuses" "0 1 2 3" "$(sed -n '/^EXIT STATUS/,/^EXAMPLES/s/^ *\([0-9]\) .*/\1/p' "$work/page" | in_a_line)"
expect_on_page "lines of standard error" < <(diagnostics)
expect_on_page "causes" < <(causes)

options_of_help() { # COMMAND
    "$1" --help | grep --only-matching -- '--[a-z][a-z-]*' | sort --unique
}

see_also() { # PAGE: the commands of the release that it names there
    mandoc -T utf8 -O width=200 "$1" | col -bx | sed -n '/^SEE ALSO/,/^[A-Z]*$/p' | grep --only-matching 'warcdx[a-z-]*(1)' | in_a_line
}

pages_of_packed() { # the help of each of its commands
    local command
    for command in $commands; do "$packed" "$command" --help; done
}

options_of_packed() {
    pages_of_packed | grep --only-matching -- '--[a-z][a-z-]*' | sort --unique
}

packed_causes() { # in the table of docs/RECORDS.md without numbers
    grep --only-matching "^| \`[A-Z][a-z][A-Za-z]*\` |" "$root/docs/RECORDS.md" | tr --delete "\`| "
}

mandoc -T utf8 -O width=200 "$root/docs/warcdx-gz.1" | col -bx > "$work/page"
expect "warcdx-gz: version" "$("$packed" --version)" "$(sed -n 's/.*of version \([0-9.]*[0-9]\)\.$/warcdx-gz \1/p' "$work/page")"
expect "warcdx-gz: commands" "$commands" "$("$packed" --help | sed -n '/^Commands:/,/^$/s/^  \([a-z]*\) .*/\1/p' | in_a_line)"
expect "warcdx-gz: synopses" "" "$(for command in $commands; do sed -n '/^SYNOPSIS/,/^DESCRIPTION/p' "$work/page" | grep --quiet --word-regexp "$command" || echo "$command"; done)"
expect "warcdx-gz: options" "" "$(options_of_packed | while read -r option; do grep --quiet --fixed-strings -- "$option" "$work/page" || echo "$option"; done)"
expect_on_page "warcdx-gz: causes" < <(packed_causes)
expect "warcdx-gz: its name in messages and examples" "" "$(pages_of_packed | grep "^  warcdx[: ]\|'warcdx [a-z]* --help'")"
expect "warcdx-gz: lines of at most 80 columns" "" "$(pages_of_packed | grep '.\{81\}')"

pages=("$root"/docs/*.1)
for page in "${pages[@]}"; do
    name=$(basename "$page" .1)
    expect "$name: mandoc -T lint" "" "$(mandoc -T lint -W warning "$page")"
    expect "$name: SEE ALSO" "$(printf '%s\n' "${pages[@]##*/}" | grep --invert-match --line-regexp --fixed-strings "$name.1" | sed 's/\.1$/(1)/' | in_a_line)" "$(see_also "$page")"
    expect "$name: completions" "$(printf '%s\n' "_$name" "$name.bash" "$name.fish" | in_a_line)" \
        "$(cd "$root/completions" && find "_$name" "$name.bash" "$name.fish" 2>&1 | in_a_line)"
done
for command in "$root"/{python,gateway}/bin/*; do
    name=${command##*/}
    if ! "$command" --help > "$work/help" 2>&1; then continue; fi # a package is missing that the gateway needs
    mandoc -T utf8 -O width=200 "$root/docs/$name.1" | col -bx > "$work/page"
    expect "$name: version" "$("$command" --version)" "$(sed -n 's/^\(warcdx\) \([0-9.]*\) .*/'"$name"' \2/p' "$work/page" | tail --lines=1)"
    expect "$name: options" "" "$(options_of_help "$command" | while read -r option; do grep --quiet --fixed-strings -- "$option" "$work/page" || echo "$option"; done)"
done
end_script
