#!/usr/bin/env bash
# Runs the recipes of docs/RECIPES.md, and compares what they print with what the page shows.
#
# usage: recipes.sh [--shell SHELL] [--print RECIPE] [PROGRAM]
#
# A recipe is a section of the page. One SHELL, bash or zsh (default: bash), runs its blocks that begin
# with ```sh, one after another. The block that begins with ```text and follows one of them contains
# what that one prints, errors included; without such a block it prints nothing. Each recipe runs in a
# folder of its own, which the page's first lines have made. Ports, timestamps, offsets and identifiers of
# the crawl differ from run to run, and aren't compared.
#
# Then the recipe that packs an archive runs on a damaged one, of which it may pack nothing, and the list at the top of the page is compared with its
# headings.
#
# Prints a line for each recipe, with the differences if there are any, and the counts. The exit
# status is 0, or 1 if a recipe differs. With --print it prints only what RECIPE prints. Needs
# Debian's packages gnuplot-nox, gzip, jq, sqlite3, wget, xxd and that of the shell.
set -euo pipefail
source "$(dirname "$0")/../program.sh"
source "$root/tests/cli/pages.sh"
chosen='' shell=bash
if [ "${1-}" = --shell ]; then
    shell=${2-}
    if [ "$shell" != bash ] && [ "$shell" != zsh ]; then stop_usage "--shell needs bash or zsh"; fi
    shift 2
fi
if [ "${1-}" = --print ]; then
    if [ $# -lt 2 ]; then stop_usage "--print needs a recipe"; fi
    chosen=$2
    shift 2
fi
read_program "$@"
read_packed
need gnuplot:gnuplot-nox gzip jq sqlite3 wget xxd "$shell"

page=$root/docs/RECIPES.md
work=$(mktemp -d)
trap 'rm -rf "$work"' EXIT

lines_of() { # RECIPE
    awk -v "heading=## $1" '
        /^## / { inside = $0 == heading }
        inside
    ' "$page"
}

# Prints what the page shows as the output of the blocks, with a line before that of each block.
wanted_of() {
    awk '
        /^```sh$/ { print "-- block " ++number }
        /^```$/ { inside = 0 }
        inside
        /^```text$/ { inside = 1 }
    '
}

# Makes a script of the blocks of a recipe. It prints the same lines before the blocks.
script_of() {
    awk '
        /^```$/ { inside = 0 }
        inside
        /^```sh$/ { inside = 1; print "echo \"-- block " ++number "\"" }
    '
}

in_folder() { # FOLDER SCRIPT: runs a script as a user does who has the commands on the PATH
    (cd "$1" && env HOME="$1" TMPDIR="$work" LC_ALL=C.UTF-8 PATH="$work/bin:$root/python/bin:$PATH" "$shell" "$2" 2>&1 < /dev/null)
}

# Makes a folder by the page's first lines. The folders of the recipes are copies of it.
prepare() {
    block_of "$page" "share=" | sed "s:^share=.*:share='$root':" > "$work/script"
    echo "cp --archive . '$work/files'" >> "$work/script"
    in_folder "$work" "$work/script"
}

run() { # RECIPE: prints what its blocks print
    local folder
    folder=$(mktemp -d -p "$work")
    cp --archive --link "$work/files/." "$folder"
    lines_of "$1" | script_of > "$work/script"
    # The exit status is that of the last command, and may be any.
    in_folder "$folder" "$work/script" || true
}

masked() { # RECIPE: without what differs from run to run
    if [ "$1" = 'How do I go from a web site to a record?' ]; then
        sed -E -e 's/127\.0\.0\.1:[0-9]+/HOST/' -e 's/ [0-9]{14} [0-9]+$/ TIMESTAMP OFFSET/' \
            -e 's/urn:uuid:[0-9a-f-]+/IDENTIFIER/' -e 's/\r$//'
    else
        cat
    fi
}

recipes() { # their names
    sed -n 's/^## //p' "$page"
}

# Prints what the list has to be: for each recipe a link, with the anchor that GitHub makes of the heading.
wanted_contents() {
    local recipe anchor
    while IFS= read -r recipe; do
        anchor=$(tr '[:upper:] ' '[:lower:]-' <<< "$recipe" | tr --delete "',.?")
        echo "- [$recipe](#$anchor)"
    done < <(recipes)
}

contents() {
    sed -n '/^- \[/p' "$page"
}

mkdir "$work/bin" "$work/files"
ln -s "$program" "$work/bin/warcdx"
ln -s "$packed" "$work/bin/warcdx-gz"
prepare
if [ -n "$chosen" ]; then
    run "$chosen"
    exit
fi

while IFS= read -r recipe; do
    lines_of "$recipe" | wanted_of | masked "$recipe" > "$work/wanted"
    if [ -s "$work/wanted" ]; then
        run "$recipe" | masked "$recipe" > "$work/found"
        expect_file "$recipe" "$work/wanted" "$work/found"
    fi
done < <(recipes)

pack_damaged() { # prints what the recipe makes of a damaged archive
    local folder
    folder=$(mktemp -d -p "$work")
    cp "$root/samples/damaged.warc" "$folder/wget.warc"
    lines_of 'How do I pack an archive record by record?' | script_of | sed '/^done/q' > "$work/script"
    in_folder "$folder" "$work/script" > "$work/found" || true
    find "$folder" -name '*.gz'
}

expect "a damaged archive isn't packed" "" "$(pack_damaged)"
wanted_contents > "$work/wanted"
contents > "$work/found"
expect_file "the contents" "$work/wanted" "$work/found"
end_script
