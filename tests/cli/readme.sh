#!/usr/bin/env bash
# Runs the commands of README.md as a new user does, and compares what they print with the page.
#
# usage: readme.sh [PROGRAM]
#
# The commands run in a clean clone of this repository, which contains what is committed, and in a
# release that tools/release makes there. Both are in a folder with a space in its name.
# tools/check_package.sh runs the commands for the package. The test command isn't run, nor the one
# that builds the program without proofs. Without PROGRAM the clone builds its own, as README.md
# says. With it the clone has PROGRAM and the program for compressed archives that belongs to it.
#
# Prints a line for each block of commands, with the differences if there are any, and the counts.
# The exit status is 0, or 1 if one differs. Needs git, gzip, python3, zsh and Debian's packages
# binutils and dpkg.
set -euo pipefail
source "$(dirname "$0")/../program.sh"
source "$root/tests/cli/pages.sh"
if [ $# -gt 0 ]; then
    read_program "$@"
    read_packed
else
    program=
fi
need dpkg-deb:dpkg git gzip objdump:binutils python3 strip:binutils zsh

work=$(mktemp -d)
trap 'rm -rf "$work"' EXIT
clone="$work/a folder/warcdx"
release="$work/a folder/release"

block() { # START
    block_of "$clone/README.md" "$1"
}

put_program() { # PROGRAM CRATE: puts it into the clone, as a build does
    install -D "$1" "$clone/crates/$2/out/$2"
    touch "$clone/crates/$2/out/$2.stamp"
}

# check_session CASE START FOLDER COMMAND..: runs the lines of a block that begin with "$ ", and
# compares what they print with its other lines.
check_session() {
    local case=$1 start=$2
    shift 2
    block "$start" | grep --invert-match '^\$ ' > "$work/wanted"
    block "$start" | sed -n 's/^\$ //p' | run_block "$@" | tr --delete '\r' > "$work/found"
    expect_file "$case" "$work/wanted" "$work/found"
}

# check_sessions CASE SAMPLES PATH: runs the sessions with this PATH, over a folder of samples and over a
# compressed file.
check_sessions() {
    local samples=$2 path=$3 case shell folder
    for shell in bash zsh; do
        case="$1, by $shell"
        folder=$(mktemp -d -p "$work")
        gzip --stdout "$samples/response.warc" > "$folder/example.warc.gz"
        check_session "three commands, $case" '$ warcdx-gz index' "$folder" PATH="$path" PYTHONDONTWRITEBYTECODE=1 "$shell"
        check_session "a try, $case" '$ warcdx index wget.warc' "$samples" PATH="$path" HOME="$folder" "$shell"
    done
}

git clone --quiet "$root" "$clone"
if [ -n "$program" ]; then
    put_program "$program" warcdx
    put_program "$packed" warcdx_gz
fi
listed='0 264 response'

expect 'a sample is listed, from source' "$listed" "$(block './warcdx list' | run_block "$clone" PATH="$PATH" bash)"
(cd "$clone" && tools/release --output "$release" > "$work/output")
expect 'a sample is listed, from a release' "$listed" "$(block 'tar -xzf' | run_block "$release" bash)"

unpacked=$(echo "$release"/*/)
check_sessions 'in a checkout' "$clone/samples" "$clone:$clone/python/bin:/usr/bin:/bin"
check_sessions 'in a release' "$unpacked/share/doc/warcdx/samples" "$unpacked/bin:/usr/bin:/bin"
expect 'files that were left in the checkout' "" "$(git -C "$clone" status --porcelain)"
expect 'files that were left in the release' "$(tar --list --file "$release"/*.tar.gz | grep -c '[^/]$')" \
    "$(find "$unpacked" -type f | wc -l)"
end_script
