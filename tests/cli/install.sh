#!/usr/bin/env bash
# Runs the commands of docs/INSTALL.md for the tar file of a release, in an empty home folder.
#
# usage: install.sh [PROGRAM]
#
# tools/release makes the release. The home folder has a space in its name. Where the page has
# /usr/local, a temporary folder stands. `sudo` isn't used. tools/check_package.sh runs the commands
# for the package.
#
# Prints a line for each step, and the counts. The exit status is 0, or 1 if a step fails. Needs git
# and Debian's packages binutils, dpkg, man-db and python3-venv.
set -euo pipefail
source "$(dirname "$0")/../program.sh"
source "$root/tests/cli/pages.sh"
read_program "$@"
need dpkg-deb:dpkg git man:man-db objdump:binutils strip:binutils
need_module ensurepip python3-venv

work=$(mktemp -d)
trap 'rm -rf "$work"' EXIT
release=$work/release
home="$work/a home"
page=$root/docs/INSTALL.md
version=$(< "$root/VERSION")
listed='0 264 response'

run_blocks() { # START..: runs these blocks of the page in one shell, in the folder of the release
    local start
    for start in "$@"; do block_of "$page" "$start"; done |
        sed "s:sudo ::; s:/usr/local:'$work'/local:g" | run_block "$release" HOME="$home" bash -e
}

files_of() { # FOLDER
    find "$1" ! -type d
}

mkdir "$home" "$work/local"
"$root/tools/release" --output "$release" "$program" > "$work/output"
printf '%s: OK\n' "warcdx-$version-x86_64-linux.tar.gz" "warcdx_${version}_amd64.deb" \
    "warcdx-$version-py3-none-manylinux_2_34_x86_64.whl" > "$work/wanted"
run_blocks 'sha256sum --check --ignore-missing' > "$work/found"
expect_file "the checksums" "$work/wanted" "$work/found"

expect "for one user, in an empty home" "$listed" "$(run_blocks 'mkdir -p ~/.local' 'warcdx list ~/.local')"
expect "its manual page" "$home/.local/share/man/man1/warcdx.1" \
    "$(env --ignore-environment HOME="$home" PATH="$home/.local/bin:/usr/bin:/bin" man -w warcdx)"
expect "the checksums of its files" "" "$(cd "$home/.local" && sha256sum --quiet --check share/doc/warcdx/SHA256SUMS 2>&1)"
chmod 700 "$home/.local/share"
run_blocks 'mkdir -p ~/.local' > "$work/output"
expect "the mode of a folder that was there" 700 "$(stat --format=%a "$home/.local/share")"
expect "what is removed" "" "$(run_blocks 'cd ~/.local')"
expect "what is left of it" "" "$(files_of "$home")"

expect "the wheel" "$version" "$(run_blocks 'python3 -m venv' "environment/bin/python -c" | tail --lines=1)"

expect "for all users" "" "$(run_blocks 'sudo tar --extract')"
expect "the program for all users" "$listed" "$("$work/local/bin/warcdx" list "$work/local/share/doc/warcdx/samples/response.warc")"
end_script
