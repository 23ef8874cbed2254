# How the scripts warcdx and warcdx-gz run a program of this repository. They source this file.
# shellcheck shell=bash

# run_built NAME CRATE ARGUMENT..: runs the program of a crate with these arguments. If it is missing or older than a source, it is proved and built
# first, with the Rattle kit's `rt`. NAME begins what is said on standard error.
run_built() {
    name=$1
    crate=$2
    shift 2
    root=$(dirname "$(dirname "$(readlink -f "${BASH_SOURCE[0]}")")")
    out=$root/crates/$crate/out
    program=$out/$crate
    built=$out/$crate.stamp # left by rt once a build is whole
    shopt -s nullglob

    # Calls at the same time wait for one build, of whichever program.
    command -v flock > /dev/null || stop "flock is missing (Debian's package util-linux)"
    exec 9< "$root/crates.txt" || stop "the sources can't be read"
    if ! flock --shared --nonblock 9; then
        say "waiting for the build that another call began"
        flock --shared 9
    fi
    if ! is_current; then
        flock 9
        is_current || build
    fi
    exec "$program" "$@" 9<&-
}

say() {
    echo "$name: $1" >&2
}

stop() {
    say "$1"
    exit 3
}

is_current() {
    [ -x "$program" ] && [ -f "$built" ] && [ -z "$(newer_source)" ]
}

newer_source() {
    find "$root/crates.txt" "$root"/crates/*/{src,specs,proofs} -newer "$built" -print -quit
}

# Ends the build, and then this script by the signal.
end() {
    kill "$builder" || true
    wait "$builder" || true
    trap - "$1"
    kill -s "$1" $$
}

build() {
    command -v rt > /dev/null || stop "rt is not on the PATH; the program has to be built, by the Rattle kit's rt"
    say "proving and building the program, in 16 to 33 minutes from nothing; README.md has a first look without proofs"
    SECONDS=0
    { mkdir -p "$out" && touch "$out/started"; } || stop "the build can't write into $out"
    "$root/tools/build.py" "$crate" &
    builder=$!
    trap 'end INT' INT
    trap 'end TERM' TERM
    trap 'end HUP' HUP
    wait "$builder" || stop "the build failed after $SECONDS s"
    trap - INT TERM HUP
    touch -c -r "$out/started" "$built" # a source that was edited since is newer
    say "built in $SECONDS s"
}
