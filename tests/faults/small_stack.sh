#!/usr/bin/env bash
# Runs each command in a stack of 256 KiB, of the 8 MiB that Linux usually gives a program.
#
# usage: small_stack.sh [PROGRAM]
#
# Prints a line for each case, and the counts. The exit status is 0, or 1 if a case differs.
set -euo pipefail
source "$(dirname "$0")/../program.sh"
read_program "$@"
read_packed

readonly KIBIBYTES=256
samples=$root/samples
work=$(mktemp -d)
trap 'rm -rf "$work"' EXIT

nested() { # DEPTH: a line of an index with this many arrays in one another
    printf 'com,example)/ 20250318093000 {"url": "http://example.com/", "filename": "a", "offset": "0", "x": '
    head -c "$1" /dev/zero | tr '\0' '['
    head -c "$1" /dev/zero | tr '\0' ']'
    printf '}\n'
}

runs() { # NAME STATUS ARGUMENT..: whether the command ends with this status in a small stack, as it does in a large one
    local name=$1 wanted=$2 status=0
    shift 2
    # The arguments and the environment take of the stack, so there is no environment.
    # shellcheck disable=SC2016 # bash expands it
    env -i bash -c 'ulimit -s "$0" && exec "$@"' "$KIBIBYTES" "$program" "$@" > "$work/out" 2>&1 < "$work/queries" || status=$?
    expect "$name" "$wanted" "$status"
}

echo 'url=example.com' > "$work/queries"
"$program" index "$samples/wget.warc" > "$work/index"
nested 100 > "$work/nested"
nested 1000000 > "$work/deep"

runs list 0 list "$samples/wget.warc"
runs verify 0 verify "$samples/wget.warc"
runs index 0 index "$samples/wget.warc"
runs merge 0 merge "$work/index" "$work/nested"
runs check 0 check "$work/index" "$work/nested"
runs "check of a million arrays" 1 check "$work/deep"
runs query 0 query "key=&matchType=prefix" "$work/index"
runs pages 0 pages 1,2 "key=&matchType=prefix" "$work/index"
runs serve 0 serve "$work/index"
runs get 0 get 0 "$samples/wget.warc"
runs scan 0 scan 2 "key=&matchType=prefix" "$samples/wget.warc"
runs help 0 --help

program=$packed
gzip --stdout "$samples/response.warc" > "$work/packed"
runs "list, compressed" 0 list "$work/packed"
runs "verify, compressed" 0 verify "$work/packed"
runs "index, compressed" 0 index "$work/packed"
runs "get, compressed" 0 get 0 "$work/packed"
runs "scan, compressed" 0 scan 2 "key=&matchType=prefix" "$work/packed" "$samples/wget.warc"
end_script
