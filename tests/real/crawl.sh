#!/usr/bin/env bash
# Makes real WARC files: wget crawls files of this machine and some unusual pages over a local server, and writes its CDX files.
#
# usage: crawl.sh FOLDER [PAGES]
#
# PAGES is the folder that is served. The default is /usr/share/doc/wget, or docs/ of this repository if that is missing. FOLDER is created if
# necessary. These crawls are written to it, each with its log:
#
# usual     all pages, in one WARC file
# cut       the same, in WARC files of at most 100 kB
# again     the same, with usual's CDX file: what is unchanged becomes revisit records
# no-digest the same without digests
#
# Prints the files. The exit status is 0, or 1 if a crawl fails. check_crawls.sh checks the program on them. Needs wget and python3.
set -euo pipefail
source "$(dirname "$0")/../program.sh"
read_help "$@"
need python3 wget
if [ $# = 0 ] || [ $# -gt 2 ]; then stop_usage "one or two folders are needed"; fi

mkdir -p "$1"
folder=$(readlink -f "$1")
pages=${2:-/usr/share/doc/wget}
if [ ! -d "$pages" ]; then pages=$root/docs; fi
work=$(mktemp -d)
server=

end() {
    if [ -n "$server" ]; then kill "$server"; fi
    rm -rf "$work"
}
trap end EXIT

start_server() {
    "$root/tests/real/serve_pages.py" "$pages" > "$work/port" &
    server=$!
    until [ -s "$work/port" ]; do
        kill -0 "$server"
        sleep 0.1
    done
}

crawl() { # NAME OPTION..: wget's status 8 says that the server has sent an error, as it does for some pages
    local name=$1 status=0
    shift
    mkdir "$work/$name"
    (cd "$work/$name" && wget --recursive --level=inf --delete-after --no-verbose --execute=robots=off --tries=2 --timeout=20 \
        --warc-file="$folder/$name" --warc-cdx --no-warc-compression --warc-tempdir=. --output-file="$folder/$name.log" \
        "$@" "http://127.0.0.1:$(< "$work/port")/") || status=$?
    if [ "$status" != 0 ] && [ "$status" != 8 ]; then
        tail --lines=20 "$folder/$name.log" >&2
        exit 1
    fi
}

start_server
crawl usual
crawl cut --warc-max-size=100k
crawl again --warc-dedup="$folder/usual.cdx"
crawl no-digest --no-warc-digests
ls -l "$folder"
