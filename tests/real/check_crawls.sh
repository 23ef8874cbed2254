#!/usr/bin/env bash
# Indexes the crawls of a folder, and checks the indexes against the CDX files that wget wrote with the crawls.
#
# usage: check_crawls.sh FOLDER [PROGRAM]
#
# For each NAME.cdx of the folder the archives are NAME.warc, or those into which wget cut it: NAME-00000.warc and so on, and NAME-meta.warc.
# crawl.sh makes such files. Each crawl is indexed twice: as it is, and, in a temporary folder, with each WARC-Payload-Digest under a name of
# the same length that has no meaning, so that warcdx has to compute the digests. The archives are listed, and their records fetched. They are also
# indexed one by one, and the indexes merged. The index is queried, and so are the archives without it. It is compared with an index of all types.
#
# Prints a line for each check, and the counts. The exit status is 0, or 1 if a check fails. Needs python3.
set -euo pipefail
shopt -s nullglob
source "$(dirname "$0")/../program.sh"
read_help "$@"
if [ $# = 0 ]; then stop_usage "a folder is needed"; fi
folder=$(readlink -f "$1")
read_program "${@:2}"
crawls=("$folder"/*.cdx)
if [ ${#crawls[@]} = 0 ]; then stop_usage "no file NAME.cdx in $1"; fi

scripts=$root/tests/real
work=$(mktemp -d)
trap 'rm -rf "$work"' EXIT

archives_of() { # FOLDER NAME
    local archive
    for archive in "$1/$2"{,-[0-9][0-9][0-9][0-9][0-9],-meta}.warc; do
        if [ -f "$archive" ]; then echo "$archive"; fi
    done
}

write_indexes() { # ARCHIVE..: one of all archives, one of each, and the merge of these
    local archive
    rm -rf "$work/parts"
    mkdir "$work/parts"
    "$program" index "$@" > "$work/index" &&
        for archive in "$@"; do
            "$program" index "$archive" > "$work/parts/${archive##*/}.cdxj" || return
        done &&
        "$program" merge "$work"/parts/*.cdxj > "$work/merged"
}

check_crawl() { # CASE FOLDER NAME
    local case=$1 archives
    mapfile -t archives < <(archives_of "$2" "$3")
    if ! write_indexes "${archives[@]}"; then
        say_differs "$case, indexes" "exit status $?"
        return
    fi
    check_command "$case, order of the index" env LC_ALL=C sort -s -c -k1,2 "$work/index"
    expect "$case, check" "$work/index $(wc -l < "$work/index")" "$("$program" check "$work/index" 2>&1)"
    check_command "$case, merge of ${#archives[@]} indexes" cmp "$work/merged" "$work/index"
    check_command "$case, list" "$scripts/check_list.py" --program "$program" "${archives[@]}"
    check_command "$case, get" "$scripts/check_get.py" --program "$program" "$work/index" "$2"
    check_command "$case, types" "$scripts/check_types.py" --program "$program" "$work/index" "${archives[@]}"
    check_command "$case, queries" "$scripts/check_queries.py" --program "$program" "$work/index"
    check_command "$case, scans" "$scripts/check_scans.py" --program "$program" "$work/index" "${archives[@]}"
    check_command "$case, wget's CDX file" "$scripts/check_wget_cdx.py" "$work/index" "$folder/$3.cdx" "$2"
}

without_payload_digests() { # NAME
    local archive
    archives_of "$folder" "$1" | while read -r archive; do
        LC_ALL=C sed 's/^WARC-Payload-Digest: sha1:/X-No-Payload-Digest: sha1:/' "$archive" > "$work/${archive##*/}"
    done
}

for cdx in "${crawls[@]}"; do
    name=$(basename "$cdx" .cdx)
    check_crawl "$name" "$folder" "$name"
    without_payload_digests "$name"
    check_crawl "$name without payload digests" "$work" "$name"
    rm "$work"/*.warc
done
end_script
