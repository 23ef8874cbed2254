#!/usr/bin/env bash
# Makes the situation of each row of docs/TROUBLESHOOTING.md, and checks that it has the symptom
# that the row names. If the row has a command or a value that removes the symptom, that is checked
# too.
#
# usage: troubleshooting.sh [PROGRAM]
#
# Some rows of the Python commands and of the gateway have no case here, because other tests make
# their situations: those of the Python package, of warcdx-update and of the gateway.
#
# Prints a line for each case, and the counts. The last case is that each row of the page is here.
# The exit status is 0, or 1 if a case differs. Needs python3 and Debian's packages util-linux, wget and xxd.
# shellcheck disable=SC2317 # `prints` and `shows` run the functions
set -euo pipefail

source "$(dirname "$0")/../program.sh"
read_program "$@"
read_packed
need flock:util-linux python3 wget xxd
source "$(dirname "$0")/check_functions.sh"
page=$root/docs/TROUBLESHOOTING.md

# row CELL: the cases that follow are those of the row whose first cell this is.
row() {
    row=$1
    echo "$1" >> rows
}

# sees CASE OUTPUT ERROR STATUS ARGUMENT..: as check does, with the row before the case.
sees() {
    check "$row: $1" "${@:2}"
}

# prints CASE WANTED COMMAND..: compares what a command prints, errors included.
prints() {
    expect "$row: $1" "$2" "$("${@:3}" 2>&1 < /dev/null || true)"
}

# shows CASE PART COMMAND..: looks for a part of what a command prints.
shows() {
    expect "$row: $1" "$2" "$("${@:3}" 2>&1 < /dev/null | grep --only-matching -Fe "$2")"
}

# refuses CAUSE QUERY..: each query has to be refused with this cause.
refuses() {
    local query
    for query in "${@:2}"; do
        sees "$query" "" "warcdx: query: $1" 1 query "$query" response.cdxj
    done
}

# finds CASE QUERY INDEX: the query has to select the one capture at offset 0.
finds() {
    sees "$1" 0 "" 0 query "$2&fl=offset" "$3"
}

first_bytes() { # FILE
    head -c 16 "$1" | xxd
}

crawl() { # NAME OPTION..: crawls a page
    wget --no-proxy --quiet --output-document=body --warc-file="$1" --warc-cdx \
        --no-warc-compression --warc-tempdir=. "${@:2}" "http://127.0.0.1:$(< port)/unusual/zeros"
}

crawl_twice() { # writes first.warc and again.warc
    local server
    "$root/tests/real/serve_pages.py" folder > port &
    server=$!
    until [ -s port ]; do
        kill -0 "$server"
        sleep 0.1
    done
    if ! { crawl first && crawl again --warc-dedup=first.cdx; }; then
        echo "$script: wget has failed" >&2
    fi
    kill "$server"
}

verdicts_on_revisits() { # ARCHIVE
    paste -d ' ' <("$program" list "$1") <("$program" verify "$1") |
        awk '$3 == "revisit" { print $5 }'
}

line() { # KEY OFFSET: the line of a capture
    printf '%s 20160919172024 {"url": "http://example.com/", "offset": "%s", "filename": "a"}\n' "$1" "$2"
}

second_line_of() { # FILE: its offset
    head --lines=1 "$1" | wc --bytes
}

cp "$root"/samples/*.warc .
mkdir folder
cp response.warc folder
"$program" index response.warc > response.cdxj
"$program" index wget.warc > wget.cdxj

row "\`fault 0 Version\`"
gzip --keep --no-name response.warc
printf '\x28\xb5\x2f\xfd rest' > response.warc.zst
echo "<html>" > page.warc
{ printf '\xef\xbb\xbf' && cat response.warc; } > bom.warc
tr --delete '\r' < response.warc > lf.warc
for file in response.warc.gz response.warc.zst page.warc bom.warc lf.warc; do
    sees "$file" "fault 0 Version" "" 1 list "$file"
done
shows "the first bytes of gzip" "00000000: 1f8b" first_bytes response.warc.gz
shows "those of zstd" "00000000: 28b5 2ffd" first_bytes response.warc.zst
shows "those of HTML" " <html>." first_bytes page.warc
shows "those of a byte order mark" "00000000: efbb bf" first_bytes bom.warc
shows "those of a line that ends with LF" "2e31 0a" first_bytes lf.warc
shows "those of an archive" "2e31 0d0a" first_bytes response.warc
rm response.warc
gunzip response.warc.gz
sees "unpacked" "0 264 response" "" 0 list response.warc

row "\`fault N Version\`, with \`N\` near the end"
{ cat response.warc && printf '\r\n'; } > longer.warc
fault="warcdx: longer.warc: fault 264 Version"
sees "CR LF after the last record" $'0 264 response\nfault 264 Version' "" 1 list longer.warc
sees "index" "$(sed s/response.warc/longer.warc/ response.cdxj)" "$fault" 1 index longer.warc

row "\`fault N Closing\`"
sed 's/^Content-Length: 59/Content-Length: 58/' response.warc > length.warc
sees "a wrong length" "fault 0 Closing" "" 1 list length.warc
{ head -c 250 response.warc && cat response.warc; } > cut-among.warc
sees "a record that is cut among others" "fault 0 Closing" "" 1 list cut-among.warc

row "\`fault N ShortBlock\`, \`fault N ShortHead\`"
two=$'0 264 response\n264 184 resource'
sees "within a block" "$two"$'\nfault 448 ShortBlock' "" 1 list damaged.warc
head -c 300 damaged.warc > head.warc
sees "within a head" $'0 264 response\nfault 264 ShortHead' "" 1 list head.warc

row "\`fault N FieldLine\`, \`HeadTooLong\`, \`Missing\`, \`Repeated\`, \`BadLength\`, \`BadDate\`, \`TooFar\`"
changed() { # CAUSE COMMAND: of sed, which changes the first header
    sed "$2" response.warc > changed.warc
    sees "$1" "fault 0 $1" "" 1 list changed.warc
}
changed FieldLine '2ix\r'
changed Missing '/^WARC-Date/d'
changed Repeated 's/^WARC-Date.*/&\n&/'
changed BadLength '0,/^Content-Length:.*/s//Content-Length: x\r/'
changed BadDate 's/^WARC-Date.*/WARC-Date: 2016-13\r/'
changed TooFar '0,/^Content-Length:.*/s//Content-Length: 9223372036854775807\r/'
{ head --lines=1 response.warc && echo "A: $(head -c 1100000 /dev/zero | tr '\0' a)"; } > changed.warc
sees "HeadTooLong" "fault 0 HeadTooLong" "" 1 list changed.warc
header_at() { # OFFSET
    tail -c +$(($1 + 1)) wget.warc | head -c 8
}
prints "the header at an offset" "WARC/1.0" header_at 725

row "\`fault N KeyTooLong\`, \`LineTooLong\`"
{ head --lines=3 response.warc && printf 'WARC-Date: 2016\r\nContent-Length: 0\r\nWARC-Target-URI: ' && head -c 1048000 /dev/zero | tr '\0' '\1' && printf '\r\n\r\n\r\n\r\n'; } > long.warc
long_index() {
    "$program" index long.warc | wc --lines
}
prints "the longest URL of a header" 1 long_index

row "\`SeveralRecords\` of \`warcdx-gz\`"
cat response.warc response.warc | gzip --no-name > whole.warc.gz
prints "an archive in one member" "fault 0 SeveralRecords" "$packed" list whole.warc.gz
gunzip whole.warc.gz
prints "unpacked" $'0 264 response\n264 264 response' "$packed" list whole.warc

row "\`CutMember\`, \`BadMember\`, \`NoMember\` of \`warcdx-gz\`"
gzip --no-name --stdout response.warc > good.warc.gz
size=$(stat --format=%s good.warc.gz)
{ cat good.warc.gz && head --bytes=-1 good.warc.gz; } > cut.warc.gz
{ cat good.warc.gz && head --bytes=-8 good.warc.gz && printf '\0\0\0\0\0\0\0\0'; } > bad.warc.gz
{ cat good.warc.gz && echo; } > longer.warc.gz
for case in cut:CutMember bad:BadMember longer:NoMember; do
    prints "${case%:*}" $'0 '"$size"$' response\nfault '"$size ${case#*:}" "$packed" list "${case%:*}.warc.gz"
done

row "\`ShortHead\`, \`ShortBlock\`, \`Closing\` of \`warcdx-gz\`"
for case in 100:ShortHead 230:ShortBlock 262:Closing; do
    { head -c "${case%:*}" response.warc | gzip && tail -c +"$((${case%:*} + 1))" response.warc | gzip; } > two.warc.gz
    prints "a record in two members, cut at ${case%:*}" "fault 0 ${case#*:}" "$packed" list two.warc.gz
done
gunzip two.warc.gz
prints "unpacked" "0 264 response" "$packed" list two.warc

row "\`verify\` prints \`differs\` for revisits"
crawl_twice
prints "the first crawl" "" verdicts_on_revisits first.warc
prints "the second crawl" differs verdicts_on_revisits again.warc

row "\`verify\` prints \`absent\` for all"
sees "no digests" "0 absent" "" 0 verify response.warc

row "\`BadName\`"
sees "a folder with /" "" "warcdx: folder/: BadName" 1 index folder/

row "\`DuplicateName\`"
fault="warcdx: folder/response.warc: DuplicateName"
sees "two folders" "$(< response.cdxj)" "$fault" 1 index response.warc folder/response.warc

row "\`NoRecord\`"
sees "inside a record" "" "warcdx: wget.warc: NoRecord" 1 get 1 wget.warc

row "\`index\` writes nothing, with exit status 0"
sed 's/^WARC-Type: response/WARC-Type: conversion/' response.warc > texts.warc
sees "a conversion" "" "" 0 index texts.warc
sees "its type" "0 266 conversion" "" 0 list texts.warc
count_conversions() {
    "$program" index --types conversion texts.warc | wc --lines
}
prints "with its type" 1 count_conversions

row "\`index\` is slow on a network disk"
mkdir disk
cp wget.warc disk
as_a_stream() {
    "$program" index --name wget.warc - < disk/wget.warc
}
prints "a stream has the same index" "$("$program" index wget.warc)" as_a_stream

row "\`BadLine\`, \`OutOfOrder\` in an index of another tool"
line "com,example)/" 0 | sed 's/"offset"/"at"/' > no-offset.cdxj
sees "no offset" "" "warcdx: no-offset.cdxj: BadLine 0" 1 check no-offset.cdxj
line "com,example)/" 0 | sed 's/"filename"/"file"/' > no-name.cdxj
sees "no file name" "" "warcdx: no-name.cdxj: BadLine 0" 1 check no-name.cdxj
{ line "com,example-shop)/" 0 && line "com,example)/" 1; } > locale.cdxj
fault="warcdx: locale.cdxj: OutOfOrder $(second_line_of locale.cdxj)"
sees "another order" "" "$fault" 1 check locale.cdxj
LC_ALL=C sort -s -k1,2 locale.cdxj > sorted.cdxj
sees "sorted" "sorted.cdxj 2" "" 0 check sorted.cdxj

row "\`OutOfOrder N\`, with \`N\` at the second line, and queries find nothing"
{ printf '\xef\xbb\xbf' && cat wget.cdxj; } > bom.cdxj
fault="warcdx: bom.cdxj: OutOfOrder $(second_line_of bom.cdxj)"
sees "check" "" "$fault" 1 check bom.cdxj
sees "a query" "" "" 0 query "url=127.0.0.1:8000/odd/" bom.cdxj
shows "its first bytes" "00000000: efbb bf" first_bytes bom.cdxj
sed -i '1s/^\xef\xbb\xbf//' bom.cdxj
prints "without it" "" cmp bom.cdxj wget.cdxj

row "\`Read\`, with \`It is a folder\`, for the INDEX of \`warcdx-update\`"
mkdir kept
cp response.warc kept
"$root/python/bin/warcdx-update" --quiet --program "$program" kept kept.cdxj.d
prints "the folder" $'warcdx: kept.cdxj.d: Read\n  It is a folder: of an index of warcdx-update, name its current/*.cdxj.' "$program" check kept.cdxj.d
sees "its runs" "kept.cdxj.d/current/000001.cdxj 1" "" 0 check kept.cdxj.d/current/*.cdxj

row "\`cannot open\`, for one of more than 1,000 indexes that are there"
mapfile -t indexes < <(echo response.cdxj | repeated 1024)
with_limit() { # LIMIT: merges 1,024 indexes
    ulimit -n "$1"
    "$program" merge "${indexes[@]}"
}
prints "ulimit -n 1024" $'warcdx: response.cdxj: cannot open\n  Too many open files (os error 24)' with_limit 1024
prints "ulimit -n 4096" "$(< response.cdxj)" with_limit 4096

row "\`TooManySources\`"
ulimit -n 4096
sees "1,025 indexes" "" "warcdx: TooManySources" 1 merge response.cdxj "${indexes[@]}"

cdx() {
    "$root/python/bin/warcdx-cdx" --program "$program" "$@"
}

row "\`BadLine 0\` of a file with \` CDX \` in its first line"
cdx to response.cdxj > response.cdx
sees "a CDX file" "" "warcdx: response.cdx: BadLine 0" 1 check response.cdx
from_cdx() { # FILE
    cdx from "$1" | LC_ALL=C sort
}
prints "an index of it" "$(< response.cdxj)" from_cdx response.cdx

row "\`line N\` of \`warcdx-cdx\`"
sed '1a x' response.cdx > bad.cdx
prints "a bad line" "warcdx-cdx: bad.cdx: line 2: it has 1 column, and not 11" cdx from bad.cdx
sed 2d bad.cdx > good.cdx
prints "without it" "$(< response.cdxj)" cdx from good.cdx

row "A URL of pywb's index isn't found"
line "com,example)/goo" 0 | sed 's|http://example.com/|&goo/|' > pywb.cdxj
sees "by url" "" "" 0 query "url=example.com/goo/" pywb.cdxj
finds "by key" "key=com,example)/goo" pywb.cdxj
finds "by is" "url=example.com/goo*&is=original:http://example.com/goo/" pywb.cdxj

row "\`query: Unknown\`"
refuses Unknown "http://example.com/" "example.com" "url=example.com&page=0"
finds "with a name" "url=example.com" response.cdxj

row "\`query: NoUrl\`, \`query: UrlAndKey\`"
refuses NoUrl "limit=1"
refuses UrlAndKey "url=example.com&key=com"
finds "all captures" "key=&matchType=prefix" response.cdxj

row "\`query: BadUrl\`"
refuses BadUrl "url=http://[/" "url=dns:example.com&matchType=host"
finds "escaped" "url=example.com/%2523/../" response.cdxj

row "\`query: BadMatch\`, \`query: BadOutput\`, \`query: BadFlag\`"
refuses BadMatch "url=example.com&matchType=all"
refuses BadOutput "url=example.com&output=xml"
refuses BadFlag "url=example.com&showResumeKey=1"
finds "the values" "url=example.com&matchType=host&output=text&showResumeKey=false" response.cdxj

row "\`query: RepeatedParameter\`"
refuses RepeatedParameter "url=example.com&limit=1&limit=1"
finds "conditions" "url=example.com&is=statuscode:200&is=mimetype:text/html" response.cdxj

row "\`query: BadResume\`"
refuses BadResume "url=example.com&resumeKey=x"

row "\`query: QueryTooLong\`"
refuses QueryTooLong "url=$(head -c 65536 /dev/zero | tr '\0' a)"

row "\`NotText\` of \`serve\` and of the gateway"
served() {
    printf 'url=\377\n' | "$program" serve response.cdxj
}
prints "a query" $'refused NotText\n.' served

row "\`query: NotLiteral\`"
refuses NotLiteral "url=example.com&filter="{"original:.*",mimetype:image/svg%2Bxml,original:http://example.com/}
finds "is" "url=example.com&is=original:http://example.com/" response.cdxj
finds "has" "url=example.com&has=original:.com" response.cdxj

row "\`query: BadCollapse\`"
refuses BadCollapse "url=example.com&collapse=digest"

row "\`query: BadStamp\`"
refuses BadStamp "url=example.com&from=" "url=example.com&from=2016-01" "url=example.com&to=2016*"
sees "digits" "" "" 0 query "url=example.com&to=201601" response.cdxj

row "\`query: BadLimit\`"
refuses BadLimit "url=example.com&limit="{-1,0,1000001}

row "\`query: BadField\`"
refuses BadField "url=example.com&fl=url,mime,status"
fields=$(sed -n 's/.*The fields are \(.*\) and \(.*\)\. |$/\1,\2/p' "$page" | tr --delete "\` ")
capture="http://example.com/ text/html 200 3I42H3S6NNFQ2MSVX7XZKYAYSCX5QBYJ 264 0 response.warc"
sees "those of the page" "com,example)/ 20160919172024 $capture" "" \
    0 query "url=example.com&fl=$fields" response.cdxj

row "\`query: BadFilter\`"
refuses BadFilter "url=example.com&filter=200" "url=example.com&filter=status:200"

row "\`INDEX: command not found\`, and \`required arguments were not provided\`"
mkdir bin
ln -s "$program" bin/warcdx
in_bash() { # COMMAND: waits for what it starts in the background
    env PATH="$work/bin:/usr/bin:/bin" bash -c "$1; wait"
}
unquoted="warcdx query url=example.com&limit=1 response.cdxj"
shows "the shell" "response.cdxj: command not found" in_bash "$unquoted"
shows "the program" "required arguments were not provided" in_bash "$unquoted"
prints "with quotes" 0 in_bash "warcdx query 'url=example.com&limit=1&fl=offset' response.cdxj"

row "\`isn't UTF-8\`"
mkdir names
touch names/$'\xff.warc' names/é.warc
not_utf_8() {
    (cd names && printf '%s\n' *.warc | LC_ALL=C.UTF-8 grep -axv '.*')
}
shows "the message" "isn't UTF-8" "$program" index names/*
prints "the command that finds it" $'\xff.warc' not_utf_8

row "\`cannot open\`; \`CannotOpen\` in Python"
prints "no file" $'warcdx: nosuch: cannot open\n  No such file or directory (os error 2)' "$program" check nosuch

row "\`Read\`, or \`Input\` for standard input"
mkdir folders
prints "a folder" $'warcdx: folders: Read\n  It is a folder: of an index of warcdx-update, name its current/*.cdxj.' "$program" check folders
# shellcheck disable=SC2016 # the other shell expands it
shows "Input of serve" "Input" bash -c '"$1" serve response.cdxj < folders' bash "$program"

row "\`cannot flush\` or \`Write\`, with \`No space left on device\`; \`CannotFlush\` in Python"
on_full_disk() {
    "$program" check response.cdxj > /dev/full
}
prints "a full disk" $'warcdx: cannot flush\n  No space left on device (os error 28)' on_full_disk

row "\`Memory\`"
{ printf 'k 20160101000000 {"offset": "0", "filename": "f", "x": "' && head -c 10000000 /dev/zero | tr '\0' a && echo '"}'; } > large.cdxj
with_little_memory() {
    ulimit -v 12000
    "$program" check large.cdxj
}
shows "a limit of memory" "warcdx: Memory" with_little_memory

row "Messages come before the output of earlier arguments"
on_terminal() { # ARGUMENT..
    python3 -c 'import pty, sys; pty.spawn(sys.argv[1:])' "$program" "$@"
}
missing="warcdx: missing: cannot open"
prints "on a terminal" "$missing"$'\r\n  No such file or directory (os error 2)\r\nresponse.cdxj 1\r' on_terminal check response.cdxj missing
sees "apart" "response.cdxj 1" "$missing" 3 check response.cdxj missing

row "\`warcdx: Write\` in front of \`head\`"
repeated 20000 < response.warc > many.warc
in_front_of_head() {
    { "$program" list many.warc | head --lines=1; } 2> said
    cat said # and not as the two happen to write
}
prints "the message" $'0 264 response\nwarcdx: Write\n  Broken pipe (os error 32)' in_front_of_head

source "$root/tests/cli/troubleshooting_python.sh"

sed -n -e '/^| What you see/d' -e '/^|---/d' -e 's/^| \([^|]*\) | .*/\1/p' "$page" > page-rows
expect_file "each row is here" page-rows rows
end_script
