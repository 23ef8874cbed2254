# Small archives and indexes. commands.sh and arguments.sh source this file after check_functions.sh; it makes the files in the folder of that one.
# shellcheck shell=bash

# SHA-1 of "abc" (FIPS 180-4) and of the empty text, in base 32.
abc=VGMT4NSHA2AWVOR6EVYXQUGCNSONBWE5
nothing=3I42H3S6NNFQ2MSVX7XZKYAYSCX5QBYJ

make_archives() {
    resource "WARC-Block-Digest: sha1:$abc" > same.warc
    resource "WARC-Block-Digest: sha1:$nothing" > differs.warc
    resource "X-Block-Digest: sha1:$abc" > absent.warc
    {
        cat same.warc differs.warc absent.warc
        resource "WARC-Block-Digest: sha1:${abc,,}"
        resource "WARC-Block-Digest: sha1:A9993E364706816ABA3E25717850C26C9CD0D89D"
        resource "WARC-Block-Digest: md5:900150983CD24FB0D6963F7D28E17F72"
    } > each.warc
    head --bytes=300 each.warc > cut.warc
    # The reports on this one are longer than any buffer of the program.
    repeated 20000 < same.warc > many.warc
    cp same.warc ./-dash.warc
    mkdir folder

    # Records of 158 bytes that have a capture.
    resource "WARC-Target-URI: http://example.com/q" > q.warc
    resource "WARC-Target-URI: http://example.com/r" > r.warc
    cp r.warc folder
    for name in 'r".warc' 'r\.warc' $'r\n.warc'; do cp r.warc "$name"; done
    sed 's/^WARC-Type: resource/WARC-Type: metadata/' r.warc > m.warc
    cat r.warc q.warc > both.warc
    { cat both.warc; head --bytes=100 r.warc; } > torn.warc
    : > empty.warc
    {
        capture q 0 a.warc
        capture r 158 a.warc
    } > sorted.cdxj
    head --bytes=-1 sorted.cdxj > unended.cdxj
    {
        capture r 158 a.warc
        capture q 0 a.warc
    } > falling.cdxj
    {
        capture q 0 a.warc
        echo
    } > bad.cdxj
    {
        cat sorted.cdxj
        echo
    } > late.cdxj
    # Three captures of one key and stamp in an index each.
    capture p 10 b.warc > 10.cdxj
    capture p 20 a.warc > 20.cdxj
    capture p 5 a.warc > 5.cdxj
    # The answer from this one is longer than any buffer of the program.
    for number in {10000..12999}; do capture "$number" 0 a.warc; done > many.cdxj
    # The index of this one, and the record of the next, are longer than any buffer of the program.
    repeated 20000 < r.warc > captures.warc
    # Heads and lines at the limit, and one byte over it.
    long_head 1048576 > head.warc
    long_head 1048577 > long_head.warc
    long_line 16777216 > line.cdxj
    long_line 16777217 > long_line.cdxj
    head --bytes=-1 long_line.cdxj > open_line.cdxj
    {
        printf '%s\r\n' WARC/1.1 "WARC-Type: metadata" "WARC-Record-ID: <urn:x:2>" "WARC-Date: 2016-09-19T17:20:24Z" \
            "Content-Length: 100000" ""
        printf a | repeated 100000
        printf '\r\n\r\n'
    } > large.warc
}

resource() { # FIELD: a record with the block "abc"
    printf '%s\r\n' WARC/1.1 "WARC-Type: resource" "WARC-Record-ID: <urn:x:1>" "WARC-Date: 2016-09-19T17:20:24Z" \
        "$1" "Content-Length: 3" "" abc ""
}

long_head() { # BYTES: a record whose head has BYTES bytes; without the value of its last field it has 117
    resource "X: $(printf a | repeated $(($1 - 117)))"
}

long_line() { # BYTES: the line of a capture, its line feed among them
    local front='k 20160101000000 {"offset": 7, "filename": "a.warc", "x": "'
    printf '%s' "$front"
    printf a | repeated $(($1 - ${#front} - 3))
    echo '"}'
}

capture() { # PATH OFFSET NAME: the line of a capture
    echo "com,example)/$1 20160919172024 {\"url\": \"http://example.com/$1\", \"mime\": \"-\", \"status\": \"-\"," \
        "\"digest\": \"$abc\", \"length\": \"158\", \"offset\": \"$2\", \"filename\": \"$3\"}"
}

lines() {
    printf '%s\n' "$@"
}

make_archives
