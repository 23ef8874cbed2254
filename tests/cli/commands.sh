#!/usr/bin/env bash
# Runs the commands of warcdx on small archives and indexes, and compares what they print and their exit status with the tables in this file.
#
# usage: commands.sh [PROGRAM]
#
# Prints a line for each case, and the counts. The exit status is 0, or 1 if a case differs. arguments.sh tests help and usage errors. Needs python3, and Debian's
# package bsdutils.
set -euo pipefail

source "$(dirname "$0")/../program.sh"
read_program "$@"
source "$(dirname "$0")/check_functions.sh"
source "$root/tests/cli/small_files.sh"
ulimit -S -n 4096 # some cases have more indexes than the 1,024 files that are usual

one="0 177 resource"
two=$(lines same.warc: "$one" absent.warc: "0 174 resource")
twice=$(lines -: "$one" -:)
cut=$(lines cut.warc: "$one" "fault 177 ShortHead")
cut_first=$(lines "$cut" same.warc: "$one")
folder_first=$(lines folder: "fault 0 Read" same.warc: "$one")
missing="warcdx: missing: cannot open"

#     case                              output           error             status, arguments and input
check "no arguments"                    "$one"           ""                0 < same.warc
check "-"                               "$one"           ""                0 list - < same.warc

# `script` runs a command at a terminal, whose input ends after this byte.
at_terminal() { # CASE WANTED [ARGUMENT..]
    script --quiet --command "$(printf '%q ' "$program" "${@:3}") 2> said" /dev/null <<< $'\004' > /dev/null
    expect "$1" "$2" "$(cat said)"
}

at_terminal "no arguments at a terminal" "warcdx: reading a WARC file from the terminal; see 'warcdx --help'"
at_terminal "- at a terminal"            "" list -

check "an archive"                      "$one"           ""                0 list same.warc
check "a name after ./"                 "$one"           ""                0 list ./-dash.warc
check "names of commands as names"      ""  "$(lines "warcdx: list: cannot open" "warcdx: get: cannot open")" 3 list list get
check "two archives"                    "$two"           ""                0 list same.warc absent.warc
check "- twice"                         "$twice"         ""                0 list - - < same.warc
check "a missing file"                  ""               "$missing"        3 list missing
check "a missing file among good ones"  "$two"           "$missing"        3 list same.warc missing absent.warc
check "two missing files"  "" "$(lines "$missing" "$missing")"             3 list missing missing
check "an empty name"      "" "warcdx: : cannot open"                      3 list ""
check "a fault in the first of two"     "$cut_first"     ""                1 list cut.warc same.warc
check "a fault, and a missing file"     "$cut"           "$missing"        3 list cut.warc missing
check "a folder"                        "fault 0 Read"   ""                3 list folder
check "a folder, and a good archive"    "$folder_first"  ""                3 list folder same.warc

check "a head of 1,048,576 bytes"       "0 1048583 resource"  ""           0 list head.warc
check "a head of 1,048,577 bytes"       "fault 0 HeadTooLong" ""           1 list long_head.warc

each=$(lines "0 same" "177 differs" "354 absent" "528 same" "705 not-sha1" "890 not-sha1")
differs_first=$(lines differs.warc: "0 differs" same.warc: "0 same")
cut=$(lines cut.warc: "0 same" "fault 177 ShortHead")
cut_first=$(lines "$cut" differs.warc: "0 differs")

check "verify: same"                    "0 same"         ""                0 verify same.warc
check "verify: differs"                 "0 differs"      ""                1 verify differs.warc
check "verify: absent"                  "0 absent"       ""                0 verify absent.warc
check "verify: each verdict"            "$each"          ""                1 verify each.warc
check "verify: -"                       "$each"          ""                1 verify - < each.warc
check "verify: differs, then same"      "$differs_first" ""                1 verify differs.warc same.warc
check "verify: a fault, then differs"   "$cut_first"     ""                1 verify cut.warc differs.warc
check "verify: a fault, then missing"   "$cut"           "$missing"        3 verify cut.warc missing
check "verify: a missing file"          ""               "$missing"        3 verify missing
check "verify: differs, then missing" "$(lines differs.warc: "0 differs")" "$missing" 3 verify differs.warc missing

of_r=$(capture r 0 r.warc)
of_both=$(capture q 158 both.warc; capture r 0 both.warc)
of_two=$(lines "$of_both" "$of_r")
of_torn=$(capture q 158 torn.warc; capture r 0 torn.warc)
torn_first=$(capture q 158 torn.warc; capture r 0 r.warc; capture r 0 torn.warc)
of_input=$(capture r 0 -)
of_escaped=$(capture r 0 'r\n.warc'; capture r 0 'r\".warc'; capture r 0 r.warc; capture r 0 'r\\.warc')
input_among=$(capture q 158 both.warc; capture r 0 -; capture r 0 both.warc)
torn="warcdx: torn.warc: fault 316 ShortHead"

check "index: an archive"               "$of_r"          ""                0 index r.warc
check "index: by keys"                  "$of_both"       ""                0 index both.warc
check "index: two archives"             "$of_two"        ""                0 index r.warc both.warc
check "index: no captures"              ""               ""                0 index same.warc empty.warc
check "index: -"                        "$of_input"      ""                0 index - < r.warc
check "index: - among others"           "$input_among"   ""                0 index both.warc - < r.warc
check "index: - twice"    "$of_input"  "warcdx: -: DuplicateName"          1 index - - < r.warc
check "index: names with escapes"       "$of_escaped"    ""                0 index 'r\.warc' r.warc 'r".warc' $'r\n.warc'
check "index: a missing file"           ""               "$missing"        3 index missing
check "index: a missing file among good ones"  "$of_two" "$missing"        3 index r.warc missing both.warc
check "index: a fault"                  "$of_torn"       "$torn"           1 index torn.warc
check "index: a fault in the first of two"  "$torn_first" "$torn"          1 index torn.warc r.warc
check "index: a fault, then missing" "$of_torn" "$(lines "$torn" "$missing")" 3 index torn.warc missing
check "index: a file name twice" "$of_r" "warcdx: folder/r.warc: DuplicateName" 1 index r.warc folder/r.warc
check "index: a damaged archive's name again" "$of_torn" "$(lines "$torn" "warcdx: torn.warc: DuplicateName")" 1 index torn.warc torn.warc
check "index: a missing file's name again" "$of_r" "warcdx: missing/r.warc: cannot open" 3 index missing/r.warc r.warc
check "index: a folder"                 ""   "warcdx: folder: fault 0 Read" 3 index folder
check "index: a folder, and a good archive" "$of_r" "warcdx: folder: fault 0 Read" 3 index folder r.warc
check "index: a folder without a name"  "$of_r" "warcdx: folder/: BadName" 1 index folder/ r.warc
check "index: an empty name"            ""      "warcdx: : cannot open"    3 index ""

of_metadata=$(capture r 0 m.warc)
of_both_types=$(capture r 0 m.warc; capture r 0 r.warc)

check "index: of the usual types"       ""               ""                0 index m.warc
check "index: --types"                  "$of_metadata"   ""                0 index --types metadata m.warc r.warc
check "index: --types, two"             "$of_both_types" ""                0 index --types resource,metadata r.warc m.warc
check "index: --types, others"          ""               ""                0 index --types response,conversion r.warc m.warc
check "index: --types, a fault"         "$of_torn"       "$torn"           1 index --types revisit,resource torn.warc
check "index: --types, -"               "$of_input"      ""                0 index --types resource - < r.warc
check "index: --name of a path"                "$of_r"          ""                0 index --name x/r.warc - < r.warc
check "index: --name after --types"     "$of_metadata"   ""                0 index --types metadata --name x/m.warc - < m.warc
check "index: --name before --types"    "$of_metadata"   ""                0 index --name x/m.warc --types metadata - < m.warc
check "index: --name, a file's too"     "$of_r" "warcdx: -: DuplicateName" 1 index --name r.warc r.warc - < m.warc
check "index: --name of a folder"       ""      "warcdx: -: BadName"       1 index --name folder/ - < r.warc
check "index: --name of -"              "$of_input"      ""                0 index --name - - < r.warc
check "index: --name, damage"           "$of_torn" "${torn/torn.warc/-}"   1 index --name x/torn.warc - < torn.warc
check "index: a head of 1,048,577 bytes" "" "warcdx: long_head.warc: fault 0 HeadTooLong" 1 index head.warc long_head.warc

# A record ends with LF, which the comparing adds.
q=$(< q.warc)
r=$(< r.warc)
none="warcdx: r.warc: NoRecord"

check "get: the first record"           "$r"             ""                0 get 0 both.warc
check "get: the second record"          "$q"             ""                0 get 158 both.warc
check "get: zeros before the offset"    "$q"             ""                0 get 0000000000000000158 both.warc
check "get: -"                          "$q"             ""                0 get 158 - < both.warc
check "get: before a fault"             "$q"             ""                0 get 158 torn.warc
check "get: inside a record"            ""               "$none"           1 get 1 r.warc
check "get: at the end"                 ""               "$none"           1 get 158 r.warc
check "get: behind the end"             ""               "$none"           1 get 9223372036854775807 r.warc
check "get: of nothing"     "" "warcdx: empty.warc: NoRecord"              1 get 0 empty.warc
check "get: a fault"                    ""               "$torn"           1 get 316 torn.warc
check "get: behind a fault"             ""               "$torn"           1 get 400 torn.warc
check "get: a missing file"             ""               "$missing"        3 get 0 missing
check "get: a folder"       "" "warcdx: folder: fault 0 Read"              3 get 0 folder

here="warcdx: both.warc: NoRecord"
check "get --length: the first record"  "$r"             ""                0 get --length 158 0 both.warc
check "get --length: the second record" "$q"             ""                0 get --length 158 158 both.warc
check "get --length: zeros before it"   "$q"             ""                0 get --length 00158 158 both.warc
check "get --length: -"                 "$q"             ""                0 get --length 158 158 - < both.warc
check "get --length: before a fault"    "$q"             ""                0 get --length 158 158 torn.warc
check "get --length: another length"    ""               "$here"           1 get --length 157 158 both.warc
check "get --length: no length"         ""               "$here"           1 get --length 0 158 both.warc
check "get --length: of both records"   ""               "$here"           1 get --length 316 0 both.warc
check "get --length: at the end"        ""               "$here"           1 get --length 158 316 both.warc
check "get --length: behind the end"    ""  "$here"  1 get --length 158 9223372036854775807 both.warc
check "get --length: inside a record" "" "warcdx: both.warc: fault 1 Version" 1 get --length 157 1 both.warc
check "get --length: a fault"           ""               "$torn"           1 get --length 158 316 torn.warc
check "get --length: a missing file"    ""               "$missing"        3 get --length 158 0 missing
check "get --length: a folder"          "" "warcdx: folder: fault 0 Read"  3 get --length 158 0 folder

first=$(head --lines=1 bad.cdxj | wc --bytes)
falling="warcdx: falling.cdxj: OutOfOrder $(head --lines=1 falling.cdxj | wc --bytes)"
bad="warcdx: bad.cdxj: BadLine $first"
both_checked=$(lines "sorted.cdxj 2" "unended.cdxj 2")

sorted=$(< sorted.cdxj)
check "merge: an index"                 "$sorted"        ""                0 merge sorted.cdxj
check "merge: an index twice"           "$sorted"        ""                0 merge sorted.cdxj unended.cdxj
check "merge: empty indexes"            ""               ""                0 merge empty.warc empty.warc
check "merge: out of order"             ""               "$falling"        1 merge falling.cdxj
check "merge: a missing file"           ""               "$missing"        3 merge sorted.cdxj missing falling.cdxj
check "merge: a folder"                 "" "warcdx: folder: Read"          3 merge sorted.cdxj folder
check "merge: - is a file's name"       ""  "warcdx: -: cannot open"       3 merge - < sorted.cdxj

check "check: an index"                 "sorted.cdxj 2"  ""                0 check sorted.cdxj
check "check: two indexes"              "$both_checked"  ""                0 check sorted.cdxj unended.cdxj
check "check: an empty index"           "empty.warc 0"   ""                0 check empty.warc
check "check: out of order"             ""               "$falling"        1 check falling.cdxj
check "check: a bad line"               ""               "$bad"            1 check bad.cdxj
check "check: an archive"  "" "warcdx: r.warc: BadLine 0"                  1 check r.warc
check "check: a fault in the first of two"  "sorted.cdxj 2" "$falling"     1 check falling.cdxj sorted.cdxj
check "check: two faults"  "" "$(lines "$bad" "$falling")"                 1 check bad.cdxj falling.cdxj
check "check: a fault, then missing" "" "$(lines "$bad" "$missing")"       3 check bad.cdxj missing
check "check: a missing file among good ones" "$both_checked" "$missing"   3 check sorted.cdxj missing unended.cdxj
check "check: a folder"                 ""  "warcdx: folder: Read"         3 check folder
check "check: a folder, and an index"   "sorted.cdxj 2" "warcdx: folder: Read" 3 check folder sorted.cdxj
check "check: - is a file's name"       ""  "warcdx: -: cannot open"       3 check - < sorted.cdxj
check "check: a line of 16,777,216 bytes" "line.cdxj 1"  ""                0 check line.cdxj
check "check: a line of 16,777,217 bytes" "" "warcdx: long_line.cdxj: BadLine 0"  1 check long_line.cdxj
check "check: as many without a line feed" "" "warcdx: open_line.cdxj: BadLine 0" 1 check open_line.cdxj
check "merge: a line of 16,777,217 bytes" "" "warcdx: long_line.cdxj: BadLine 0"  1 merge line.cdxj long_line.cdxj
check "query: a line of 16,777,216 bytes" 7              ""                0 query "key=k&fl=offset" line.cdxj
check "query: a line of 16,777,217 bytes" "" "warcdx: long_line.cdxj: BadLine 0"  1 query "key=k&fl=offset" long_line.cdxj

apart=(10.cdxj 20.cdxj 5.cdxj)
of_p="url=example.com/p&fl=filename,offset"
each_p=$(lines "a.warc 5" "a.warc 20" "b.warc 10")
key_5="com%2Cexample%29%2Fp+20160919172024+a.warc+5"
key_20="com%2Cexample%29%2Fp+20160919172024+a.warc+20"
first_p=$(lines "a.warc 5" "" "$key_5")
json_p=$(lines '[["filename","offset"],' '["a.warc","5"],' '[],' "[\"$key_5\"]]")
no_rows='[["urlkey","timestamp","original","mimetype","statuscode","digest","length"]]'
first_of_all=$(head --lines=1 sorted.cdxj)
usual="com,example)/q 20160919172024 http://example.com/q - - $abc 158"
mapfile -t too_many < <(repeated 1025 <<< empty.warc)
at_limit=("${too_many[@]:1}")

check "query: a key"                    "$usual"         ""                0 query url=example.com/q sorted.cdxj
check "query: a prefix"                 "$sorted"        ""                0 query "url=example.com/*&output=cdxj" sorted.cdxj
check "query: three indexes"            "$each_p"        ""                0 query "$of_p" "${apart[@]}"
check "query: a limit"                  "a.warc 5"       ""                0 query "$of_p&limit=1" "${apart[@]}"
check "query: a resume key"             "$first_p"       ""                0 query "$of_p&limit=1&showResumeKey=true" "${apart[@]}"
check "query: from a resume key"        "$(lines "a.warc 20" "b.warc 10")" "" 0 query "$of_p&resumeKey=$key_5" "${apart[@]}"
check "query: json"                     "$json_p"        ""                0 query "$of_p&output=json&limit=1&showResumeKey=true" "${apart[@]}"
check "query: by key"                   "a.warc 5"       ""                0 query "$of_p&collapse=urlkey" "${apart[@]}"
check "query: by time, of all keys"     "$first_of_all"  ""                0 query "url=example.com/*&output=cdxj&collapse=timestamp:4" sorted.cdxj
check "query: by time, from a resume key" ""             ""                0 query "$of_p&collapse=timestamp&resumeKey=$key_5" "${apart[@]}"
check "query: a bad collapse"   "" "warcdx: query: BadCollapse"            1 query "url=a&collapse=digest" sorted.cdxj
check "query: nothing"                  ""               ""                0 query url=example.org sorted.cdxj
check "query: nothing, json"            "$no_rows"       ""                0 query "url=example.org&output=json" sorted.cdxj
check "query: an index twice"           "$usual"         ""                0 query url=example.com/q sorted.cdxj unended.cdxj
check "query: an empty index"           ""               ""                0 query url=example.com/q empty.warc
check "query: 1,024 indexes"            ""               ""                0 query url=example.com/q "${at_limit[@]}"
check "query: 1,025 indexes"      "" "warcdx: TooManySources"              1 query url=example.com/q "${too_many[@]}"
check "query: a refused query"    "" "warcdx: query: BadLimit"             1 query "url=a&limit=0" sorted.cdxj
check "query: an empty query"     "" "warcdx: query: NoUrl"                1 query "" sorted.cdxj
check "query: refused, and missing" "" "warcdx: query: Unknown"            1 query page=0 missing
check "query: out of order"             ""               "$falling"        1 query "key=&matchType=prefix" falling.cdxj
check "query: a bad line"               ""               "$bad"            1 query "key=&matchType=prefix" bad.cdxj
check "query: a fault in the second"    ""               "$bad"            1 query "url=example.com/*" sorted.cdxj bad.cdxj
check "query: an archive"  "" "warcdx: r.warc: BadLine 0"                  1 query "key=&matchType=prefix" r.warc
check "query: a missing file"           ""               "$missing"        3 query "url=example.com/q" sorted.cdxj missing falling.cdxj
check "query: missing, before too many" ""               "$missing"        3 query url=example.com/q missing "${at_limit[@]}"
check "query: a folder"    "" "warcdx: folder: Read"                       3 query url=example.com/q sorted.cdxj folder
check "query: - is a file's name"  "" "warcdx: -: cannot open"             3 query url=example.com/q - < sorted.cdxj

two_pages=$(lines "a.warc 5" "" "$key_5" "a.warc 20" "b.warc 10")
of_two_and_one=$(lines "a.warc 5" "a.warc 20" "" "$key_20" "b.warc 10")
json_pages=$(lines '[["offset"],' '["5"],' '["20"],' '[],' "[\"$key_20\"]]" '[["offset"],' '["10"]]')

check "pages: of one and two"           "$two_pages"     ""                0 pages 1,2 "$of_p" "${apart[@]}"
check "pages: of two"                   "$of_two_and_one" ""               0 pages 2 "$of_p" "${apart[@]}"
check "pages: one"                      "$each_p"        ""                0 pages 1000000 "$of_p" "${apart[@]}"
check "pages: a limit isn't used"       "$each_p"        ""                0 pages 0000003 "$of_p&limit=1&showResumeKey=true" "${apart[@]}"
check "pages: from a resume key"        "b.warc 10"      ""                0 pages 2 "$of_p&resumeKey=$key_20" "${apart[@]}"
check "pages: by key"                   "a.warc 5"       ""                0 pages 1 "$of_p&collapse=urlkey" "${apart[@]}"
check "pages: json"                     "$json_pages"    ""                0 pages 2 "url=example.com/p&output=json&fl=offset" "${apart[@]}"
check "pages: of 1,000 sizes"           "$each_p" "" 0 pages "$(printf '9,%.0s' {1..999})9" "$of_p" "${apart[@]}"
check "pages: nothing"                  ""               ""                0 pages 1 url=example.org sorted.cdxj
check "pages: nothing, json"            "$no_rows"       ""                0 pages 1 "url=example.org&output=json" sorted.cdxj
check "pages: 1,025 indexes"      "" "warcdx: TooManySources"              1 pages 1 url=example.com/q "${too_many[@]}"
check "pages: a refused query"    "" "warcdx: query: BadUrl"               1 pages 1 "url=" missing
check "pages: out of order"             ""               "$falling"        1 pages 1 "key=&matchType=prefix" falling.cdxj
check "pages: a missing file"           ""               "$missing"        3 pages 1 "url=example.com/q" missing sorted.cdxj
check "pages: a folder"    "" "warcdx: folder: Read"                       3 pages 1 url=example.com/q folder

asked="url=example.com/p&fl=offset" # one key, and captures of it
all="key=&matchType=prefix&fl=offset"
replies=$(lines 5 20 10 . "refused BadLimit" . .)
keyed=$(lines "a.warc 5" "" "$key_5" .)
falls=$(lines "" "fault OutOfOrder 0 ${falling##* }" .)
second_bad=$(lines 5 "" "fault BadLine 1 $first" . 5 .)
second=$(wc --bytes < sorted.cdxj)
breaks_off=$(lines 0 "" "fault BadLine 0 $second" . '[["offset"],' '["0"]' "fault BadLine 0 $second" . 0 .)
too_long=$(lines "refused QueryTooLong" . "refused QueryTooLong" . .)

check "serve: a reply to each line"     "$replies"       ""                0 serve "${apart[@]}" < <(printf '%s\nlimit=0\nkey=x' "$asked")
check "serve: CR LF"                    "$replies"       ""                0 serve "${apart[@]}" < <(printf '%s\r\nlimit=0\r\nkey=x\r' "$asked")
check "serve: one CR is dropped" "$(lines "refused BadOutput" .)" ""       0 serve "${apart[@]}" <<< $'key=x&output=text\r\r'
check "serve: no lines"                 ""               ""                0 serve sorted.cdxj < empty.warc
check "serve: empty lines" "$(lines "refused NoUrl" . "refused NoUrl" .)" "" 0 serve sorted.cdxj < <(printf '\n\n')
check "serve: a resume key"             "$keyed"         ""                0 serve "${apart[@]}" <<< "$of_p&limit=1&showResumeKey=true"
check "serve: from a resume key"        "$(lines 20 10 .)" ""              0 serve "${apart[@]}" <<< "$asked&resumeKey=$key_5"
check "serve: by key" "$(lines 5 . "refused BadCollapse" .)" ""            0 serve "${apart[@]}" < <(printf '%s&collapse=urlkey\nkey=x&collapse=timestamp:15\n' "$asked")
check "serve: cdxj"                     "$(lines "$sorted" .)" ""          0 serve sorted.cdxj <<< "url=example.com/*&output=cdxj"
check "serve: json" "$(lines "$json_p" .)" "" 0 serve "${apart[@]}" <<< "$of_p&output=json&limit=1&showResumeKey=true"
check "serve: nothing, json" "$(lines "$no_rows" .)" "" 0 serve sorted.cdxj <<< "url=example.org&output=json"
check "serve: an empty index"           .                ""                0 serve empty.warc <<< key=x
check "serve: 65,536 bytes"             "$(lines "refused Unknown" .)" ""  0 serve sorted.cdxj < <(printf a | repeated 65536)
check "serve: 65,536 bytes, CR LF"      "$(lines "refused Unknown" .)" ""  0 serve sorted.cdxj < <(printf a | repeated 65536; printf '\r\n')
check "serve: over 65,536 bytes" "$too_long" "" 0 serve sorted.cdxj < <(printf a | repeated 65537; echo; printf '\xff' | repeated 1000000; printf '\nkey=x\n')
check "serve: not UTF-8" "$(lines "refused NotText" . .)" ""               0 serve sorted.cdxj < <(printf 'key=\xff\nkey=x\n')
check "serve: out of order"             "$falls"         ""                0 serve falling.cdxj <<< "$all"
check "serve: goes on after a fault"    "$second_bad"    ""                0 serve 5.cdxj bad.cdxj < <(lines "$all" "$asked")
check "serve: what was written stands"  "$breaks_off"    ""                0 serve late.cdxj < <(lines "$all" "$all&output=json" "url=example.com/q&fl=offset")
check "serve: 1,024 indexes"            .                ""                0 serve "${at_limit[@]}" <<< key=x
check "serve: 1,025 indexes"      "" "warcdx: TooManySources"              1 serve "${too_many[@]}"
check "serve: a missing file"           ""               "$missing"        3 serve sorted.cdxj missing
check "serve: missing, before too many" ""               "$missing"        3 serve missing "${at_limit[@]}"
check "serve: a folder"    "" "warcdx: folder: Read"                       3 serve sorted.cdxj folder <<< key=x
check "serve: - is a file's name"  "" "warcdx: -: cannot open"             3 serve - <<< key=x
check "serve: the input is a folder"  "" "warcdx: Input"                   3 serve sorted.cdxj < folder

of_archives="url=example.com/*&fl=urlkey,filename,offset"
scanned=$(lines "com,example)/q both.warc 158" "com,example)/r both.warc 0" "com,example)/r r.warc 0")
key_q="com%2Cexample%29%2Fq+20160919172024+both.warc+158"
scanned_pages=$(lines "com,example)/q both.warc 158" "" "$key_q" "com,example)/r both.warc 0" "com,example)/r r.warc 0")
scanned_on=$(lines "com,example)/r both.warc 0" "com,example)/r r.warc 0")
scanned_keys=$(lines "com,example)/q both.warc 158" "" "$key_q" "com,example)/r both.warc 0")
scanned_types=$(lines "com,example)/r m.warc 0" "com,example)/r r.warc 0")
twice_r="warcdx: folder/r.warc: DuplicateName"

check "scan: two archives"              "$scanned"       ""                0 scan 9 "$of_archives" r.warc both.warc
check "scan: pages"                     "$scanned_pages" ""                0 scan 1,2 "$of_archives" r.warc both.warc
check "scan: from a resume key"         "$scanned_on"    ""                0 scan 9 "$of_archives&resumeKey=$key_q" r.warc both.warc
check "scan: by key"                    "$scanned_keys"  ""                0 scan 1 "$of_archives&collapse=urlkey" r.warc both.warc
check "scan: cdxj"                      "$of_both"       ""                0 scan 9 "url=example.com/*&output=cdxj" both.warc
check "scan: -"                         "com,example)/r - 0" ""            0 scan 9 "$of_archives" - < r.warc
check "scan: nothing"                   ""               ""                0 scan 1 url=example.org same.warc empty.warc r.warc
check "scan: nothing, json"             "$no_rows"       ""                0 scan 1 "url=example.org&output=json" empty.warc
check "scan: a fault"                   ""               "$torn"           1 scan 1 "$of_archives" r.warc torn.warc
check "scan: the first fault ends it"   ""               "$torn"           1 scan 1 "$of_archives" torn.warc folder r.warc r.warc
check "scan: a file name twice"         ""               "$twice_r"        1 scan 1 "$of_archives" r.warc folder/r.warc
check "scan: - twice"            "" "warcdx: -: DuplicateName"             1 scan 1 "$of_archives" - - < r.warc
check "scan: a folder"           "" "warcdx: folder: fault 0 Read"         3 scan 1 "$of_archives" r.warc folder
check "scan: a folder without a name"  "" "warcdx: folder/: BadName"       1 scan 1 "$of_archives" r.warc folder/
check "scan: 1,024 archives"     "" "warcdx: empty.warc: DuplicateName"    1 scan 1 "$of_archives" "${at_limit[@]}"
check "scan: 1,025 archives"     "" "warcdx: TooManySources"               1 scan 1 "$of_archives" "${too_many[@]}"
check "scan: a refused query"    "" "warcdx: query: BadUrl"                1 scan 1 url= missing
check "scan: a missing file"            ""               "$missing"        3 scan 1 "$of_archives" torn.warc missing
check "scan: missing, before too many"  ""               "$missing"        3 scan 1 "$of_archives" missing "${too_many[@]}"

check "scan: of the usual types"        ""               ""                0 scan 9 "$of_archives" m.warc
check "scan: --types"            "com,example)/r m.warc 0" ""              0 scan --types metadata 9 "$of_archives" m.warc r.warc
check "scan: --types, two"              "$scanned_types" ""                0 scan --types metadata,resource 9 "$of_archives" r.warc m.warc
check "scan: --name"             "com,example)/r m.warc 0" ""              0 scan --types metadata --name x/m.warc 9 "$of_archives" - < m.warc
check "scan: --types, a refused query"  "" "warcdx: query: BadUrl"         1 scan --types metadata 1 url= missing

# The second line of a message, of which docs/COMMANDS.md says only that it may follow.
gzip --no-name --stdout r.warc > r.warc.gz
gzip --no-name --stdout sorted.cdxj > sorted.cdxj.gz
mkfifo pipe
printf 'PK\003\004' > crawl.wacz
printf ' CDX N b a m s k r M S V g\n' > crawl.cdx
printf '\357\273\277%s' "$(< r.warc)" > marked.warc
printf '\357\273\277' | cat - sorted.cdxj > marked.cdxj
echo text > forged
printf '\050\265\057\375' > r.warc.zst
printf ']*M\030' > dictionary.warc.zst
printf 'WARC/1.1\nWARC-Type: response\n\n' > unix.warc
printf 'filedesc://a.arc 0.0.0.0 20000101000000 text/plain 77\n' > a.arc
printf '<!DOCTYPE html>\n' > page.html
printf 'WARC/0.18\r\n' > old.warc
printf 'BZh9' > r.bz2
printf '\3757zXZ\000' > r.xz
printf '\377\376{\000' > wide
printf '{"url": "http://a/"}\n' | tee folder/manifest.json > objects
printf '!meta {"format": "1"}\n' > headed
printf '{\n  "log": {\n' > browser.har
printf '{"log":{' > small.har
printf 'com,a)/\t20200101000000\t{"url": "http://a/"}\n' > tabbed
advises "why: no such file"         "No such file or directory (os error 2)"                            3 index missing
advises "why: an archive of gzip"   "It is compressed by gzip: warcdx-gz reads .warc.gz files."         1 index r.warc.gz
advises "why: not a WARC file"      "No record begins there: its first line isn't WARC/1.0 or WARC/1.1." 1 index forged
advises "why: an archive of zstd"   "It is compressed by zstd: decompress it first."                    1 index r.warc.zst
advises "why: one of zstd with a dictionary" "It is compressed by zstd with the dictionary in its first frame: decompress it by zstd -D first." 1 index dictionary.warc.zst
for file in browser.har small.har; do
    advises "why: $file"            "It is a HAR file: convert it to a WARC file first, by har2warc."   1 index $file
done
advises "why: LF alone"             "Its first line ends with LF alone: a WARC file has CR LF after each line of a header." 1 index unix.warc
advises "why: an ARC file"          "It is an ARC file: convert it to a WARC file first."               1 index a.arc
advises "why: an HTML file"         "It seems to be an HTML or XML file, and not a WARC file."          1 index page.html
advises "why: an older version"     "It is a WARC file of a version before 1.0: convert it to WARC/1.0 first." 1 index old.warc
advises "why: an index as an archive" "It seems to be an index: warcdx query reads indexes."              1 index sorted.cdxj
advises "why: a ZIP file"           "It is a ZIP file, as a WACZ file is: unpack it, and index the WARC files in it." 1 index crawl.wacz
advises "why: a CDX file"           "It is a CDX file: warcdx-cdx from FILE | LC_ALL=C sort makes an index of it." 1 index crawl.cdx
advises "why: a byte order mark"    "It begins with a byte order mark: remove its first 3 bytes."       1 index marked.warc
advises "why: a folder"             "It is a folder: warcdx-update indexes the archives of a folder."   3 index folder
advises "why: a folder with /"      "It is a folder: warcdx-update indexes the archives of a folder."   1 index folder/
advises "why: a cut archive"        "The archive ends within a record's header."                        1 index torn.warc
advises "why: a file name twice"    "Another archive has this file name: rename one of them."           1 index r.warc folder/r.warc
advises "why: no record"            "No record begins at this offset, or it has another length: list prints the offsets." 1 get 1 r.warc
advises "why: no record of an index" "It seems to be an index: warcdx query reads indexes."              1 get --length 5 1 sorted.cdxj
advises "why: no record of gzip"    "It is compressed by gzip: warcdx-gz reads .warc.gz files."         1 get --length 5 1 r.warc.gz
advises "why: no record of any other file" "No record begins there: its first line isn't WARC/1.0 or WARC/1.1." 1 get --length 5 1 forged
advises "why: a folder as an index" "It is a folder: of an index of warcdx-update, name its current/*.cdxj." 3 check folder
advises "why: an index of gzip"     "It is compressed by gzip: decompress an index. Of an archive, warcdx-gz index makes one, and verify checks it." 1 check sorted.cdxj.gz
advises "why: an index of zstd"     "It is compressed by zstd: decompress it first."                    1 check r.warc.zst
for kind in index check; do
    advises "why: $kind of bzip2"   "It is compressed by bzip2: decompress it first."                   1 "$kind" r.bz2
    advises "why: $kind of xz"      "It is compressed by xz: decompress it first."                      1 "$kind" r.xz
    advises "why: $kind of UTF-16"  "It is a text in UTF-16: iconv -f UTF-16 -t UTF-8 converts it."     1 "$kind" wide
    advises "why: $kind of ARC"     "It is an ARC file: convert it to a WARC file first."               1 "$kind" a.arc
done
advises "why: objects as an index"  "Its first line is a JSON object alone: in an index, a URL key and a timestamp precede it." 1 check objects
advises "why: the list of an index" "It is the list of an index of warcdx-update, of which current/*.cdxj are the indexes." 1 check folder/manifest.json
advises "why: a header of an index" "A line that begins with ! is no capture: grep -v '^!' leaves such lines out." 1 check headed
advises "why: tabs in an index"     "In an index a space, and no tab, follows the URL key and the timestamp." 1 check tabbed
advises "why: HTML as an index"     "It seems to be an HTML or XML file, and not an index."             1 check page.html
advises "why: a bad line"           "The line that begins there isn't one of a CDXJ index."             1 check forged
advises "why: a WARC file as an index" "It is a WARC file: warcdx index makes an index of it, and warcdx verify checks it."          1 check r.warc
advises "why: a CDX file as an index" "It is a CDX file: warcdx-cdx from FILE | LC_ALL=C sort makes an index of it." 1 query url=a crawl.cdx
advises "why: a byte order mark before an index" "It begins with a byte order mark: remove its first 3 bytes." 1 check marked.cdxj
advises "why: a falling index"      "The index isn't in order: LC_ALL=C sort puts its lines in order."  1 check falling.cdxj
advises "why: 1,025 indexes"        "At most 1024 files are taken: merge the indexes of some of them first." 1 merge "${too_many[@]}"
parameters="A & in a URL is written as %26. The parameters are url, key, matchType, from, to, filter, is, isnot, has, hasnot, limit, resumeKey, \
showResumeKey, fl, output and collapse. warcdx-gateway has others too."
advises "why: an unknown parameter" "'x' isn't a parameter. $parameters"                                1 query "url=a&x=0" sorted.cdxj
for parameter in matchtype:matchType resumekey:resumeKey showresumekey:showResumeKey fields:fl status:filter=statuscode:TEXT mime:filter=mimetype:TEXT; do
    advises "why: ${parameter%%:*}" "'${parameter%%:*}' isn't a parameter, and ${parameter#*:} is. $parameters" 1 query "url=a&${parameter%%:*}=0" sorted.cdxj
done
advises "why: page"                 "'page' is for warcdx-gateway: warcdx pages writes all pages. $parameters" 1 query "url=a&page=0" sorted.cdxj
advises "why: sort"                 "'sort' is for warcdx-gateway: the order here is that of the index. $parameters" 1 query "url=a&sort=reverse" sorted.cdxj
advises "why: a field as a parameter" "'statuscode' is a field, for filter=FIELD:TEXT. $parameters"      1 query "url=a&statuscode=200" sorted.cdxj
for query in "url=a&%70age=0" $'url=a&x\nwarcdx: y: fault 0 Read=1'; do
    advises "why: $(head --lines=1 <<< "$query")" "$parameters"                                         1 query "$query" sorted.cdxj
done
for query in http://example.com/ sorted.cdxj; do
    advises "why: $query" "A query precedes the indexes, and a URL in it is written as url=example.com. $parameters" 1 query "$query" sorted.cdxj
done
advises "why: a ? before a query"   "A query begins behind the ? of a URL. $parameters"                 1 query "?url=a" sorted.cdxj
advises "why: &amp; in a query"     "Write & in place of &amp;. $parameters"                            1 query "url=a&amp;limit=1" sorted.cdxj
advises "why: standard input as an index" "An index is a file, because it is searched: write what a pipe has to a file first." 3 query url=a -
advises "why: a pattern" "filter takes a literal text, without \\ ^ \$ . | ? * + ( ) [ ] { }. For a part of a value, write has=FIELD:TEXT, and for a \
choice of values a query for each. warcdx-gateway takes patterns." \
    1 query "url=a&filter=statuscode:2.." sorted.cdxj
advises "why: a parameter twice"    "'limit' is given twice. Only filter, is, isnot, has and hasnot may be given more than once." 1 query "url=a&limit=1&limit=1" sorted.cdxj
advises "why: a condition and a parameter twice" "'limit' is given twice. Only filter, is, isnot, has and hasnot may be given more than once." \
    1 query "url=a&is=urlkey:a&limit=1&is=urlkey:a&limit=1" sorted.cdxj
advises "why: an unknown field"     "'urlkeys' isn't a field. fl is a list, with ',' and no space between, of urlkey, timestamp, original, mimetype, statuscode, digest, \
length, offset and filename." 1 query "url=a&fl=urlkey,urlkeys" sorted.cdxj
advises "why: a blank in fl"        "' original' isn't a field. fl is a list, with ',' and no space between, of urlkey, timestamp, original, mimetype, statuscode, digest, \
length, offset and filename." 1 query "url=a&fl=urlkey, original" sorted.cdxj
advises "why: no field"             "fl is a list, with ',' and no space between, of urlkey, timestamp, original, mimetype, statuscode, digest, length, offset and filename." \
    1 query "url=a&fl=ur%6cke" sorted.cdxj
condition="A condition is FIELD:TEXT, such as filter=statuscode:200. The fields are urlkey, timestamp, original, mimetype, statuscode, digest, length, \
offset and filename."
advises "why: a condition on no field" "'x' isn't a field. $condition"                                   1 query "url=a&isnot=urlkey:x&filter=!x:200" sorted.cdxj
for meant in status:statuscode mime:mimetype url:original; do
    advises "why: a condition on the member ${meant%:*}" "'${meant%:*}' isn't a field, and ${meant#*:} is. $condition" 1 query "url=a&is=${meant%:*}:x" sorted.cdxj
done
advises "why: a condition without a colon" "$condition"                                                 1 query "url=a&has=urlkey" sorted.cdxj
advises "why: a condition of pywb"  "pywb's filter==FIELD:TEXT is is=FIELD:TEXT here. $condition"      1 query "url=a&filter=!=status:200" sorted.cdxj
advises "why: a pattern of pywb" "pywb's filter=~FIELD:PATTERN is for warcdx-gateway: has=FIELD:TEXT finds a part of a value. $condition" \
    1 query "url=a&filter=~status:2.." sorted.cdxj
advises "why: another output"       "output is text, json or cdxj. docs/RECIPES.md makes CSV of json."   1 query "url=a&output=csv" sorted.cdxj
advises "why: a home folder in quotes" "A shell replaces ~ outside of quotes alone: No such file or directory (os error 2)" 3 list \~/a.warc
advises "why: a space behind a name" "Its name ends with a space: No such file or directory (os error 2)" 3 list "same.warc "
advises "why: a pattern without a file" "Its name is a pattern that no file matches: No such file or directory (os error 2)" 3 list 'missing-*.warc'
advises "why: a URL as a file" "Its name is a URL, and only files are read: No such file or directory (os error 2)" 3 list http://example.com/a.warc
part="It is a part of a query, which is one argument with & between its parameters. serve reads queries from standard input."
advises "why: a query in two arguments" "$part"                                                         3 query url=a fl=urlkey
advises "why: a query for serve"    "$part"                                                             3 serve url=a sorted.cdxj
advises "why: the last captures"    "limit is a number from 1 to 1000000. warcdx-gateway takes limit=-5 too, for the last five." 1 query "url=a&limit=-5" sorted.cdxj
advises "why: another collapse"     "collapse is urlkey, timestamp, or timestamp:N with N from 1 to 14. warcdx-gateway takes other fields too." 1 query "url=a&collapse=digest" sorted.cdxj
advises "why: an empty url"         "'url' is empty. url isn't a URL, or not one of the web where matchType is host or domain. A % is written as %25, a & as %26. \
key=&matchType=prefix selects all captures." 1 query "limit=1&url=" sorted.cdxj
advises "why: a date with dashes"   "from and to are 1 to 14 digits without - and :, such as 2016 or 20160919172024." 1 query "url=a&from=2016-09-19" sorted.cdxj
advises "why: no url"               "A query has a url or a key, such as url=example.com."              1 query "" sorted.cdxj

flush="warcdx: cannot flush"
write="warcdx: Write"

# What can reach a terminal, as docs/COMMANDS.md says: the name of a file, C1 controls, bidirectional marks, and DEL but in text.
forged=$'a 5\nforged.cdxj'
: > "$forged"
of_controls=$(printf 'http://example.com/\xc2\x9b7m\xe2\x80\xae')
delete=$'\x7f'
printf 'com,example)/ 20160919172024 {"url": "%s\\u001b%s",\t"offset": "0", "filename": "a.warc"}\r\n' "$of_controls" "$delete" > controls.cdxj
printf 'com,example)/ 20160919172024 {"url": "\x1b", "offset": "0", "filename": "a.warc"}\n' > escape.cdxj
check "a line feed in a name"           "$forged 0"      ""                0 check "$forged"
check "controls in a name"    "" "warcdx: "$'\e[31m: cannot open'          3 list $'\e[31m'
check "controls in an index, text" "$of_controls%1B%7F" ""                 0 query "url=example.com&fl=original" controls.cdxj
check "controls in an index, json" "$(lines '[["original"],' "[\"$of_controls\\u001b$delete\"]]")" "" 0 query "url=example.com&fl=original&output=json" controls.cdxj
check "controls in an index, cdxj" "$(< controls.cdxj)" ""                 0 query "url=example.com&output=cdxj" controls.cdxj
check "controls in an index, merge" "$(< controls.cdxj)" ""                0 merge controls.cdxj
check "a control that isn't escaped" "" "warcdx: escape.cdxj: BadLine 0"   1 check escape.cdxj

run full list same.warc || true
expect "why: a full disk, one line"   $'warcdx: cannot flush\n  No space left on device (os error 28)' "$(< error)"
run full list many.warc || true
expect "why: a full disk, many lines" $'warcdx: Write\n  No space left on device (os error 28)' "$(< error)"
run broken list many.warc || true
expect "why: no reader"               $'warcdx: Write\n  Broken pipe (os error 32)' "$(< error)"

for way in full closed broken; do
    check_into $way "$way: one line"       "" "$flush"                       3 list same.warc
    check_into $way "$way: many lines"     "" "$write"                       3 list many.warc
    check_into $way "$way: verify, one"    "" "$flush"                       3 verify same.warc
    check_into $way "$way: verify, many"   "" "$write"                       3 verify many.warc
    check_into $way "$way: a fault"        "" "$flush"                       3 list cut.warc
    check_into $way "$way: differs"        "" "$flush"                       3 verify differs.warc
    check_into $way "$way: missing first"  "" "$(lines "$missing" "$flush")" 3 list missing same.warc
    check_into $way "$way: Write ends it"  "" "$write"                       3 list many.warc missing
    check_into $way "$way: index, one"     "" "$flush"                       3 index r.warc
    check_into $way "$way: index, many"    "" "$write"                       3 index captures.warc
    check_into $way "$way: index, a fault" "" "$(lines "$torn" "$flush")"    3 index torn.warc
    check_into $way "$way: index, none"    "" ""                             0 index same.warc
    check_into $way "$way: merge"          "" "$flush"                       3 merge sorted.cdxj
    check_into $way "$way: check, one"     "" "$flush"                       3 check sorted.cdxj
    check_into $way "$way: check, a fault" "" "$bad"                         1 check bad.cdxj
    check_into $way "$way: query, short"   "" "$flush"                       3 query "$of_p" "${apart[@]}"
    check_into $way "$way: query, many"    "" "$write"                       3 query "url=example.com/*" many.cdxj
    check_into $way "$way: query, refused" "" "warcdx: query: BadUrl"        1 query url= missing
    check_into $way "$way: query, a fault" "" "$bad"                         1 query "key=&matchType=prefix" bad.cdxj
    check_into $way "$way: pages, short"   "" "$flush"                       3 pages 1 "$of_p" "${apart[@]}"
    check_into $way "$way: pages, many"    "" "$write"                       3 pages 10 "url=example.com/*" many.cdxj
    check_into $way "$way: serve, an empty page" "" "$write"                 3 serve sorted.cdxj <<< key=x
    check_into $way "$way: serve, refused" "" "$write"                       3 serve sorted.cdxj <<< ""
    check_into $way "$way: serve, many"    "" "$write"                       3 serve many.cdxj < <(lines "$all" "$all")
    check_into $way "$way: serve, no lines" "" ""                            0 serve sorted.cdxj < empty.warc
    check_into $way "$way: scan, short"    "" "$flush"                       3 scan 1 "$of_archives" r.warc
    check_into $way "$way: scan, many"     "" "$write"                       3 scan 1000 "$of_archives" captures.warc
    check_into $way "$way: scan, a fault"  "" "$torn"                        1 scan 1 "$of_archives" r.warc torn.warc
    check_into $way "$way: get, short"     "" "$flush"                       3 get 0 r.warc
    check_into $way "$way: get, long"      "" "$write"                       3 get 0 large.warc
    check_into $way "$way: get, none"      "" "$none"                        1 get 1 r.warc
done

# The second lines of messages on compressed archives.
read_packed
program=$packed
gzip --no-name --keep page.html
{ head --bytes=100 r.warc | gzip --no-name && tail --bytes=+101 r.warc | gzip --no-name; } > divided.warc.gz
cat r.warc r.warc | gzip --no-name > whole.warc.gz
{ cat r.warc.gz && echo; } > longer.warc.gz
{ cat r.warc.gz && head --bytes=-1 r.warc.gz; } > cut.warc.gz
divided="The member ends within its record. If the record goes on in the next member, pack the file again: gunzip it, then warcio recompress IN.warc OUT.warc.gz."
whole="Each record has to be a member of gzip of its own: warcio recompress IN.warc.gz OUT.warc.gz packs the file so."
advises "why: a page in a member"   "No record begins the member's text: its first line isn't WARC/1.0 or WARC/1.1. Convert an ARC file to a WARC file first, and decompress an index \
for warcdx query." 1 index page.html.gz
advises "why: a record in two members" "$divided"                                                       1 index divided.warc.gz
advises "why: records in one member" "$whole"                                                           1 index whole.warc.gz
advises "why: a line behind a member" "No member of gzip begins there: its first bytes aren't 1F 8B."   1 index longer.warc.gz
advises "why: a cut member"         "The archive ends within a member of gzip: copy it again, or wait until its crawler has closed it." 1 index cut.warc.gz
advises "why: not an archive of gzip" "No record begins there: its first line isn't WARC/1.0 or WARC/1.1." 1 index forged
advises "why: no record of a member" "No record begins at this offset, or it has another length: list prints the offsets." 1 get --length 5 0 r.warc.gz
advises "why: a plain archive that is cut" "The archive ends within a record's header."                 1 index torn.warc
end_script
