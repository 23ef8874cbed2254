#!/usr/bin/env bash
# Runs warcdx with arguments that ask for help or are usage errors, and compares what it prints and its exit status with the tables in this file.
#
# usage: arguments.sh [PROGRAM]
#
# Prints a line for each case, and the counts. The exit status is 0, or 1 if a case differs. Needs python3.
set -euo pipefail

source "$(dirname "$0")/../program.sh"
read_program "$@"
source "$(dirname "$0")/check_functions.sh"
source "$root/tests/cli/small_files.sh"

refusal() { # ERROR USAGE
    lines "error: $1" "" "Usage: warcdx $2" "" "For more information, try '--help'."
}

tipped() { # WORD TIP
    lines "error: unrecognized subcommand '$1'" "" "  tip: $2" "" "For more information, try '--help'."
}

unknown() { # WORD
    tipped "$1" "the commands are list, verify, index, merge, check, query, pages, serve, get and scan"
}

file_first() { # WORD
    tipped "$1" "a command precedes the files, as in 'index FILE'"
}

no_offset() { # WORD
    invalid "$1" "<OFFSET>" "an offset is 1 to 19 digits, below 2^63, and precedes the archive; warcdx-fetch takes a URL"
}

no_sizes() { # WORD
    invalid "$1" "<SIZES>" "sizes are 1 to 1,000 numbers from 1 to 1,000,000, with ',' between, and precede the query"
}

no_types() { # WORD
    invalid "$1" "--types <TYPES>" "types are response, resource, revisit, conversion and metadata, each once at most, with ',' between"
}

no_length() { # WORD
    invalid "$1" "--length <LENGTH>" "a length is 1 to 19 digits, below 2^63"
}

invalid() { # WORD OPERAND RULE
    lines "error: invalid value '$1' for '$2': $3" "" "For more information, try '--help'."
}

not_utf8() { # ARGUMENT
    lines "error: $1 isn't UTF-8" "" "For more information, try '--help'."
}

length_behind() { # LENGTH
    lines "error: unexpected argument '$1'" "" "  tip: a length precedes the offset, as in 'get --length LENGTH OFFSET FILE'" "" \
        "For more information, try '--help'."
}

# Each takes an OPTION.
unexpected() { option "$1" "'--help' prints the options; a file whose name begins with '-' is written './-name'"; }
negative() { option "$1" "an offset, a length and a size are numbers without '-'"; }
no_version() { option "$1" "'--version' is the only argument"; }
misplaced() { option "$1" "'--types TYPES' stands once, directly after 'index' or 'scan'"; }
misplaced_name() { option "$1" "'--name NAME' stands once, directly after 'index', 'scan' or their '--types TYPES'"; }
misplaced_length() { option "$1" "'--length LENGTH' stands once, directly after 'get'"; }
misplaced_offset() { option "$1" "an offset is written alone, as in 'get OFFSET FILE'"; }
joined() { option "$1" "an option and its value are two arguments, as '--types response'"; }
to_file() { option "$1" "the output is standard output: write '> FILE' behind the command"; }
of_update() { option "$1" "'warcdx-update' indexes folders, several archives at a time"; }
of_query() { option "$1" "the parameters of a query stand in its text, as 'url=example.com&limit=5'"; }
sorted() { option "$1" "'index' and 'merge' write sorted lines"; }
verbose() { option "$1" "no option prints more; '-V' as the only argument prints the version"; }
quiet() { option "$1" "standard error has faults alone: write '2> FILE' behind the command"; }
of_format() { option "$1" "'index' writes CDXJ, and a query with 'output=json' JSON"; }
of_gateway() { option "$1" "warcdx-gateway answers over HTTP, and 'serve' line by line"; }
of_fetch() { option "$1" "warcdx-fetch writes the body of a page, by its URL"; }
no_command() { option "$1" "a command is written without '-', as in 'list FILE'"; }

option() { # OPTION TIP
    lines "error: unexpected option '$1'" "" "  tip: $2" "" "For more information, try '--help'."
}

# check_help CASE LINES ARGUMENT..
# Expects help that begins with these lines and has no line of more than 80 columns, and nothing on standard error.
check_help() {
    local case=$1 lines=$2 status=0
    shift 2
    run file "$@" || status=$?
    if [ "$status" = 0 ] && [[ $(< output) == "$lines"$'\n'* ]] && ! grep -q '.\{81\}' output && holds error ""; then
        say_ok "$case"
    else
        say_differs "$case" "$(printf 'status %s, %q, %q' "$status" "$(< output)" "$(< error)")"
    fi
}

no_list=$(refusal "the following required arguments were not provided:"$'\n  <WARC>...' "list <WARC>...")
no_verify=$(refusal "the following required arguments were not provided:"$'\n  <WARC>...' "verify <WARC>...")
no_index=$(refusal "the following required arguments were not provided:"$'\n  <WARC>...' "index <WARC>...")
no_check=$(refusal "the following required arguments were not provided:"$'\n  <INDEX>...' "check <INDEX>...")
no_serve=$(refusal "the following required arguments were not provided:"$'\n  <INDEX>...' "serve <INDEX>...")
no_query=$(refusal "the following required arguments were not provided:"$'\n  <QUERY>\n  <INDEX>...' "query <QUERY> <INDEX>...")
no_index_asked=$(refusal "the following required arguments were not provided:"$'\n  <INDEX>...' "query <QUERY> <INDEX>...")
no_query_asked=$(lines "$no_index_asked" "" "  tip: a query precedes the indexes, as in 'query url=example.com INDEX'")
unquoted=$(lines "$no_index_asked" "" "  tip: a query stands in single quotes, since & ends a command of a shell")
no_pages=$(refusal "the following required arguments were not provided:"$'\n  <SIZES>\n  <QUERY>\n  <INDEX>...' "pages <SIZES> <QUERY> <INDEX>...")
no_query_of_pages=$(lines "$(refusal "the following required arguments were not provided:"$'\n  <QUERY>\n  <INDEX>...' "pages <SIZES> <QUERY> <INDEX>...")" "" \
    "  tip: sizes and a query precede the files, as in 'scan 100 url=example.com FILE'")
no_sized=$(lines "$(refusal "the following required arguments were not provided:"$'\n  <QUERY>\n  <WARC>...' "scan <SIZES> <QUERY> <WARC>...")" "" \
    "  tip: sizes and a query precede the files, as in 'scan 100 url=example.com FILE'")
no_scan=$(refusal "the following required arguments were not provided:"$'\n  <SIZES>\n  <QUERY>\n  <WARC>...' "scan <SIZES> <QUERY> <WARC>...")
no_get=$(refusal "the following required arguments were not provided:"$'\n  <OFFSET>\n  <WARC>' "get <OFFSET> <WARC>")
no_archive=$(refusal "the following required arguments were not provided:"$'\n  <WARC>' "get <OFFSET> <WARC>")
one_too_many=$(refusal "unexpected argument 'q.warc' found" "get [OPTIONS] <OFFSET> <WARC>")
misspelt=$(refusal "unrecognized subcommand 'lst'"$'\n\n  tip: a similar subcommand exists: \'list\'' "[COMMAND]")
no_typed=$(refusal "the following required arguments were not provided:"$'\n  <WARC>...' "index --types <TYPES> <WARC>...")
no_value=$(lines "error: a value is required for '--types <TYPES>' but none was supplied" "" "For more information, try '--help'.")
no_input=$(lines "error: '--name <NAME>' names the archive '-', which isn't given" "" "For more information, try '--help'.")
no_length_value=$(lines "error: a value is required for '--length <LENGTH>' but none was supplied" "" "For more information, try '--help'.")
no_archive_of_length=$(refusal "the following required arguments were not provided:"$'\n  <WARC>' "get --length <LENGTH> <OFFSET> <WARC>")
help_tip=$(tipped help "'--help' stands alone, or behind a command, as in 'index --help'")
long_name=$(printf '%04096d' 0)

#     case                              output error           status, arguments and input
check "list alone"                      "" "$no_list"                      2 list
check "verify alone"                    "" "$no_verify"                    2 verify
check "index alone"                     "" "$no_index"                     2 index
check "check alone"                     "" "$no_check"                     2 check
check "query alone"                     "" "$no_query"                     2 query
check "query without an index"          "" "$unquoted"                     2 query url=a
check "query of a name without an index" "" "$no_query_asked"              2 query sorted.cdxj
check "query -x"                        "" "$(unexpected -x)"              2 query -x sorted.cdxj
check "serve alone"                     "" "$no_serve"                     2 serve
check "serve -x"                        "" "$(unexpected -x)"              2 serve -x
check "pages alone"                     "" "$no_pages"                     2 pages
check "pages without a query"           "" "$no_query_of_pages"            2 pages 1
for sizes in "" 0 1,0 "1," ,1 1,,2 +1 1.5 x 1000001 00000001 "1 2" "1;2" "$(printf '1,%.0s' {1..1000})1"; do
    check "pages $(head --bytes=20 <<< "$sizes")"  "" "$(no_sizes "$sizes")"   2 pages "$sizes" url=a missing
done
check "scan alone"                      "" "$no_scan"                      2 scan
check "scan of an archive alone"        "" "$no_sized"                     2 scan m.warc
check "pages without sizes"             "" "$(no_sizes url=a)"             2 pages url=a missing
check "scan without sizes"              "" "$(no_sizes url=a)"             2 scan url=a missing
check "scan 0"                          "" "$(no_sizes 0)"                 2 scan 0 url=a missing
for types in "" "," request Response response,response "response," ,response "response, resource" warcinfo all; do
    check "index --types $types"        "" "$(no_types "$types")"          2 index --types "$types" missing
done
check "index --types warcinfo, scan"    "" "$(no_types warcinfo)"          2 scan --types warcinfo 1 url=a missing
check "--types behind a name"           "" "$(misplaced --types)"         2 index m.warc --types metadata
check "--types twice"                   "" "$(misplaced --types)"         2 index --types metadata --types metadata m.warc
check "--types before a command"        "" "$(misplaced --types)"         2 --types metadata index m.warc
check "--types behind sizes"            "" "$(misplaced --types)"         2 scan 1 --types metadata url=a m.warc
check "--types=metadata"                "" "$(joined --types=metadata)"    2 index --types=metadata m.warc
check "--types of another command"      "" "$(misplaced --types)"         2 list --types metadata m.warc
check "--types of an option"            "" "$(unexpected -x)"              2 index --types -x m.warc
check "-o"                              "" "$(to_file -o)"                 2 index -o m.cdxj m.warc
check "--output"                        "" "$(to_file --output)"           2 index m.warc --output m.cdxj
check "--output=m.cdxj"                 "" "$(to_file --output=m.cdxj)"    2 index m.warc --output=m.cdxj
check "--jobs"                          "" "$(of_update --jobs)"           2 index --jobs 4 m.warc
check "-r"                              "" "$(of_update -r)"               2 index -r folder
check "--limit"                         "" "$(of_query --limit)"           2 query --limit 5 url=a a.cdxj
check "--limit=5"                       "" "$(of_query --limit=5)"         2 query --limit=5 url=a a.cdxj
check "-n"                              "" "$(of_query -n)"                2 query -n 5 url=a a.cdxj
check "--quiet"                         "" "$(quiet --quiet)"              2 list --quiet m.warc
check "-v"                              "" "$(verbose -v)"                 2 -v
check "--verbose"                       "" "$(verbose --verbose)"          2 verify --verbose m.warc
check "-s"                              "" "$(sorted -s)"                  2 index -s m.warc
check "--sort"                          "" "$(sorted --sort)"              2 index --sort m.warc
check "--json"                          "" "$(of_format --json)"           2 list --json m.warc
check "--port"                          "" "$(of_gateway --port)"          2 serve a.cdxj --port 8080
check "--offset=0"                      "" "$(misplaced_offset --offset=0)" 2 get --offset=0 r.warc
check "--surt"                          "" "$(unexpected --surt)"          2 index --surt m.warc
check "--offset"                        "" "$(misplaced_offset --offset)"  2 get --offset 0 m.warc
check "--payload"                       "" "$(of_fetch --payload)"         2 get --payload 0 r.warc
check "--from"                          "" "$(of_query --from)"            2 query url=a a.cdxj --from 2016
check "--type"                          "" "$(misplaced --type)"           2 index --type response m.warc
check "--list"                          "" "$(no_command --list)"          2 --list m.warc
check "--types behind -h"               "" "$(misplaced --types)"         2 index -h --types metadata m.warc
for length in "" x +1 -1 1.5 0x10 9223372036854775808 00000000000000000001; do
    if [ "$length" = -1 ]; then continue; fi # an option
    check "get --length $length"        "" "$(no_length "$length")"        2 get --length "$length" 0 missing
done
check "get --length, a bad offset"      "" "$(no_offset x)"                2 get --length 5 x missing
check "get --length of an option"       "" "$(negative -1)"                2 get --length -1 0 missing
check "get --length, nothing"           "" "$no_length_value"              2 get --length
check "get --length, no archive"        "" "$no_archive_of_length"         2 get --length 5 0
check "--length behind an offset"       "" "$(misplaced_length --length)"  2 get 0 --length 5 r.warc
check "--length twice"                  "" "$(misplaced_length --length)"  2 get --length 5 --length 5 0 r.warc
check "--length before a command"       "" "$(misplaced_length --length)"  2 --length 5 get 0 r.warc
check "--length of another command"     "" "$(misplaced_length --length)"  2 list --length 5 r.warc
check "--length=5"                      "" "$(joined --length=5)"          2 get --length=5 0 r.warc
check "--types of get"                  "" "$(misplaced --types)"          2 get --types metadata 0 r.warc
check "--types alone"                   "" "$no_value"                     2 index --types
check "--types without an archive"      "" "$no_typed"                     2 index --types metadata
check "--name without -"                "" "$no_input"                     2 index --name a.warc m.warc
check "--name without -, after types"   "" "$no_input"                     2 index --types metadata --name a.warc m.warc
check "--name without -, scan"          "" "$no_input"                     2 scan --name a.warc 1 url=a m.warc
check "--name without an archive"       "" "$no_index"                     2 index --name a.warc
check "--name alone"                    "" "$(misplaced_name --name)"      2 index --name
check "--name twice"                    "" "$(misplaced_name --name)"      2 index --name a.warc --name b.warc -
check "--name behind an archive"        "" "$(misplaced_name --name)"      2 index - --name a.warc
check "--name behind sizes"             "" "$(misplaced_name --name)"      2 scan 1 --name a.warc url=a -
check "--name before a command"         "" "$(misplaced_name --name)"      2 --name a.warc index -
check "--name of another command"       "" "$(misplaced_name --name)"      2 list --name a.warc -
check "--name in the place of types"    "" "$(misplaced_name --name)"      2 index --types --name a.warc -
check "--name=a.warc"                   "" "$(joined --name=a.warc)"       2 index --name=a.warc -
check "--name of an option"             "" "$(misplaced_name --name)"      2 index --name -x -
check "--name, then an option"          "" "$(unexpected -x)"              2 index --name a.warc -x -
check "--name, then bad types"          "" "$(no_types all)"               2 index --name a.warc --types all -
check "get alone"                       "" "$no_get"                       2 get
check "get without an archive"          "" "$no_archive"                   2 get 0
check "get of two archives"             "" "$one_too_many"                 2 get 0 r.warc q.warc
check "get with a length behind"        "" "$(length_behind 264)"          2 get 0 264 r.warc
check "get x"                           "" "$(no_offset x)"                2 get x r.warc
check "get of an archive alone"         "" "$(no_offset r.warc)"           2 get r.warc
check "get of a URL"                    "" "$(no_offset http://a/)"        2 get http://a/ sorted.cdxj
check "get of an empty offset"          "" "$(no_offset "")"               2 get "" r.warc
check "get +1"                          "" "$(no_offset +1)"               2 get +1 r.warc
check "get -1"                          "" "$(negative -1)"                2 get -1 r.warc
check "get 0x0"                         "" "$(no_offset 0x0)"              2 get 0x0 r.warc
check "get 2^63"          "" "$(no_offset 9223372036854775808)"            2 get 9223372036854775808 r.warc
check "get of twenty digits" "" "$(no_offset 00000000000000000000)"        2 get 00000000000000000000 r.warc
check "an unknown word"                 "" "$(unknown frob)"               2 frob
check "a command misspelt"              "" "$misspelt"                     2 lst same.warc
check "a name in place of a command"    "" "$(file_first same.warc)"       2 same.warc
check "a name before a command"         "" "$(file_first same.warc)"       2 same.warc list
check "an unknown word before -h"       "" "$(unknown frob)"               2 frob -h
check "- in place of a command"         "" "$(file_first -)"               2 -
check "an empty word"                   "" "$(unknown "")"                 2 ""
check "help"                            "" "$help_tip"                     2 help
check "help list"                       "" "$help_tip"                     2 help list
check "version"                         "" "$(tipped version "'--version' prints the version")" 2 version
check "extract"                         "" "$(tipped extract "'get OFFSET FILE' writes a record")" 2 extract r.warc 0
check "search"  "" "$(tipped search "'query QUERY INDEX' writes the captures that a query selects")"    2 search url=a a.cdxj
check "cdxj"                            "" "$(tipped cdxj "'index FILE' writes a CDXJ index")"     2 cdxj m.warc
check "sort"                            "" "$(tipped sort "'index' and 'merge' write sorted lines")" 2 sort a.cdxj
check "validate" "" "$(tipped validate "'verify' checks the digests of archives, and 'check' indexes")" 2 validate m.warc
check "convert"  "" "$(tipped convert "warcdx-cdx converts CDX files to indexes, and back")"       2 convert a.cdx
check "update"   "" "$(tipped update "warcdx-update keeps one index of the archives in a folder")" 2 update folder
check "gateway"  "" "$(tipped gateway "warcdx-gateway answers over HTTP, and 'serve' line by line")" 2 gateway a.cdxj
check "recompress" "" "$(tipped recompress "'warcio recompress' compresses archives")"             2 recompress m.warc
check "a command in capitals"           "" "$(unknown LIST)"               2 LIST same.warc
check "-x"                              "" "$(unexpected -x)"              2 -x
check "--"                              "" "$(unexpected --)"              2 --
check "-V"                              "warcdx $(< "$root/VERSION")" ""   0 -V
check "--version"                       "warcdx $(< "$root/VERSION")" ""   0 --version
check "-V NAME"                         "" "$(no_version -V)"              2 -V same.warc
check "list --version"                  "" "$(no_version --version)"       2 list --version
check "--version --version"             "" "$(no_version --version)"       2 --version --version
check "list -- -x"                      "" "$(unexpected --)"              2 list -- -x
check "an option after a name"          "" "$(unexpected -dash.warc)"      2 list same.warc -dash.warc
check "an option before a command"      "" "$(unexpected -x)"              2 -x list same.warc
check "an option beside -h"             "" "$(unexpected -x)"              2 list -h -x
check "an option behind -h"             "" "$(unexpected -x)"              2 -h -x
check "an option before --help"         "" "$(unexpected -x)"              2 list -x --help
check "an option that begins with -h"   "" "$(unexpected -hx)"             2 list same.warc -hx
check "a word that isn't UTF-8"         "" "$(not_utf8 "argument 1")"      2 $'\xff'
check "a name that isn't UTF-8"         "" "$(not_utf8 "argument 3")"      2 list same.warc $'\xff' $'\xfe'
check "one in front of a valid one"     "" "$(not_utf8 "argument 2")"      2 list $'a\xc3' same.warc
check "behind one of 4,096 bytes"       "" "$(not_utf8 "argument 3")"      2 list "$long_name" $'\xff'
check "of more than 4,096 bytes"        "" "$(not_utf8 "an argument")"     2 list "$long_name"$'\xff'

of_program=$(lines "warcdx 0.1.0: indexes web archives, answers queries, and fetches records" "" "Usage: warcdx [COMMAND]")
of_list=$(lines "Lists the records of archives" "" "Usage: warcdx list <WARC>...")
of_index=$(lines "Writes an index of the captures of archives" "" "Usage: warcdx index [OPTIONS] <WARC>...")
of_get=$(lines "Writes the record at an offset of an archive" "" "Usage: warcdx get [OPTIONS] <OFFSET> <WARC>")
of_check=$(lines "Checks that indexes are sorted, and counts their lines" "" "Usage: warcdx check <INDEX>...")
of_query=$(lines "Writes the captures that a query selects" "" "Usage: warcdx query <QUERY> <INDEX>...")
of_pages=$(lines "Writes the captures that a query selects, page by page" "" "Usage: warcdx pages <SIZES> <QUERY> <INDEX>...")
of_serve=$(lines "Answers queries line by line" "" "Usage: warcdx serve <INDEX>...")
of_scan=$(lines "Writes the captures of archives that a query selects" "" "Usage: warcdx scan [OPTIONS] <SIZES> <QUERY> <WARC>...")
of_verify=$(lines "Checks the digests of the records of archives" "" "Usage: warcdx verify <WARC>...")

check_help "-h"                         "$of_program" -h
check_help "--help"                     "$of_program" --help
check_help "-h list"                    "$of_program" -h list
check_help "--help frob NAME"           "$of_program" --help frob missing
check_help "list -h"                    "$of_list"    list -h
check_help "list NAME -h"               "$of_list"    list same.warc -h
check_help "list --help NAME"           "$of_list"    list --help missing
check_help "verify -h"                  "$of_verify"  verify -h
check_help "verify NAME NAME --help"    "$of_verify"  verify same.warc missing --help
check_help "index -h"                   "$of_index"   index -h
check_help "index --types -h"           "$of_index"   index --types -h
check_help "index --types TYPES -h"     "$of_index"   index --types request missing -h
check_help "index --name NAME -h"       "$of_index"   index --name a.warc missing -h
check_help "check -h"                   "$of_check"   check -h
check_help "query --help"               "$of_query"   query --help
check_help "query NAME -h"              "$of_query"   query missing -h
check_help "pages -h"                   "$of_pages"   pages 0 -h
check_help "serve -h"                   "$of_serve"   serve -h
check_help "serve NAME --help"          "$of_serve"   serve missing --help
check_help "scan -h"                    "$of_scan"    scan 0 -h
check_help "scan --types TYPES -h"      "$of_scan"    scan --types metadata -h
check_help "get --help"                 "$of_get"     get --help
check_help "get NAME NAME NAME -h"      "$of_get"     get r.warc q.warc missing -h

for way in full closed broken; do
    check_into $way "$way: -h"             "" "warcdx: cannot flush"         3 -h
    check_into $way "$way: usage"          "" "$(unknown frob)"              2 frob
done
end_script
