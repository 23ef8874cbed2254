#!/usr/bin/env bash
# Runs warcdx on invalid inputs, and compares what it prints and its exit status with the table in this file.
#
# usage: invalid_inputs.sh [PROGRAM]
#
# Prints a line for each case, and the counts. The exit status is 0, or 1 if a case differs. Needs python3.
set -euo pipefail

source "$(dirname "$0")/../program.sh"
read_program "$@"
source "$(dirname "$0")/check_functions.sh"
samples=$root/samples

make_inputs() {
    : > empty
    python3 -c 'import random, sys; sys.stdout.buffer.write(random.Random(1).randbytes(100_000))' > random
    gzip --no-name --stdout "$samples/response.warc" > response.warc.gz
    echo "Records stand in other files." > text
    printf 'WARC/1.' > version
    printf 'WARC/2.0\r\n\r\n' > edition
    mkdir folder
}

make_inputs
records=$'0 264 response\n264 184 resource\nfault 448 ShortBlock'
verdicts=$'0 absent\n264 absent\nfault 448 ShortBlock'

#     case                                  output               error  status, arguments and input
check "an empty input"                      ""                   ""     0 < empty
check "a damaged archive"                   "$records"           ""     1 < "$samples/damaged.warc"
check "random bytes"                        "fault 0 Version"    ""     1 < random
check "a gzip file"                         "fault 0 Version"    ""     1 < response.warc.gz
check "a text file"                         "fault 0 Version"    ""     1 < text
check "another edition"                     "fault 0 Version"    ""     1 < edition
check "an end in the version line"          "fault 0 ShortHead"  ""     1 < version
check "a folder"                            "fault 0 Read"       ""     3 < folder
check "a closed input"                      "fault 0 Read"       ""     3 <&-
check "verify: an empty input"              ""                   ""     0 verify - < empty
check "verify: a damaged archive"           "$verdicts"          ""     1 verify - < "$samples/damaged.warc"
check "verify: a gzip file"                 "fault 0 Version"    ""     1 verify - < response.warc.gz
check "verify: an end in the version line"  "fault 0 ShortHead"  ""     1 verify - < version
check "verify: a folder"                    "fault 0 Read"       ""     3 verify - < folder
check "verify: a closed input"              "fault 0 Read"       ""     3 verify - <&-
end_script
