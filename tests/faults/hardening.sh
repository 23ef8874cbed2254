#!/usr/bin/env bash
# Reads the ELF headers of both programs, and compares what they are built with to what SECURITY.md says.
#
# usage: hardening.sh [PROGRAM]
#
# What the page says that the programs lack is compared too, so that the page is changed once they have it.
#
# Prints a line for each case, and the counts. The exit status is 0, or 1 if a case differs. Needs readelf (Debian's
# package binutils).
set -euo pipefail
source "$(dirname "$0")/../program.sh"
read_program "$@"
read_packed
need readelf:binutils

# has TEXT PATTERN: yes or no
has() {
    if grep --quiet --extended-regexp "$2" <<< "$1"; then echo yes; else echo no; fi
}

flags_of() { # SEGMENT: those of its memory, such as RW, a line for each segment of this type
    awk -v type="$1" '$1 == type { flags = ""; for (i = 7; i < NF; i++) flags = flags $i; print flags }' <<< "$segments"
}

check() { # PROGRAM
    local name=${1##*/} headers segments dynamic symbols notes
    headers=$(readelf --file-header --wide "$1")
    segments=$(readelf --program-headers --wide "$1")
    dynamic=$(readelf --dynamic --wide "$1")
    symbols=$(readelf --dyn-syms --wide "$1")
    notes=$(readelf --notes --wide "$1")

    expect "$name: position-independent executable" yes "$(has "$headers" 'Type: +DYN .*Position-Independent')"
    expect "$name: read-only relocations" yes "$(has "$segments" '^ *GNU_RELRO ')"
    expect "$name: immediate binding" yes "$(has "$dynamic" '\(FLAGS\) .*BIND_NOW')"
    expect "$name: flags of the stack" RW "$(flags_of GNU_STACK)"
    expect "$name: segments that may be written and executed" 0 "$(flags_of LOAD | grep --count WE)"
    expect "$name: relocations of text" no "$(has "$dynamic" '\(TEXTREL\)|FLAGS.*TEXTREL')"
    expect "$name: search paths for libraries" no "$(has "$dynamic" '\((RPATH|RUNPATH)\)')"
    expect "$name: libraries" libc.so.6 "$(sed -n 's/.*(NEEDED).*\[\(.*\)\]/\1/p' <<< "$dynamic" | paste --serial --delimiters=' ')"

    expect "$name: stack protector" no "$(has "$symbols" ' __stack_chk_fail')"
    expect "$name: fortified functions" no "$(has "$symbols" ' __[a-z]+_chk(@|$)')"
    expect "$name: control flow integrity" no "$(has "$notes" 'x86 feature: .*(IBT|SHSTK)')"
}

check "$program"
check "$packed"
end_script
