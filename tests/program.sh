# What the shell scripts share, which source this file: their arguments, the program that they run, and the lines that they print.
# shellcheck shell=bash
root=$(dirname "$(dirname "$(readlink -f "${BASH_SOURCE[0]}")")")
script=${0##*/}
ok=0
differing=0

# read_program [PROGRAM]: sets `program` to the program that the arguments of the script name, or else to that of the repository,
# which is built if necessary.
read_program() {
    read_help "$@"
    if [ $# -gt 1 ]; then stop_usage "unexpected argument '$2'"; fi
    # shellcheck disable=SC2034 # the scripts use it
    program=$("$root/tests/program.py" "$@")
}

# read_packed: sets `packed` to the program for compressed archives that belongs to `program`. Its folder is put on the PATH, where
# the commands that are Python find it.
read_packed() {
    packed=$("$root/tests/program.py" --gz "$program")
    PATH=${packed%/*}:$PATH
}

# read_help ARGUMENT..: prints the header of the script if the first argument asks for help. Another option is a usage error.
read_help() {
    case ${1:-} in
        -h | --help) print_header && exit ;;
        -*) stop_usage "unexpected option '$1'" ;;
    esac
}

print_header() {
    sed -n '2,/^[^#]/s/^# \{0,1\}//p' "$0"
}

stop_usage() { # MESSAGE
    echo "$script: $1; see $script --help" >&2
    exit 2
}

# need COMMAND..: ends the script with status 77 if one is missing. Each is NAME, or NAME:PACKAGE if Debian's package has another name.
need() {
    local command
    for command in "$@"; do
        if ! type -P "${command%:*}" > /dev/null; then
            echo "$script: ${command%:*} is missing (Debian's package ${command#*:})" >&2
            exit 77
        fi
    done
}

# need_module MODULE PACKAGE: ends the script with status 77 if Debian's Python hasn't a module.
need_module() {
    if ! /usr/bin/python3 -c "import $1" 2> /dev/null; then
        echo "$script: $1 is missing (Debian's package $2)" >&2
        exit 77
    fi
}

say_ok() { # CASE
    ok=$((ok + 1))
    echo "ok       $1"
}

say_differs() { # CASE WHAT
    differing=$((differing + 1))
    echo "DIFFERS  $1: $2"
}

# expect CASE WANTED FOUND: compares two texts.
expect() {
    if [ "$2" = "$3" ]; then say_ok "$1"; else say_differs "$1" "$(printf 'found %q, wanted %q' "$3" "$2")"; fi
}

# expect_file CASE WANTED FOUND: compares two files.
expect_file() {
    local differences
    if differences=$(diff "$2" "$3"); then say_ok "$1"; else say_differs "$1" $'\n'"$differences"; fi
}

# check_command CASE COMMAND..: runs a command, which has to succeed. The last line that it prints is printed with the case.
check_command() {
    local case=$1 output
    shift
    if output=$("$@" 2>&1); then
        output=${output##*$'\n'}
        say_ok "$case${output:+: $output}"
    else
        say_differs "$case" "$output"
    fi
}

# end_script: prints the counts, and exits.
end_script() {
    echo "$ok ok, $differing differ"
    exit "$((differing > 0))"
}
