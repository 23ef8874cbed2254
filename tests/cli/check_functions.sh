# Functions that run the program and compare what it prints. commands.sh, arguments.sh and invalid_inputs.sh source this file after tests/program.sh.
# From then on they work in a temporary folder, which is removed at their end.
# shellcheck shell=bash
work=$(mktemp -d)
trap 'rm -rf "$work"' EXIT
cd "$work" || exit

# From here on standard input never comes and never ends, unless a case has another.
mkfifo never
exec 8<> never
exec < never

# A pipe without a reader.
mkfifo broken
exec 9<> broken
exec 7> broken
exec 9>&-

# check CASE OUTPUT ERROR STATUS ARGUMENT..
# Runs the program with these arguments and the standard input of the call, and compares everything that it prints, and its exit status.
check() {
    check_into file "$@"
}

# check_into WAY CASE OUTPUT ERROR STATUS ARGUMENT..
# WAY is what standard output is: a file, full (a disk without room), closed, or broken (a pipe without a reader).
check_into() {
    local way=$1 case=$2 want_output=$3 want_error=$4 want_status=$5 status=0
    shift 5
    run "$way" "$@" || status=$?
    if [ "$status" = "$want_status" ] && holds output "$want_output" && holds error "$want_error"; then
        say_ok "$case"
    else
        say_differs "$case" "$(printf 'found status %s, %q, %q; wanted status %s, %q, %q' "$status" "$(< output)" "$(< error)" \
            "$want_status" "$want_output" "$want_error")"
    fi
}

# run WAY ARGUMENT..: leaves what was printed in the files output and error, and returns the program's exit status.
run() {
    local way=$1
    shift
    : > output
    # shellcheck disable=SC2154 # read_program sets it
    case $way in
        file) timeout 20 "$program" "$@" > output ;;
        full) timeout 20 "$program" "$@" > /dev/full ;;
        closed) timeout 20 "$program" "$@" >&- ;;
        broken) timeout 20 "$program" "$@" >&7 ;;
    esac 2> error
}

# without_advice: leaves out the second line of each message of the program, which begins with two spaces. `advises` compares these lines.
without_advice() {
    LC_ALL=C awk '!(before ~ /^warcdx: / && /^  /); { before = $0 }'
}

# advises CASE LINE STATUS ARGUMENT..: runs the program, and compares the last line on standard error.
advises() {
    local case=$1 line=$2 want_status=$3 status=0
    shift 3
    run file "$@" || status=$?
    expect "$case" "$want_status   $line" "$status $(tail --lines=1 error)"
}

# holds FILE LINES: whether the file has these lines and no others, each with its LF, and second lines of messages.
holds() {
    if [ -n "$2" ]; then printf '%s\n' "$2"; fi | cmp --silent - <(if [ "$1" = error ]; then without_advice < error; else cat "$1"; fi)
}

repeated() { # TIMES
    python3 -c 'import sys; sys.stdout.buffer.write(sys.stdin.buffer.read() * int(sys.argv[1]))' "$1"
}
