# How scripts run the commands of a page. They source this file after tests/program.sh, and set `work`
# to a temporary folder.
# shellcheck shell=bash disable=SC2154

# block_of PAGE START: prints the indented block of a page whose first line begins with START.
block_of() {
    awk -v start="    $2" '
        /^    / { if (!inside) chosen = index($0, start) == 1; inside = 1; if (chosen) print substr($0, 5); next }
        { inside = 0 }
    ' "$1"
}

# run_block FOLDER COMMAND..: runs the block on standard input in a folder, by a shell or by another
# command that ends with one, with the programs of the system alone on the PATH.
run_block() {
    local folder=$1 script
    shift
    script=$(mktemp -p "$work")
    cat > "$script"
    (cd "$folder" && env --ignore-environment HOME="$folder" TMPDIR="$work" PATH=/usr/bin:/bin "$@" "$script" < /dev/null 2>&1)
}
