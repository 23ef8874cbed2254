# The programs that a release has. The scripts that make and check one source this file after tests/program.sh.
# shellcheck shell=bash disable=SC2034,SC2154 # tests/program.sh sets some variables, and the scripts use others

# read_programs [PROGRAM [GZ_PROGRAM]]: sets `program` and `gz_program` to the programs of these names. Without PROGRAM it is that of the
# repository. Without GZ_PROGRAM it is warcdx-gz in the folder of PROGRAM, or else that of the repository. These are built if necessary.
read_programs() {
    program=$("$root/tests/program.py" "${@:1:1}")
    if [ $# -lt 2 ]; then
        gz_program=$("$root/tests/program.py" --gz "$program")
    else
        gz_program=$("$root/tests/program.py" "$2")
    fi
}
