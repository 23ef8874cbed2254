#!/usr/bin/env bash
# Runs the lines of docs/FOLDER.md that index archives by GNU parallel over ssh, and compares their index with that of all archives.
#
# usage: check_parallel.sh [PROGRAM]
#
# The machines are two names of this one. They are reached by an SSH server that listens at 127.0.0.1 on a free port with keys of its own, and
# ends with the test.
#
# Prints a line for each case, and the counts. The exit status is 0, or 1 if a case differs. Needs Debian's packages openssh-client,
# openssh-server and parallel.
set -euo pipefail
source "$(dirname "$0")/../../tests/program.sh"
read_program "$@"
PATH=$PATH:/usr/sbin
need parallel ssh:openssh-client sshd:openssh-server

work=$(mktemp -d)

trap 'if [ -f "$work/sshd.pid" ]; then kill "$(< "$work/sshd.pid")"; fi; rm -rf "$work"' EXIT

make_archives() {
    local number
    mkdir "$work/data"
    for number in 1 2 3 4 5; do
        cp "$root/samples/wget.warc" "$work/data/wget-$number.warc"
        cp "$root/samples/response.warc" "$work/data/response-$number.warc"
    done
    cp "$root/samples/damaged.warc" "$work/data"
    touch "$work/data/unread.warc"
}

# The program, under the name that the lines use. It can't read one of the archives.
make_program() {
    mkdir "$work/bin"
    cat > "$work/bin/warcdx" << END
#!/bin/sh
echo "\${2##*/} \$SSH_CONNECTION" >> "$work/calls"
case \$2 in */unread.warc) exit 3;; esac
exec "$program" "\$@"
END
    chmod +x "$work/bin/warcdx"
}

# hold_port: prints a port that the system gives to nobody else until standard input ends. sshd can share it, because it sets SO_REUSEADDR.
hold_port() {
    python3 -c 'if True:
        import socket, sys
        held = socket.socket()
        held.setsockopt(socket.SOL_SOCKET, socket.SO_REUSEADDR, 1)
        held.bind(("127.0.0.1", 0))
        print(held.getsockname()[1], flush=True)
        sys.stdin.read()'
}

start_server() {
    local port name options
    coproc held { hold_port; }
    read -r port <&"${held[0]}"
    ssh-keygen -q -t ed25519 -N "" -f "$work/host"
    ssh-keygen -q -t ed25519 -N "" -f "$work/user"
    if [ "$(id -u)" = 0 ]; then mkdir -p /run/sshd; fi # sshd needs it as root
    cat > "$work/sshd.conf" << END
ListenAddress 127.0.0.1:$port
HostKey "$work/host"
PidFile "$work/sshd.pid"
AuthorizedKeysFile "$work/user.pub"
StrictModes no
UsePAM no
SetEnv "PATH=$work/bin:/usr/bin:/bin"
END
    "$(type -P sshd)" -f "$work/sshd.conf" -E "$work/sshd.log"
    options="-p $port -i user -o StrictHostKeyChecking=no -o UserKnownHostsFile=known -o LogLevel=ERROR" # the lines run in $work
    for name in 127.0.0.1 localhost; do echo "2/ssh $options $name"; done > "$work/machines"
}

take_lines() { # the three of the page, on the folder of this test
    grep --extended-regexp '^    (parallel --sshloginfile|awk|warcdx merge) ' "$root/docs/FOLDER.md" | sed "s:/data:'$work'/data:g" > "$work/lines"
}

run_lines() {
    (cd "$work" && PATH=$work/bin:$PATH bash lines)
}

make_archives
make_program
take_lines
expect "number of lines of docs/FOLDER.md" 3 "$(wc -l < "$work/lines")"
start_server
run_lines > "$work/faulty" 2> "$work/errors" || say_differs "exit status of the lines" "$(< "$work/errors")"
expect "exit statuses of archives that failed" "1 3" "$(cut -f 7 "$work/faulty" | sort | paste -sd' ')"
expect "tries of an archive that can't be read" 3 "$(grep -c '^unread.warc ' "$work/calls")"
expect "calls on a machine" 16 "$(grep -c ' 127.0.0.1 ' "$work/calls")"
expect "parts of an archive that can't be read" "" "$(cd "$work/data" && find . -name 'unread.warc.cdxj')"
rm "$work/data/unread.warc"
"$program" index "$work"/data/*.warc > "$work/wanted.cdxj" 2> "$work/errors" || [ $? = 1 ] # one is damaged
check_command "index" cmp "$work/wanted.cdxj" "$work/all.cdxj"
end_script
