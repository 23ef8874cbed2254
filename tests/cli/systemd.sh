#!/usr/bin/env bash
# Lets systemd run the gateway by its unit, and watches how it starts, is reloaded, is restarted after a failure, and ends. Then
# systemd updates an index by warcdx-update's unit and timer.
#
# usage: systemd.sh [PROGRAM]
#
# systemd is process 1 of namespaces of its own, over a copy of this system that is gone afterwards. The network of its own has
# only the loopback address. The limit of memory of the unit isn't tried, because the group of processes may have no controller.
#
# Prints a line for each step, and the counts. The exit status is 0, 1 if a step fails, or 77 if the script isn't run by root, or
# systemd can't be started. Needs Debian's packages adduser, curl, systemd and util-linux, and those of the gateway.
# shellcheck disable=SC2317 # `trap` and `check_command` run the functions
set -euo pipefail
source "$(dirname "$0")/../program.sh"
read_program "$@"
read_packed
PATH=$PATH:/usr/sbin:/sbin
need adduser curl systemctl:systemd unshare:util-linux nsenter:util-linux gunicorn
need_module prometheus_client python3-prometheus-client
need_module regex python3-regex
need_module werkzeug python3-werkzeug
if [ "$(id -u)" != 0 ]; then
    echo "$script: only root can start systemd" >&2
    exit 77
fi

unit=warcdx-gateway.service
work=$(mktemp -d)
system=$work/system
mounted=$(findmnt --noheadings --first-only --output TARGET --types cgroup2 || true)
groups=$mounted/warcdx-test-$$
manager=

clean() {
    # Without their process 1 the others of its namespace end, and so do the mounts.
    if [ -n "$manager" ]; then kill -KILL "$manager" 2> /dev/null || true; fi
    wait
    find "$groups" -mindepth 1 -depth -type d -exec rmdir {} + 2> /dev/null || true
    rmdir "$groups" 2> /dev/null || true
    rm -rf --one-file-system "$work"
}
trap clean EXIT

# Mounts a copy of this system, puts the gateway there as a package does, and becomes its systemd.
# shellcheck disable=SC2016 # the shell there expands it
becomes_systemd='set -e
    root=$1 program=$2 packed=$3 work=$4 unit=$5 system=$4/system
    mount --make-rprivate /
    mount -t tmpfs tmpfs "$work/layers"
    mkdir "$work/layers/upper" "$work/layers/work"
    mount -t overlay -o "lowerdir=/,upperdir=$work/layers/upper,workdir=$work/layers/work" overlay "$system"
    mount -t proc proc "$system/proc"
    mount -t sysfs -o ro sysfs "$system/sys"
    mount -t tmpfs tmpfs "$system/sys/fs/cgroup"
    mount -t cgroup2 cgroup2 "$system/sys/fs/cgroup"
    mount -t tmpfs tmpfs "$system/run"
    mount -t tmpfs tmpfs "$system/tmp"
    mount --rbind /dev "$system/dev"
    mkdir -p "$system/opt/warcdx" "$system/etc/warcdx" "$system/srv"
    cp -r "$root/gateway" "$root/python" "$system/opt/warcdx"
    cp "$program" "$system/usr/bin/warcdx"
    cp "$packed" "$system/usr/bin/warcdx-gz"
    ln -sf /opt/warcdx/gateway/bin/warcdx-gateway "$system/usr/bin/warcdx-gateway"
    ln -sf /opt/warcdx/python/bin/warcdx-update "$system/usr/bin/warcdx-update"
    cp "$root/gateway/service/$unit" "$root"/examples/service/warcdx-update.{service,timer} "$system/etc/systemd/system"
    mkdir "$system/data"
    cp "$root"/samples/{response,wget}.warc "$system/data"
    cp "$work/index.cdxj" "$system/srv/index.cdxj"
    cp "$work/gateway.toml" "$system/etc/warcdx/gateway.toml"
    chmod -R a+rX "$system/opt/warcdx" "$system/srv" "$system/etc/warcdx"
    chroot "$system" adduser --quiet --system --group --home /nonexistent --no-create-home warcdx-gateway
    chroot "$system" adduser --quiet --system --group --home /nonexistent --no-create-home warcdx-update
    exec env container=warcdx-test chroot "$system" /lib/systemd/systemd --system --unit=sysinit.target --log-target=null'

start_systemd() {
    mkdir "$work/layers" "$system"
    mkdir "$groups" || return 1
    (
        echo "$BASHPID" > "$groups/cgroup.procs"
        exec unshare --pid --fork --kill-child --mount --uts --ipc --cgroup --net \
            bash -c "$becomes_systemd" bash "$root" "$program" "$packed" "$work" "$unit"
    ) > "$work/log" 2>&1 &
    for _ in $(seq 200); do
        manager=$(pgrep --parent "$!" || true)
        if [ -n "$manager" ] && [ "$(inside systemctl is-system-running 2> /dev/null)" = running ]; then return; fi
        sleep 0.1
    done
    return 1
}

inside() { # COMMAND..: runs a command in the namespaces of systemd
    nsenter --target "$manager" --pid --mount --net --uts --ipc --root --wd "$@"
}

asked() { # TARGET: what the gateway answers
    inside curl --silent --max-time 20 "http://127.0.0.1:8080$1"
}

value() { # NAME: what systemd says of the unit
    inside systemctl show --property="$1" --value "$unit"
}

is_answering() { # waits until the gateway answers
    for _ in $(seq 200); do
        if [ "$(asked /health)" = ok ]; then return; fi
        sleep 0.1
    done
    return 1
}

users() { # the names of the processes of the unit, with their users
    inside ps -e -o user:32= -o comm= | sed -n 's/^\([^ ]*\) *\(warcdx.*\|gunicorn.*\|python3\)$/\1 \2/p' | sort --unique
}

if [ -z "$mounted" ]; then
    echo "$script: there is no file system of control groups (version 2), which systemd needs" >&2
    exit 77
fi
"$program" index "$root/samples/response.warc" > "$work/index.cdxj"
printf 'workers = 2\n[collections.main]\nindexes = ["/srv/index.cdxj"]\n' > "$work/gateway.toml"
if ! start_systemd; then
    cat "$work/log" >&2
    echo "$script: systemd can't be started here, so nothing was checked" >&2
    exit 77
fi
captures=$("$program" index "$root/samples/response.warc" "$root/samples/wget.warc" | wc -l)
line="com,example)/ 20160919172024 http://example.com/"

check_command "systemd starts the unit" inside systemctl start "$unit"
expect "it is active when it answers" "active ok" "$(value ActiveState) $(asked /health)"
expect "an answer" "$line" "$(asked "/cdx?url=example.com&fl=urlkey,timestamp,original")"
expect "the user of its processes" warcdx-gateway "$(users | cut -d ' ' -f 1 | sort --unique)"
expect "it may not write beside the indexes" "touch: cannot touch '/srv/new': Read-only file system" \
    "$(inside nsenter --target "$(value MainPID)" --mount --root touch /srv/new 2>&1)"

inside sh -c 'printf "[collections.other]\nindexes = [\"/srv/index.cdxj\"]\n" >> /etc/warcdx/gateway.toml'
expect "a collection that isn't there yet" 404 "$(inside curl --silent -o /dev/null -w '%{http_code}' http://127.0.0.1:8080/other/cdx?url=example.com)"
check_command "systemd reloads it" inside systemctl reload "$unit"
sleep 2
expect "the new collection" "$line" "$(asked "/other/cdx?url=example.com&fl=urlkey,timestamp,original")"

before=$(value MainPID)
inside pkill --signal KILL --parent "$before" || true
check_command "it answers after its workers were killed" is_answering
expect "the master goes on" "$before 0" "$(value MainPID) $(value NRestarts)"
inside kill -KILL "$before"
sleep 3
check_command "it answers after its master was killed" is_answering
expect "systemd has restarted it" "active 1" "$(value ActiveState) $(value NRestarts)"
expect "no file is its own" "" "$(inside find /run /srv /tmp /var -user warcdx-gateway)"

check_command "systemd stops it" inside systemctl stop "$unit"
expect "it has ended well" "inactive success 0" "$(value ActiveState) $(value Result) $(value ExecMainStatus)"
expect "no process is left" "" "$(users)"

check_command "systemd updates an index" inside systemctl start warcdx-update.service
expect "the index, and its owner" "$captures warcdx-update" \
    "$(inside sh -c 'cat /var/lib/warcdx/all.cdxj.d/current/*.cdxj | wc -l; stat --format=%U /var/lib/warcdx/all.cdxj.d' | paste --serial --delimiters=' ')"
check_command "systemd starts the timer" inside systemctl start warcdx-update.timer
expect "it waits for the night" "waiting *-*-* 03:00:00" \
    "$(inside systemctl show --property=SubState --value warcdx-update.timer) $(inside systemctl cat warcdx-update.timer | sed -n 's/^OnCalendar=//p')"
end_script
