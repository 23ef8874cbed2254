#!/usr/bin/env bash
# Builds the container of gateway/container, and runs its commands.
#
# usage: container.sh [FOLDER]
#
# FOLDER has what `tools/release` made; the default is release/ at the top of the repository. buildah builds the image from the
# Containerfile, over a Debian 12 that debootstrap makes once, from deb.debian.org, and keeps in the folder
# ${XDG_CACHE_HOME:-~/.cache}/warcdx. The packages of the image are fetched from there too. The commands run in the image, with a network of their
# own: the index of the samples is made, and asked for by nginx. Then the container is stopped.
#
# Prints a line for each step, and the counts. The exit status is 0, 1 if a step fails, or 77 if the script isn't run by root or the system can't be
# made. Needs Debian's packages buildah, curl, debootstrap, iproute2 and util-linux.
# shellcheck disable=SC2317 # `trap` and `check_command` run the functions
set -euo pipefail
source "$(dirname "$0")/../program.sh"
source "$root/tests/cli/pages.sh"
read_help "$@"
PATH=$PATH:/usr/sbin:/sbin
need buildah curl debootstrap ip:iproute2 unshare:util-linux
if [ $# -gt 1 ]; then stop_usage "unexpected argument '$2'"; fi
version=$(< "$root/VERSION")
package=$(readlink -f "${1:-$root/release}")/warcdx_${version}_amd64.deb
if [ ! -f "$package" ]; then stop_usage "$package: no such file"; fi
if [ "$(id -u)" != 0 ]; then
    echo "$script: only root can make a Debian system in a folder" >&2
    exit 77
fi

base=${XDG_CACHE_HOME:-$HOME/.cache}/warcdx/bookworm
work=$(mktemp -d)
system=$work/system
trap 'rm -rf --one-file-system "$work"' EXIT

builder() { # ARGUMENT..: buildah, whose images are here
    buildah --root "$work/images" --runroot "$work/run" --storage-driver vfs "$@"
}

# Makes the image on which the Containerfile is built.
make_base() {
    local container new
    if [ ! -d "$base" ]; then
        mkdir -p "${base%/*}"
        new=$(mktemp -d "$base.XXXXXX") # another part may make it at the same time
        debootstrap --variant=minbase bookworm "$new" > "$work/log" || {
            rm -rf --one-file-system "$new"
            cat "$work/log"
            echo "$script: debootstrap has failed, so nothing was checked" >&2
            exit 77
        }
        chmod 755 "$new"
        mv -T "$new" "$base" 2> /dev/null || rm -rf --one-file-system "$new"
    fi
    container=$(builder from scratch)
    cp --archive "$base/." "$(builder mount "$container")"
    builder commit --quiet "$container" docker.io/library/debian:bookworm-slim
}

# Runs the lines of gateway/README.md that build the image, and unpacks it.
make_system() {
    local container
    mkdir "$work/checkout" "$work/checkout/release"
    cp --recursive "$root/gateway" "$work/checkout"
    cp "$package" "$work/checkout/release"
    builds=$(block_of "$root/gateway/README.md" "mkdir image" | sed "s/podman build/builder build --isolation chroot --network host --pull-never/")
    (cd "$work/checkout" && eval "$builds")
    container=$(builder from --pull-never localhost/warcdx)
    cp --archive "$(builder mount "$container")" "$system"
    builder rm "$container"
    cp "$root"/samples/*.warc "$system/archives"
}

inside() { # COMMAND..: runs a command in the image, with its root and processes and a network of its own
    # shellcheck disable=SC2016 # the shell there expands it
    unshare --net --pid --fork --kill-child --mount sh -c \
        'ip link set lo up; system=$1; shift; mount -t proc proc "$system/proc"; exec chroot "$system" "$@"' sh "$system" "$@"
}

user_of() { # FILE: the name of its owner in the image
    chroot "$system" stat --format=%U "$1"
}

# Starts the container's server, asks for captures in its network, and stops it.
check_server() {
    local requests
    rm -f "$work/asked"
    # shellcheck disable=SC2016 # the shell there expands it
    requests='for _ in $(seq 100); do curl --silent --fail -o /dev/null http://127.0.0.1:8080/health && break; sleep 0.1; done
        curl --silent "http://127.0.0.1:8080/cdx?url=127.0.0.1:8000/odd/gone&fl=original,statuscode"
        curl --silent --location -o /dev/null -w "%{http_code}\n" http://127.0.0.1:8080/browse
        curl --silent -o /dev/null -w "%{http_code}\n" -H "Host: other.example" "http://127.0.0.1:8080/cdx?url=x"
        ps -e -o uid= -o comm= | sed -n "s/^ *\([0-9]* \(nginx\|python3\|warcdx\)\)$/\1/p" | sort --unique'
    # shellcheck disable=SC2016 # the shell there expands it
    timeout 100 unshare --net --pid --fork --kill-child --mount-proc sh -c '
        ip link set lo up; system=$1
        mount -t proc proc "$system/proc"
        chroot "$system" /usr/local/bin/start > "$2/log" 2>&1 & start=$!
        sh -c "$3" > "$2/asked" 2>&1
        kill -TERM $start; wait $start; echo "ended $?" >> "$2/asked"' sh "$system" "$work" "$requests" || true
    expect "the server, and its users" "$wanted_answers" "$(cat "$work/asked")"
}

make_base > "$work/log" 2>&1
check_command "built as gateway/README.md says" make_system
expect "its commands" "warcdx-update $version" "$(inside /usr/local/bin/start warcdx-update --version)"
expect "the user of a command" warcdx-update "$(inside /usr/local/bin/start id --user --name)"
expect "the index" "" "$(inside /usr/local/bin/start warcdx-update --quiet --recursive /archives /indexes/all.cdxj.d 2>&1 | grep -v damaged.warc)"
expect "its owner" warcdx-update "$(user_of /indexes/all.cdxj.d)"
wanted_answers="http://127.0.0.1:8000/odd/gone 410
200
421
$(chroot "$system" id --user warcdx-gateway) python3
$(chroot "$system" id --user warcdx-gateway) warcdx
$(chroot "$system" id --user www-data) nginx
ended 0"
check_server
end_script
