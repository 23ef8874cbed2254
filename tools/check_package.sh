#!/usr/bin/env bash
# Installs the Debian package of a release in new Debian 12 systems in a folder, with Python and without, runs it and removes it.
#
# usage: check_package.sh [FOLDER]
#
# FOLDER has what `tools/release` made; the default is release/ at the top of the repository. These
# run there, without a network: the commands of README.md for the tar file, and those of README.md and
# of docs/INSTALL.md for the package. Only the commands with sudo are run as root. When the package
# is purged, no file, user or link of it may be left. systemd doesn't run in such a system. Programs
# in place of its commands write down how the scripts of the package call them.
#
# debootstrap makes the systems once, from deb.debian.org, and keeps them in the folder
# ${XDG_CACHE_HOME:-~/.cache}/warcdx. Each run uses copies.
#
# Prints a line for each step, and the counts. The exit status is 0, 1 if a step fails, or 77 if the
# script isn't run by root or the systems can't be made. Needs Debian's packages debootstrap and util-linux.
set -euo pipefail
source "$(dirname "$0")/../tests/program.sh"
source "$root/tests/cli/pages.sh"
read_help "$@"
PATH=$PATH:/usr/sbin:/sbin
need debootstrap unshare:util-linux
if [ $# -gt 1 ]; then stop_usage "unexpected argument '$2'"; fi
version=$(< "$root/VERSION")
folder=$(readlink -f "${1:-$root/release}")
tar_file=$folder/warcdx-$version-x86_64-linux.tar.gz
package=$folder/warcdx_${version}_amd64.deb
for file in "$tar_file" "$package"; do
    if [ ! -f "$file" ]; then stop_usage "$file: no such file"; fi
done
if [ "$(id -u)" != 0 ]; then
    echo "$script: only root can make a Debian system in a folder" >&2
    exit 77
fi

caches=${XDG_CACHE_HOME:-$HOME/.cache}/warcdx
work=$(mktemp -d)
trap 'rm -rf --one-file-system "$work"' EXIT
home=/home/user
listed='0 264 response'
packed_listed="0 $(gzip --stdout "$root/samples/response.warc" | wc -c) response"
unit=warcdx-gateway.service
link=/etc/systemd/system/multi-user.target.wants/$unit

# make_system NAME OPTION..: sets `system` to a new system, which debootstrap makes with these options.
make_system() {
    local cache=$caches/$1 new
    system=$work/$1
    if [ ! -d "$cache" ]; then
        mkdir -p "${cache%/*}"
        new=$(mktemp -d "$cache.XXXXXX") # another part may make it at the same time
        debootstrap --variant=minbase "${@:2}" bookworm "$new" > "$work/log" || {
            rm -rf --one-file-system "$new"
            cat "$work/log"
            echo "$script: debootstrap has failed, so nothing was checked" >&2
            exit 77
        }
        chmod 755 "$new"
        mv -T "$new" "$cache" 2> /dev/null || rm -rf --one-file-system "$new"
    fi
    cp --archive "$cache" "$system"
    install -d --owner=1000 --group=1000 "$system$home"
    install --mode=644 "$tar_file" "$package" "$system$home"
    # What the package recommends can't be fetched.
    echo 'APT::Install-Recommends "false";' > "$system/etc/apt/apt.conf.d/90no-recommends"
}

in_system() { # OWNER COMMAND..: runs a command in the new system, without a network
    local owner=$1
    shift
    unshare --net chroot --userspec="$owner" "$system" env --ignore-environment HOME="$home" LC_ALL=C.UTF-8 \
        DEBIAN_FRONTEND=noninteractive PATH=/usr/sbin:/usr/bin:/sbin:/bin "$@" < /dev/null 2>&1
}

# run_there PAGE START: runs a block of a page in the new system: the commands with sudo as root, and
# then the others as a user.
run_there() {
    block_of "$root/$1" "$2" > "$work/block"
    sed -n 's/^sudo //p' "$work/block" > "$system/as-root"
    sed '/^sudo /d' "$work/block" > "$system/as-user"
    in_system 0:0 sh -e -c "cd $home && . /as-root"
    in_system 1000:1000 sh -e -c "cd $home && . /as-user"
}

# Files that are there, without those in which Debian's programs keep what they did.
files() {
    find "$system" \( -path "$system/var/log" -o -path "$system/var/cache" -o -path "$system/var/lib/apt" -o \
        -path "$system/var/lib/dpkg/*-old" -o -path "$system/etc/*-" -o -path "$system/run" -o -path "$system/as-*" \) -prune -o -printf '%P\n' | LC_ALL=C sort
    grep --with-filename warcdx "$system"/etc/{passwd,group,shadow,gshadow} || true
}

check_package() { # PAGE: installs the package as this page says, and removes it
    check_command "installed as $1 says" run_there "$1" 'sudo apt-get install'
    expect "as a user, who lists a sample" "$listed" "$(run_there docs/INSTALL.md 'warcdx list /usr')"
    expect "its version" $'warcdx\t'"$version" "$(in_system 0:0 dpkg-query --show warcdx)"
    expect "its files" "" "$(in_system 0:0 dpkg --verify warcdx)"
    expect "the user of the gateway" "warcdx-gateway" "$(in_system 0:0 id --user --name warcdx-gateway)"
    expect "as a user, who lists a compressed archive" "$packed_listed" "$(in_system 1000:1000 sh -c 'gzip --stdout /usr/share/doc/warcdx/samples/response.warc | warcdx-gz')"
    check_commands
    in_system 0:0 install -D --mode=644 /dev/null /etc/warcdx/gateway.toml
    check_command "removed" run_there docs/INSTALL.md 'sudo dpkg --purge'
    files > "$work/after"
    expect_file "files that are left" "$work/before" "$work/after"
}

# Each Python command prints its usage, or without Python one line with exit status 3.
check_commands() {
    local script name found status
    for script in "$root"/{python,gateway}/bin/*; do
        name=${script##*/} status=0
        found=$(in_system 1000:1000 "$name" --help) || status=$?
        if [ -x "$system/usr/bin/python3" ]; then
            expect "$name with Python" "0 usage: $name" "$status $(grep --only-matching "usage: $name" <<< "$found" | head --lines=1)"
        else
            expect "$name without Python" "3 $name: python3 is missing (Debian's package python3)" "$status $found"
        fi
    done
}

# put_logging_program PATH: puts a program in place of another, which only logs its arguments.
put_logging_program() {
    rm -f "$system$1"
    printf '#!/bin/sh\necho "%s $*" >> /calls\n' "${1##*/}" > "$system$1"
    chmod 755 "$system$1"
}

# logged COMMAND..: runs a command as root, and prints how it has called the programs of systemd.
logged() {
    : > "$system/calls"
    in_system 0:0 "$@" > "$work/output" || cat "$work/output"
    cat "$system/calls"
}

# The scripts of the package, as they call a systemd that runs.
check_unit() {
    local file=$home/${package##*/}
    mkdir -p "$system/run/systemd/system"
    put_logging_program /usr/bin/systemctl
    put_logging_program /usr/bin/deb-systemd-invoke
    expect "calls when it is installed" "systemctl --system daemon-reload" "$(logged dpkg --install "$file")"
    expect "links of the unit" "" "$(find "$system/etc/systemd" -name "$unit")"
    mkdir -p "$system${link%/*}"
    ln -s "/lib/systemd/system/$unit" "$system$link" # as an administrator enables it
    expect "calls when it is installed again" "systemctl --system daemon-reload
deb-systemd-invoke try-restart $unit" "$(logged dpkg --install "$file")"
    expect "calls when it is removed" "deb-systemd-invoke stop $unit
systemctl --system daemon-reload
systemctl daemon-reload" "$(logged dpkg --remove warcdx)" # the last one is by deb-systemd-helper
    logged dpkg --install "$file" > "$work/output"
    expect "links of the unit that was enabled" "$link" "$(in_system 0:0 find /etc/systemd -name "$unit")"
    logged dpkg --purge warcdx > "$work/output"
    expect "links after a purge" "" "$(find "$system/etc/systemd" "$system/var/lib/systemd" -name "*warcdx*" 2>&1)"
    expect "users after a purge" "" "$(cat "$system"/etc/{passwd,group,shadow,gshadow} | grep warcdx)"
}

for variant in bookworm bookworm-python3; do
    if [ "$variant" = bookworm ]; then make_system "$variant"; else make_system "$variant" --include=python3; fi
    echo "$variant:"
    expect "the tar file, as a user" "$listed" "$(run_there README.md 'tar -xzf')"
    files > "$work/before"
    check_package README.md
    check_package docs/INSTALL.md
    check_unit
done
end_script
