#!/usr/bin/env bash
# Unpacks the tar file, the Debian package and the wheel of a release, and checks what is in them.
#
# usage: check_release.sh [--draft] [FOLDER [PROGRAM [GZ_PROGRAM]]]
#
# FOLDER has what `tools/release` made; the default is release/ at the top of the repository. These
# are checked: the checksums, the modes, the files, each in the place that docs/INSTALL.md names,
# the links of the pages, the programs, the manual page, the commands, the wheel in a new virtual environment,
# and the package by lintian. With PROGRAM the release is made once more, of PROGRAM and GZ_PROGRAM as `tools/release`
# takes them. It is made of a copy that only its owner may read, with another umask, locale and time zone, and has to be
# the same.
#
# The programs are run with an environment that has neither the Rattle kit nor this repository.
# tools/check_package.sh installs the package. tests/cli/install.sh runs the lines of docs/INSTALL.md,
# and tests/cli/manual.sh and tests/cli/completions.sh check the manual page and the completions.
# A release has to name the project's address and its maintainers in CONTACT. With --draft it needn't.
#
# Prints a line for each check, and the counts. The exit status is 0, or 1 if a check fails. Needs
# python3 and Debian's packages binutils, dpkg, lintian, man-db and python3-venv.
set -euo pipefail
source "$(dirname "$0")/../tests/program.sh"
source "$root/tools/programs.sh"
draft=
if [ "${1-}" = --draft ]; then
    draft=yes
    shift
fi
read_help "$@"
need dpkg-deb:dpkg lintian man:man-db objdump:binutils python3
need_module ensurepip python3-venv
if [ $# -gt 3 ]; then stop_usage "unexpected argument '$4'"; fi
version=$(< "$root/VERSION")
name=warcdx-$version-x86_64-linux
folder=$(readlink -f "${1:-$root/release}")
tar_file=$folder/$name.tar.gz
package=$folder/warcdx_${version}_amd64.deb
wheel=$folder/warcdx-$version-py3-none-manylinux_2_34_x86_64.whl
for file in "$tar_file" "$package" "$wheel"; do
    if [ ! -f "$file" ]; then stop_usage "$file: no such file"; fi
done

umask 022 # as of root, with whose modes what is unpacked is compared
work=$(mktemp -d)
environments=$(mktemp -d -p /tmp) # pip writes the path into the first lines of commands, where a blank would end it
trap 'rm -rf "$work" "$environments"' EXIT
prefix=$work/$name
doc=$prefix/share/doc/warcdx
code=$prefix/share/warcdx
debian=$work/debian

installed() { # ARGUMENT..: runs a command as a user runs it who has the release and nothing else of this repository
    env --ignore-environment HOME="$work" PATH="$prefix/bin:/usr/bin:/bin" PYTHONDONTWRITEBYTECODE=1 "$@" 2>&1
}

libraries() { # PROGRAM
    objdump -p "$prefix/bin/$1" | sed -n 's/^ *NEEDED *//p'
}

library_versions() { # of both programs
    objdump -T "$prefix"/bin/warcdx{,-gz} | grep --only-matching 'GLIBC_[0-9.]*' | sort --version-sort
}

other_modes() { # FOLDER: files of other modes than 644, programs and folders of others than 755
    find "$1" ! -type l ! -perm 755 ! \( -type f -perm 644 \) -printf '%m %P\n'
    find "$1" -type f -perm 755 ! -path '*/bin/*' ! -path '*/share/warcdx/*' ! -path '*/gateway/container/start' ! -name '*.py' -printf '%m %P\n'
    find "$1" -type f -path '*/bin/*' ! -perm 755 -printf '%m %P\n'
}

other_owners() { # on standard input, as `tar --verbose` prints the files
    awk '$2 != "0/0" && $2 != "root/root"'
}

differing_files() { # those that differ from the file of this repository, each as PLACE:FILE
    local pair
    while read -r pair; do
        cmp --silent "$root/${pair#*:}" "$prefix/${pair%:*}" || echo "${pair%:*}"
    done
}

absent_scripts() { # that the page of the samples names, and that aren't beside it
    local name
    grep --only-matching --extended-regexp "\`[a-z_/]+\.(py|sh)\`" "$doc/samples/README.md" | tr --delete "\`" | while read -r name; do
        if [ ! -f "$doc/samples/$name" ]; then echo "$name"; fi
    done
}

in_order() { # WORD..
    printf '%s\n' "$@" | LC_ALL=C sort | in_a_line
}

in_a_line() {
    paste --serial --delimiters=' '
}

field() { # NAME: of the package
    dpkg-deb --field "$package" "$1"
}

check_tar_file() {
    expect "folders" "bin share" "$(cd "$prefix" && echo *)"
    expect "modes" "" "$(other_modes "$prefix")"
    expect "owners" "" "$(tar --list --verbose --file "$tar_file" | other_owners)"
    expect "checksums of the contents" "" "$(cd "$prefix" && sha256sum --quiet --check share/doc/warcdx/SHA256SUMS 2>&1)"
    expect "number of checksums" "$(find "$prefix" -type f ! -name SHA256SUMS | wc -l)" "$(wc -l < "$doc/SHA256SUMS")"
    expect "files of the repository" "" "$(differing_files << END
share/warcdx/python/bin/warcdx-update:python/bin/warcdx-update
share/man/man1/warcdx.1:docs/warcdx.1
share/man/man1/warcdx-gz.1:docs/warcdx-gz.1
share/bash-completion/completions/warcdx:completions/warcdx.bash
share/zsh/site-functions/_warcdx:completions/_warcdx
share/fish/vendor_completions.d/warcdx.fish:completions/warcdx.fish
share/doc/warcdx/LICENSE:LICENSE
share/doc/warcdx/NOTICE:NOTICE
share/doc/warcdx/CONTACT:CONTACT
share/doc/warcdx/docs/FAQ.md:docs/FAQ.md
share/doc/warcdx/docs/COMMANDS.md:docs/COMMANDS.md
share/doc/warcdx/samples/wget.warc:samples/wget.warc
share/warcdx/gateway/bin/warcdx-gateway:gateway/bin/warcdx-gateway
share/man/man1/warcdx-gateway.1:docs/warcdx-gateway.1
share/doc/warcdx/gateway/service/warcdx-gateway.service:gateway/service/warcdx-gateway.service
share/warcdx/gateway/warcdx_gateway/server.py:gateway/warcdx_gateway/server.py
share/warcdx/python/VERSION:VERSION
share/warcdx/python/warcdx/index.py:python/warcdx/index.py
END
)"
    expect "licence" "" "$(diff /usr/share/common-licenses/Apache-2.0 "$doc/LICENSE" 2>&1)"
    expect "pages above 22" "" "$(find "$doc" -name "*.md" | LC_ALL=C sort | tail --lines=+23)"
    expect "pages of the repository alone" "" "$(cd "$doc" && find CONTRIBUTING.md bench crates docs/developers docs/proof ! -path docs/proof/PROVED.md -type f 2> "$work/output")"
    expect "version in CHANGELOG.md" "## [$version]" "$(grep --only-matching --fixed-strings "## [$version]" "$doc/CHANGELOG.md")"
    mkdir "$work/recipe"
    expect "files for the recipes" "dedup.warc years.cdxj" "$(installed python3 "$doc/samples/recipe_files.py" "$work/recipe" && cd "$work/recipe" && echo *)"
    expect "scripts that its samples name" "" "$(absent_scripts)"
    check_command "links of its pages" "$root/tools/check_links.py" "$doc"
}

check_program() { # NAME
    expect "$1 on the PATH" "$prefix/bin/$1" "$(installed bash -c "type -P $1")"
    expect "symbols of $1" "nm: $prefix/bin/$1: no symbols" "$(nm "$prefix/bin/$1" 2>&1)"
    expect "libraries of $1" libc.so.6 "$(libraries "$1" | in_a_line)"
    expect "version in the help of $1" "$1 $version" "$(installed "$1" --help | head --lines=1 | grep --only-matching "^$1 [0-9.]*")"
    expect "manual page of $1" "$prefix/share/man/man1/$1.1" "$(installed MANPATH="$prefix/share/man" man -w "$1")"
}

check_programs() {
    local found=$work/wget.cdxj
    expect "no rt on the PATH" "" "$(installed bash -c 'type -P rt')"
    check_program warcdx
    check_program warcdx-gz
    expect "version of the C library" GLIBC_2.34 "$(library_versions | tail --lines=1)" # as docs/INSTALL.md says
    expect "Python package of the tar file" "1 gone" "$(installed warcdx index "$doc/samples/wget.warc" > "$work/wget.cdxj"; installed warcdx-fetch --index "$work/wget.cdxj" --archives "$doc/samples" http://127.0.0.1:8000/odd/gone | sed 's/^/1 /')"
    gzip --stdout "$doc/samples/response.warc" > "$work/response.warc.gz"
    expect "a compressed archive" "0 $(stat --format=%s "$work/response.warc.gz") response" "$(installed warcdx-gz list "$work/response.warc.gz")"
    expect "files of each command" "" "$(absent_files)"
    expect "commands of the tar file" "" "$(silent_commands installed "$prefix/bin")"
    mv "$prefix/share/doc" "$work/doc"
    expect "commands without the documents" "" "$(silent_commands installed "$prefix/bin")"
    mv "$work/doc" "$prefix/share/doc"
    installed warcdx index "$doc/samples/wget.warc" > "$found"
    expect "index of a sample" "$found 33" "$(installed warcdx check "$found")"
    expect "query on it" "http://127.0.0.1:8000/odd/gone 410" \
        "$(installed warcdx query 'url=127.0.0.1:8000/odd/gone&fl=original,statuscode' "$found")"
}

# The commands in Python, where the PATH has no other program, where Debian's Python is missing, and where there is none.
check_starts() {
    local other=$work/other script name path
    mkdir -p "$other/bin" "$other/python"
    ln -s "$prefix/share" "$other/share"
    ln -s /usr/bin/python3 "$other/python/python3"
    for script in "$root"/{python,gateway}/bin/*; do
        name=${script##*/}
        sed "s:/usr/bin/python3:/nonexistent:g" "$prefix/bin/$name" > "$other/bin/$name"
        chmod 755 "$other/bin/$name"
    done
    path=$prefix/bin
    expect "commands without other programs" "" "$(silent_commands with_path "$prefix/bin")"
    path=$other/bin:$other/python
    expect "commands by the Python of the PATH" "" "$(silent_commands with_path "$other/bin")"
    path=$other/bin
    expect "a command without Python" "3 $name: python3 is missing (Debian's package python3)" "$(found=$(with_path "$name") || echo "$? $found")"
}

with_path() { # COMMAND ARGUMENT..: runs a command with no other folder on the PATH than $path has
    env --ignore-environment PATH="$path" PYTHONDONTWRITEBYTECODE=1 "$@" 2>&1
}

# How the files of the package differ from those of the tar file, as docs/INSTALL.md says.
package_differences() {
    LC_ALL=C diff --recursive --brief --exclude=common-licenses "$prefix" "$debian/usr" | sed "s:$work/::g; s:$name:tar:g" | LC_ALL=C sort
}

wanted_package_differences() {
    local script page
    {
        for script in "$root"/{python,gateway}/bin/*; do
            echo "Files tar/bin/${script##*/} and debian/usr/bin/${script##*/} differ"
            echo "Only in debian/usr/share/warcdx: ${script##*/}"
        done
        for page in "$root"/docs/*.1; do
            printf '%s\n' "Only in debian/usr/share/man/man1: ${page##*/}.gz" "Only in tar/share/man/man1: ${page##*/}"
        done
        cat << 'END'
Only in debian/usr/share/doc/warcdx: changelog.gz
Only in debian/usr/share/doc/warcdx: copyright
Only in debian/usr/share/zsh: vendor-completions
Only in debian/usr: lib
Only in tar/share/doc/warcdx/gateway/service: warcdx-gateway.service
Only in tar/share/warcdx: gateway
Only in tar/share/warcdx: python
Only in tar/share/doc/warcdx: SHA256SUMS
Only in tar/share/zsh: site-functions
END
    } | LC_ALL=C sort
}

check_debian_package() {
    expect "package: name, version, architecture" "warcdx $version amd64" "$(field Package) $(field Version) $(field Architecture)"
    expect "package: depends" "adduser, libc6 (>= $(library_versions | sed -n '$s/GLIBC_//p'))" "$(field Depends)"
    expect "package: recommends" "python3 (>= 3.9)" "$(field Recommends)"
    expect "package: scripts of its own" "control md5sums postinst postrm prerm" "$(dpkg-deb --ctrl-tarfile "$package" | tar --list | sed -n 's:^\./\(.\):\1:p' | in_a_line)"
    expect "package: modes" "" "$(other_modes "$debian")"
    expect "package: owners" "" "$(dpkg-deb --contents "$package" | other_owners)"
    expect "package: files" "$(wanted_package_differences)" "$(package_differences)"
    expect "package: Python package" "" "$(diff --recursive "$code/python/warcdx" "$debian/usr/lib/python3/dist-packages/warcdx" 2>&1)"
    expect "package: scripts" "" "$(for script in "$root"/{python,gateway}/bin/*; do diff "$script" "$debian/usr/share/warcdx/${script##*/}" 2>&1; done)"
    expect "package: gateway" "" "$(diff --recursive "$code/gateway/warcdx_gateway" "$debian/usr/lib/python3/dist-packages/warcdx_gateway" 2>&1)"
    expect "package: unit of systemd" "" "$(diff "$root/gateway/service/warcdx-gateway.service" "$debian/lib/systemd/system/warcdx-gateway.service" 2>&1)"
    expect "package: version of the Python package" "$version" "$(PYTHONPATH=$debian/usr/lib/python3/dist-packages PYTHONDONTWRITEBYTECODE=1 \
        /usr/bin/python3 -c 'import importlib.metadata; print(importlib.metadata.version("warcdx"))')"
    expect "package: manual page" "" "$(zcat "$debian/usr/share/man/man1/warcdx.1.gz" | diff "$root/docs/warcdx.1" - 2>&1)"
    expect "package: completion for zsh" "" "$(diff "$root/completions/_warcdx" "$debian/usr/share/zsh/vendor-completions/_warcdx" 2>&1)"
    expect "package: terms" "" "$(diff "$root/tools/debian/copyright" "$debian/usr/share/doc/warcdx/copyright" 2>&1 | grep '^<')"
    expect "package: terms of the libraries" "" "$(sed 's/^ \.\?//' "$debian/usr/share/doc/warcdx/copyright" | diff "$root/NOTICE" - | grep '^<')"
    expect "package: lintian" "" "$(lintian --allow-root --fail-on none "$package" 2>&1)"
    check_command "package: links of its pages" "$root/tools/check_links.py" "$debian/usr/share"
}

# The wheel in a new virtual environment, without an index of packages, and by a Python that finds no `warcdx` on the PATH.
check_wheel() {
    local environment=$environments/wheel found=$work/wheel.cdxj scripts=("$root"/{python,gateway}/bin/*)
    /usr/bin/python3 -m venv "$environment"
    check_command "wheel: installed by pip" "$environment/bin/pip" install --no-index --quiet --disable-pip-version-check "$wheel"
    expect "wheel: version" "$version" "$(in_environment python -c 'import warcdx; print(warcdx.__version__)')"
    expect "wheel: version for pip" "Version: $version" "$(in_environment pip show warcdx | grep '^Version')"
    expect "wheel: programs" "" "$(for name in warcdx warcdx-gz; do diff "$prefix/bin/$name" "$environment/bin/$name" 2>&1; done)"
    expect "wheel: modes" "" "$(find "$environment/bin" -name 'warcdx*' ! -perm 755)"
    expect "wheel: commands" "$(in_order warcdx warcdx-gz "${scripts[@]##*/}")" "$(cd "$environment/bin" && in_order warcdx*)"
    expect "wheel: what the commands print" "" "$(silent_commands in_environment "$environment/bin")"
    "$environment/bin/warcdx" index "$doc/samples/wget.warc" > "$found"
    expect "wheel: the program is found without the PATH" 33 "$(env --ignore-environment PATH=/usr/bin:/bin "$environment/bin/python" -c \
        'import sys, warcdx; print(warcdx.Index(sys.argv[1]).count("key=&matchType=prefix"))' "$found" 2>&1)"
    expect "wheel: links of its tag" "manylinux_2_34" "manylinux_$(library_versions | sed -n '$s/GLIBC_//p' | tr . _)"
    in_environment pip uninstall --quiet --yes warcdx
    expect "wheel: what is left of it" "" "$(find "$environment" -name '*warcdx*')"
}

# The gateway of the wheel, in an environment that has the packages of the extra from Debian.
check_wheel_gateway() {
    local environment=$environments/served server
    if ! /usr/bin/python3 -c 'import brotli, gunicorn, prometheus_client, regex, werkzeug' 2> "$work/output"; then return; fi
    /usr/bin/python3 -m venv --system-site-packages "$environment"
    check_command "wheel: the extra for the gateway" "$environment/bin/pip" install --no-index --quiet --disable-pip-version-check "${wheel}[gateway]"
    env --ignore-environment HOME="$work" PATH=/usr/bin:/bin "$environment/bin/warcdx-gateway" --port 0 --workers 2 --indexes "$work/wheel.cdxj" > "$work/address" 2>&1 &
    server=$!
    for _ in {1..200}; do if [ -s "$work/address" ]; then break; else sleep 0.1; fi; done
    expect "wheel: an answer of the gateway" 410 "$(/usr/bin/python3 -c 'import sys, urllib.request; print(urllib.request.urlopen(sys.argv[1]).read().decode())' \
        "$(head --lines=1 "$work/address")cdx?url=127.0.0.1:8000/odd/gone&fl=statuscode" 2>&1)"
    kill "$server"
    wait "$server" || true
}

in_environment() { # COMMAND ARGUMENT..
    env --ignore-environment HOME="$work" PATH=/usr/bin:/bin PYTHONDONTWRITEBYTECODE=1 "$environments/wheel/bin/$1" "${@:2}" 2>&1
}

# silent_commands RUN FOLDER: the commands of a folder that don't print their usage for --help. RUN runs them.
silent_commands() {
    local command found
    for command in "$2"/warcdx*; do
        command=${command##*/}
        found=$("$1" "$command" --help) || true
        if ! grep --quiet --ignore-case "^usage: $command " <<< "$found"; then echo "$command"; fi
    done
}

absent_files() { # manual pages, and completions of the commands that have them in the repository
    local command
    for command in "$prefix"/bin/*; do
        command=${command##*/}
        if [ ! -f "$prefix/share/man/man1/$command.1" ]; then echo "$command.1"; fi
    done
    find "$root/completions" -type f | wc -l > "$work/wanted"
    find "$prefix"/share/{bash-completion,zsh,fish} -type f | wc -l | diff "$work/wanted" -
}

# No command runs a module of a folder that isn't its own: of the current folder, of that of the program, of one above or beside.
check_planted_modules() {
    local shared=$work/shared command folder module
    mkdir -p "$shared/release"
    cp --recursive "$prefix/." "$shared/release"
    for folder in "$shared" "$shared"/{python,gateway} "$shared/release" "$shared/release"/{bin,python,gateway} "$work/current"; do
        for module in warcdx warcdx_gateway; do
            if [ -f "$folder/$module" ]; then continue; fi # a program
            mkdir -p "$folder/$module"
            echo "print('PLANTED'); raise SystemExit" | tee "$folder/$module"/{__init__,command,program,cdx_command,verify_command,update_command}.py > "$work/output"
        done
        for module in argparse ctypes json pathlib re signal subprocess; do
            echo "print('PLANTED $module'); raise SystemExit" > "$folder/$module.py"
        done
    done
    for command in "$shared"/release/bin/*; do
        expect "what ${command##*/} runs in a shared folder" "" "$(cd "$work/current" && installed "$command" --help | grep PLANTED)"
    done
    expect "what surt_keys.py runs in a shared folder" "" \
        "$(cd "$work/current" && installed "$shared/release/share/doc/warcdx/examples/surt_keys.py" --help | grep PLANTED)"
}

copy_for_owner_alone() { # FOLDER: copies the checkout, whose files only their owner may read
    git clone --quiet --shared "$root" "$1"
    (cd "$root" && git ls-files -z --cached --others --exclude-standard | tar --create --null --files-from=- --ignore-failed-read) | tar --extract --directory="$1"
    chmod --recursive go-rwx "$1"
}

make_failing() { # PROGRAM GZ_PROGRAM: makes a release, whose tar file can't be written
    mkdir "$work/failing"
    printf '#!/bin/sh\ncase $* in *--sort=name*) exit 1 ;; esac\nexec %s "$@"\n' "$(type -P tar)" > "$work/failing/tar"
    chmod 755 "$work/failing/tar"
    PATH=$work/failing:$PATH "$root/tools/release" --output "$work/failed" "$@" > "$work/output" 2>&1 || true
}

check_same_again() { # PROGRAM [GZ_PROGRAM]
    local program gz_program
    read_programs "$@"
    copy_for_owner_alone "$work/copy"
    (umask 077 && TZ=Pacific/Kiritimati LC_ALL=C "$work/copy/tools/release" --output "$work/again" "$program" "$gz_program" > "$work/output")
    expect "the same release again" "" "$(diff "$folder/SHA256SUMS" "$work/again/SHA256SUMS" 2>&1)"
    expect "modes of the files of a release" "" "$(find "$work/again" -type f ! -perm 644)"
    expect "what is left of a release that fails" "" "$(make_failing "$program" "$gz_program"; find "$work/failed" -mindepth 1)"
}

expect "checksums" "$(printf '%s: OK\n' "${tar_file##*/}" "${package##*/}" "${wheel##*/}")" "$(cd "$folder" && sha256sum --check SHA256SUMS 2>&1)"
tar --extract --file "$tar_file" --directory "$work"
dpkg-deb --extract "$package" "$debian"
install -D --mode=644 "$root/LICENSE" "$debian/usr/share/common-licenses/Apache-2.0" # as Debian has it
check_tar_file
check_programs
check_starts
check_debian_package
check_wheel
check_wheel_gateway
check_planted_modules
if [ -z "$draft" ]; then check_command "the libraries in NOTICE, and the address in CONTACT" "$root/tools/check_notice.py" --contact; fi
if [ $# -ge 2 ]; then check_same_again "${@:2}"; fi
end_script
