# The Debian package of a release. tools/release sources this file after tests/program.sh.
# shellcheck shell=bash disable=SC2154 # read_program and tools/release set the other variables

# make_package TREE FILE: makes the package FILE of the files of a release, which are below TREE.
make_package() {
    local folder=$work/debian
    mkdir "$folder"
    cp --recursive "$1" "$folder/usr"
    move_to_debian_places "$folder/usr"
    put_metadata "$folder"
    chmod --recursive u=rwX,go=rX "$folder"
    SOURCE_DATE_EPOCH=$time dpkg-deb --root-owner-group -Zxz --build "$folder" "$2" > "$work/output"
}

move_to_debian_places() { # PREFIX
    local documents=$1/share/doc/warcdx
    gzip --no-name -9 "$1"/share/man/man1/*.1
    mv "$1/share/zsh/site-functions" "$1/share/zsh/vendor-completions"
    ln --symbolic --force ../../common-licenses/Apache-2.0 "$documents/LICENSE"
    print_copyright > "$documents/copyright"
    move_code "$1/share/warcdx" "$1/lib/python3/dist-packages"
    mkdir --parents "${1%/usr}/lib/systemd/system"
    mv "$documents/gateway/service/warcdx-gateway.service" "${1%/usr}/lib/systemd/system"
    print_changelog | gzip --no-name -9 > "$documents/changelog.gz"
}

# move_code CODE MODULES: moves the packages to Debian's modules, and the scripts into the folder CODE.
move_code() {
    local script
    move_python_package "$1/python" "$2"
    mv "$1/gateway/warcdx_gateway" "$2"
    for script in "$1"/{python,gateway}/bin/*; do
        mv "$script" "$1"
        print_start "${script##*/}" > "$1/../../bin/${script##*/}"
    done
    rmdir "$1"/{python,gateway}/bin "$1"/{python,gateway}
}

print_copyright() { # with the terms of the libraries, as a field of more than one line
    sed '/^Comment: /,$d' "$root/tools/debian/copyright"
    echo "Comment: The programs are linked with libraries that have their own terms."
    sed 's/^$/./; s/^/ /' "$root/NOTICE"
    sed '1,/^Comment: /d' "$root/tools/debian/copyright"
}

# print_start NAME: prints a start for a Python script of the package, whose modules only Debian's Python finds.
print_start() {
    cat << END
#!/bin/sh
# Runs the Python script $1.
if [ ! -x /usr/bin/python3 ]; then
    echo "$1: python3 is missing (Debian's package python3)" >&2
    exit 3
fi
exec /usr/bin/python3 -S /usr/share/warcdx/$1 "\$@"
END
}

# print_movable_start SCRIPT: the same for the tar file, whose modules are beside the script, so that any Python finds them. The start takes nothing
# of the current folder, also if no program is on the PATH.
print_movable_start() {
    cat << END
#!/bin/sh
# Runs the Python script ${1##*/} by Debian's Python, or else by that of the PATH.
python=/usr/bin/python3
if [ ! -x "\$python" ] && ! python=\$(command -v python3); then
    echo "${1##*/}: python3 is missing (Debian's package python3)" >&2
    exit 3
fi
place=\$(command -p readlink -f "\$0") || exit 3
exec "\$python" -S "\${place%/*}/../share/warcdx/$1" "\$@"
END
}

# move_python_package FOLDER MODULES: moves the Python package to Debian's modules, with the files that give other programs its version.
move_python_package() {
    mkdir --parents "$2"
    mv "$1"/warcdx{,_start.py} "$2"
    rm "$1"/{LICENSE,VERSION,build_backend.py,pyproject.toml}
    printf '%s\n' "Metadata-Version: 2.1" "Name: warcdx" "Version: $version" > "$2/warcdx-$version.egg-info"
}

put_metadata() { # FOLDER
    mkdir "$1/DEBIAN"
    install --mode=755 "$root"/tools/debian/{postinst,prerm,postrm} "$1/DEBIAN"
    (cd "$1" && find usr lib -type f -print0 | LC_ALL=C sort --zero-terminated | xargs -0 md5sum) > "$1/DEBIAN/md5sums"
    print_control "$1" > "$1/DEBIAN/control"
}

print_changelog() {
    cat << END
warcdx ($version) unstable; urgency=medium

  * Version $version. CHANGELOG.md in this folder lists the changes.

 -- $(maintainer)  $(LC_ALL=C date --utc --rfc-email --date="@$time")
END
}

print_control() { # FOLDER
    cat << END
Package: warcdx
Version: $version
Architecture: amd64
Maintainer: $(maintainer)
Installed-Size: $(installed_size "$1")
Depends: adduser, libc6 (>= $(c_library_version "$1"/usr/bin/warcdx{,-gz}))
Recommends: python3 (>= 3.9)
Suggests: gunicorn, nginx-light, python3-brotli, python3-distributed, python3-prometheus-client, python3-regex, python3-tqdm, python3-werkzeug
Section: web
Priority: optional
Description: indexer of web archives, with queries over the indexes
 warcdx indexes web archives in WARC files (ISO 28500), and answers queries
 over the indexes, which are in the format CDXJ.
 .
 It lists and verifies the records of archives, reports where they are damaged,
 makes, merges and checks indexes, and answers queries in the manner of the
 Wayback CDX Server API, page by page. It fetches records from their offsets.
 The program warcdx-gz does the same for compressed archives too, and a Python
 package from programs. The command warcdx-fetch writes pages by their URLs,
 warcdx-verify checks the digests of blocks and payloads, and warcdx-cdx
 converts CDX files of eleven columns. The command
 warcdx-gateway is an HTTP server for the clients of Wayback CDX servers; it
 needs gunicorn, python3-werkzeug, python3-prometheus-client and python3-regex.
END
}

maintainer() { # whom CONTACT names, or else whose commit it is
    sed 's/^[^ ]* //' "$root/CONTACT" | grep . || git -C "$root" log -1 --format='%an <%ae>'
}

installed_size() { # FOLDER: in kB, as dpkg-gencontrol counts, whatever the file system
    find "$1/usr" "$1/lib" -printf '%y %s\n' | awk '{ size += $1 == "f" ? int(($2 + 1023) / 1024) : 1 } END { print size }'
}

c_library_version() { # PROGRAM..: the latest version of the C library of which one of them needs a symbol
    objdump -T "$@" | grep --only-matching 'GLIBC_[0-9.]*' | sort --version-sort | sed -n '$s/GLIBC_//p'
}
