# The rows of docs/TROUBLESHOOTING.md about the commands in Python and the gateway. troubleshooting.sh sources this file.
# shellcheck shell=bash disable=SC2154,SC2317

# run_python NAME ARGUMENT..: runs a command in Python.
run_python() {
    "$root/python/bin/warcdx-$1" "${@:2}"
}

row "\`no such program\`, \`not the program warcdx\`, \`is needed\`"
printf '#!/bin/sh\necho warcdx 0.0.1\n' > old
chmod 755 old
shows "no program" "no such program" run_python verify --program nosuch response.warc
shows "another program" "not the program warcdx" run_python verify --program /bin/true response.warc
shows "an old program" "is needed" run_python verify --program ./old response.warc

row "\`python3 is missing\`"
start_without_python() {
    # shellcheck source=tools/debian/package.sh
    (source "$root/tools/debian/package.sh" && print_movable_start python/bin/warcdx-verify) | sed 's:/usr/bin/python3:/nonexistent:' > start
    PATH=/nonexistent /bin/sh ./start --help
}
shows "a start without Python" "warcdx-verify: python3 is missing" start_without_python

row "\`it needs Python\`"
old_python() {
    PATH=/nonexistent /usr/bin/python3 -c 'import runpy, sys
sys.version_info, sys.argv = (3, 8, 0, "final", 0), sys.argv[1:]
runpy.run_path(sys.argv[0], run_name="__main__")' "$root/python/bin/warcdx-verify" --help
}
shows "an old Python" "it needs Python 3.9 or later" old_python

row "\`warcdx has ended with\`, \`warcdx-gz has ended with\`"
# shellcheck disable=SC2016 # the other shell expands it
printf '#!/bin/sh\n[ "$1" != --help ] || exec "%s" "$@"\nkill -9 $$\n' "$program" > killed
chmod 755 killed
shows "a program that is killed" "warcdx has ended with signal 9" run_python verify --program ./killed "$root/samples/damaged.warc"

row "\`a pipe can be read only once, by list, verify or index; save it to a file\`"
row "\`the query is refused\`"
row "\`no index has a capture of it\`"
"$program" index "$root/samples/response.warc" > response.cdxj
shows "no capture" "no index has a capture of it" run_python fetch --program "$program" --index response.cdxj http://example.com/none
row "\`it is a revisit, and no index has its original\`"
row "\`OtherRecord\`"
sed 's/2016-09-19T/2016-09-20T/' "$root/samples/response.warc" > response.warc
shows "an archive that was replaced" "OtherRecord 0: it isn't the record of the index line" run_python fetch --program "$program" --index response.cdxj http://example.com/
cp "$root/samples/response.warc" .
row "\`it is there, and isn't replaced\`"
: > there
shows "a file" "it is there, and isn't replaced" run_python fetch --program "$program" --index response.cdxj --archives "$root/samples" -o there http://example.com/
row "\`isn't a file of --resume, and stays as it is: give another name\`, \`isn't a regular file\`"
echo other > notes
shows "a file of another program" "isn't a file of --resume, and stays as it is" run_python verify --program "$program" --resume notes "$root/samples/wget.warc"
shows "a folder" "isn't a regular file" run_python verify --program "$program" --resume . "$root/samples/wget.warc"
row "\`no digest was compared\`"
shows "an archive without digests" "no digest was compared" run_python verify --program "$program" response.warc

row "\`a process has ended with signal\`"
row "\`the archive ends in the record\`"

row "\`another process updates this index\`"
prepare_locked() {
    run_python update --program "$program" --quiet folder locked
}
prints "a first run" "" prepare_locked
# Another process has the database, as an update has.
locked() {
    python3 -c 'if True:
        import sqlite3, subprocess, sys
        database = sqlite3.connect("locked.d/state.db", isolation_level=None)
        database.execute("BEGIN EXCLUSIVE")
        sys.exit(subprocess.call(sys.argv[1:]))
    ' "$root/python/bin/warcdx-update" --program "$program" --quiet folder locked
}
shows "a second run" "another process updates this index" locked

update() { # ARGUMENT..
    run_python update --program "$program" --quiet "$@"
}

row "\`as it is, and it isn't replaced: give another INDEX\`, \`isn't a regular file, and isn't replaced\`"
echo x > text
shows "another file" "as it is, and it isn't replaced" update folder text
mkfifo indexpipe
shows "a pipe as index" "isn't a regular file, and isn't replaced" update folder indexpipe

row "\`archives are gone, the first of them\`, \`is gone; the index keeps its captures\`"
mkdir leaving
cp folder/*.warc leaving
cp response.warc leaving/more.warc
update leaving left
rm leaving/more.warc
shows "an archive that is gone" "is gone; the index keeps its captures" update leaving left
rm leaving/*
shows "archives that are gone" "archives are gone, the first of them" update leaving left

row "\`it is the index of another folder,\`, \`it was made .. --recursive: .., or give another INDEX\`, \`it was made with --types\`, \`give the same, or another INDEX\`"
shows "another folder" "it is the index of another folder," update leaving locked
shows "another option" "it was made without --recursive" update --recursive folder locked
shows "other types" "it was made with --types response,resource,revisit" update --types metadata folder locked

row "\`is a file; FOLDER is the folder that has the archives\`"
shows "an archive" "is a file; FOLDER is the folder that has the archives" update wget.warc locked
row "\`the folder of archives is in the folder of the index,\`, \`with --recursive, the folder of the index,\`, \`can't be in the folder of archives; give another INDEX\`"
shows "archives in the index" "the folder of archives is in the folder of the index," update locked.d locked
shows "the index in the archives" "with --recursive, the folder of the index," update --recursive folder folder/all.cdxj

row "\`warcdx-update hasn't made all that is in\`, \`and doesn't use it\`"
mkdir other.d
touch other.d/thesis.txt
shows "other files in the folder" "warcdx-update hasn't made all that is in" update folder other

row "\`warcdx-update hasn't made\`, \`and doesn't replace it\`"
update folder currentindex
rm currentindex.d/current
touch currentindex.d/current
shows "another file in the folder" "and doesn't replace it" update folder currentindex

row "\`is a link that leads to nothing; is its disk mounted?\`"
ln -s nosuch linked.d
shows "a folder that isn't there" "is a link that leads to nothing; is its disk mounted?" update folder linked

row "\`another version of warcdx-update has made\`, \`state.db: file is not a database\`, \`state.db: database disk image is malformed\`"
database() { # FILE COMMAND
    python3 -c 'import sqlite3, sys; sqlite3.connect(sys.argv[1], isolation_level=None).execute(sys.argv[2])' "$@"
}
update folder changed
database changed.d/state.db "PRAGMA user_version = 9"
shows "another version" "another version of warcdx-update has made" update folder changed
database changed.d/state.db "PRAGMA user_version = 2"
head -c 1000 /dev/zero > changed.d/state.db
shows "another database" "state.db: file is not a database" update folder changed

row "\`state.db isn't as warcdx-update has written it;\`, \`state.db is missing;\`, \`restore it from a backup, or move the index away and make it anew\`"
update folder altered
database altered.d/state.db "DELETE FROM settings"
shows "a database without settings" "state.db isn't as warcdx-update has written it; restore it from a backup, or move the index away and make it anew" update folder altered
rm altered.d/state.db
shows "a folder without a database" "state.db is missing; restore it from a backup, or move the index away and make it anew" update folder altered

row "\`state.db: unable to open database file\`, \`state.db: disk I/O error\`"
update folder unopened
mkdir unopened.d/state.db-journal
shows "a database that can't be written" "state.db: disk I/O error" update folder unopened

row "\`archives can't be indexed anew whose runs are missing or damaged, such as\`"
mkdir lost
cp response.warc lost
update lost lostindex
rm lost/response.warc lostindex.d/runs/*
cp wget.warc lost
shows "a lost run" "archives can't be indexed anew whose runs are missing or damaged, such as" update lost lostindex

row "\`the system hasn't given the status of the program\`"
row "\`something else has removed\`"

row "\`is large, and each update writes all of it\`, \`.d is the same index, and costs only what is new\`"
row "\`the archives of runs have N captures, and the runs M, or these were changed\`"
row "\`an ADDRESS is HOST:PORT, as the scheduler prints it\`"
row "\`the module distributed is missing (Debian's package python3-distributed)\`, \`Python's package surt is missing\`"

body() { # FILE: the body of the record
    PYTHONPATH=$root/python python3 -c 'if True:
        import sys, warcdx
        try:
            sys.stdout.buffer.write(warcdx.payload(sys.stdin.buffer.read()))
        except warcdx.Unreadable as fault:
            sys.exit(str(fault))
    ' < "$1"
}
record_with() { # FIELD BODY: a record of a response with this field
    local block LC_ALL=C
    block=$(printf 'HTTP/1.1 200 OK\r\n%s\r\n\r\n%s' "$1" "$2")
    printf 'WARC/1.0\r\nWARC-Type: response\r\nWARC-Record-ID: <urn:x>\r\nWARC-Date: 2016\r\nContent-Type: application/http\r\nContent-Length: %d\r\n\r\n%s\r\n\r\n' "${#block}" "$block"
}

row "\`the body is cut\`, \`the body can't be decompressed\`, \`bytes follow the compressed body\`, \`a chunk has a size that is none, or more bytes than its size\`"
record_with "Transfer-Encoding: chunked" $'5\r\nabc' > cut.warc
shows "a chunk that is cut" "the body is cut" body cut.warc
record_with "Transfer-Encoding: chunked" $'1\r\na\r\n3\r\nabcd\r\n0\r\n\r\n' > chunks.warc
shows "a chunk that is too long" "a chunk has a size that is none, or more bytes than its size" body chunks.warc
record_with "Content-Encoding: gzip" $'\x1f\x8babc' > packed.warc
shows "gzip that is damaged" "the body can't be decompressed" body packed.warc
row "\`; the record is truncated:\` behind one of these"
sed 's/^WARC-Date/WARC-Truncated: length\r\nWARC-Date/' cut.warc > truncated.warc
shows "a truncated record" "; the record is truncated: 'length'" body truncated.warc

row "\`the coding .. needs the module brotli (Debian's package python3-brotli)\`"
row "\`the coding .. can't be undone\`, \`the body has more than .. codings\`"
record_with "Content-Encoding: zstd" $'\x28\xb5\x2f\xfd' > other.warc
shows "another coding" "can't be undone" body other.warc

row "\`the body is longer than is allowed, or unpacks to more\`, \`the body takes longer to unpack than is allowed\`"

row "\`the input isn't a record\`, \`the record has no length\`, \`the head of the record is too long\`, \`the HTTP head doesn't end\`"
shows "another file" "the input isn't a record" body text

# The tests of the gateway have its refusals, and what it says of indexes.
rows_of_refusals() { # NAMES..
    local names
    for names in "$@"; do
        # shellcheck disable=SC2016,SC2086 # several names
        row "$(printf '`refused %s`, ' $names | sed 's/, $//')"
    done
}
rows_of_refusals Host BadBody "BadPage BadSort BadQuery" "TooMany TooLarge" "TooSlow TooBusy"
row "\`the old rules stay in use\` on standard error"
row "\`the old settings stay in use\` on standard error"
row "\`the access log stays the one of before\` on standard error"
row "\`a worker can't be started:\` on standard error"
row "\`This capture can't be shown.\`, with status 451"
row "\`The index doesn't fit the archive.\`, with status 502"
rows_of_refusals Changed
row "\`an index in use was changed: replace indexes by mv\` on standard error"
row "\`the old indexes stay in use\`, and \`/health\` says \`the old indexes are in use\`"
row "\`couldn't be checked\`"
