#!/usr/bin/env bash
# Checks the files of examples/service that run warcdx-update every night, and runs their commands on the samples.
#
# usage: nightly.sh [PROGRAM]
#
# `systemd-analyze verify` has to accept the units, and `systemd-analyze calendar` the time. The commands of the unit and of the line for cron run
# with other folders, also with the option that the files and docs/FOLDER.md name for archives that are removed. The page has to have the same line
# for crontab. systemd and cron themselves don't run.
#
# Prints a line for each check, and the counts. The exit status is 0, 1 if a check fails, or 77 if Debian's package systemd is missing.
set -euo pipefail
source "$(dirname "$0")/../program.sh"
read_program "$@"
read_packed
need systemd-analyze:systemd

service=$root/examples/service
work=$(mktemp -d)
trap 'rm -rf "$work"' EXIT
mkdir "$work/bin" "$work/state" "$work/units"
ln -s "$program" "$work/bin/warcdx"
ln -s "$root"/python/bin/* "$work/bin"
export PATH=$work/bin:$PATH
captures=$(warcdx index "$root/samples/response.warc" "$root/samples/wget.warc" | wc -l)
mkdir "$work/data"
cp "$root"/samples/{response,wget}.warc "$work/data"

value_of() { # FILE NAME: of a line NAME=VALUE
    sed -n "s/^$2=//p" "$1"
}

runs() { # COMMAND: runs it on the archives here, and prints the number of captures
    rm -rf "$work"/state/*
    # shellcheck disable=SC2016 # the unit has this word
    (cd "$work" && bash -c "$(sed -e 's:${STATE_DIRECTORY}:/srv:' -e 's: /data : data :' -e 's:/srv/:state/:' -e 's:^/usr/bin/::' <<< "$1")" 2>&1)
    cat "$work"/state/all.cdxj.d/current/*.cdxj | wc -l
}

# What cron runs of a command: a % without a backslash before it ends the line, and the rest is standard input.
as_cron_reads() { # COMMAND
    sed -E 's/(^|[^\\])%.*/\1/; s/\\%/%/g' <<< "$1"
}

with_option() { # OPTION COMMAND
    printf '%s %s /data %s\n' "${2% /data *}" "$1" "${2##* /data }"
}

option_in() { # FILE: that it names for archives that are removed
    # shellcheck disable=SC2016 # the page has this sign
    sed -nE 's/.*[ `](--remove 1[^ `]*).*/\1/p' "$1"
}

for unit in "$service"/warcdx-update.{service,timer}; do
    sed -e "s:/usr/bin/:$root/python/bin/:" -e '/^Documentation=/d' "$unit" > "$work/units/${unit##*/}"
done
expect "systemd-analyze verify" "" "$(systemd-analyze verify --man=no "$work"/units/* 2>&1 | grep warcdx-update)"
expect "the time of the timer" "*-*-* 03:00:00" "$(systemd-analyze calendar "$(value_of "$service/warcdx-update.timer" OnCalendar)" | sed -n 's/^Normalized form: //p')"
expect "the command of the unit" "$captures" "$(runs "$(value_of "$service/warcdx-update.service" ExecStart)")"

option=$(option_in "$service/warcdx-update.service")
expect "the unit with --remove" "$captures" "$(runs "$(with_option "${option/\%\%/%}" "$(value_of "$service/warcdx-update.service" ExecStart)")")" # as systemd reads %%

line=$(grep '^[0-9]' "$service/warcdx-update.cron")
expect "the time for cron" "0 3 * * *" "$(cut -d ' ' -f 1-5 <<< "$line")"
expect "the command for cron" "$captures" "$(runs "$(cut -d ' ' -f 7- <<< "$line")")"
for file in examples/service/warcdx-update.cron docs/FOLDER.md; do
    option=$(option_in "$root/$file" | tail --lines=1)
    expect "cron with --remove, as $file has it" "$captures" "$(runs "$(as_cron_reads "$(with_option "$option" "$(cut -d ' ' -f 7- <<< "$line")")")")"
done
expect "the line of docs/FOLDER.md" "$(cut -d ' ' -f 1-5,7- <<< "$line")" "$(sed -n 's/^    \(0 3 .*\)/\1/p' "$root/docs/FOLDER.md")"
end_script
