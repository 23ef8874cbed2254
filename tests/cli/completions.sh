#!/usr/bin/env bash
# Asks a shell for the completions of command lines of warcdx and of the commands in Python, and compares them
# with the table in this file.
#
# usage: completions.sh SHELL [PROGRAM]      SHELL is bash, zsh or fish
#
# The names of the commands are those that `PROGRAM --help` prints. Prints a line for each case, and the counts. The exit status is 0, or 1
# if a case differs. Needs Debian's packages zsh, also for bash, and fish.
set -euo pipefail
source "$(dirname "$0")/../program.sh"
read_help "$@"
shell=${1-}
case $shell in
    bash | zsh) need zsh ;;
    fish) need fish ;;
    *) stop_usage "'$shell' isn't bash, zsh or fish" ;;
esac
read_program "${@:2}"

completions=$root/completions
work=$(mktemp -d)
trap 'rm -rf "$work"' EXIT

sorted() {
    LC_ALL=C sort | paste --serial --delimiters=' '
}

# shellcheck disable=SC2016 # fish expands it
fish_offers='source $argv[1]; complete -C $argv[2] | cut -f 1'

offered_after() { # LINE: the completions that the shell offers, in order
    local command=${1%% *}
    case $shell in
        bash) zsh "$root/tests/cli/complete_bash.zsh" "$completions/$command.bash" "$1" ;;
        zsh) zsh "$root/tests/cli/complete_zsh.zsh" "$completions" "$1" ;;
        fish) fish --no-config -c "$fish_offers" "$completions/$command.fish" "$1" ;;
    esac < /dev/null | sed "s:/\$::" | LC_ALL=C sort --unique | sorted
}

expect_offers() { # on standard input lines, each with the completions that are wanted after it
    local line wanted
    while IFS='|' read -r line wanted; do
        expect "'$line'" "$wanted" "$(offered_after "$line")"
    done
}

# The shell finds the program, and neither reads nor writes the files of the user.
mkdir "$work/bin" "$work/home" "$work/archives" "$work/indexes"
ln -s "$program" "$work/bin/warcdx"
ln -s "$root"/{python,gateway}/bin/* "$work/bin"
export PATH=$work/bin:$PATH HOME=$work/home
unset XDG_CONFIG_HOME XDG_DATA_HOME XDG_CACHE_HOME ZDOTDIR
commands=$(warcdx --help | sed -n '/^Commands:/,/^$/s/^  \([a-z]*\) .*/\1/p' | sorted)

mkdir "$work/both"
mkdir "$work"/{cdx,settings,folders} "$work/folders/a"
touch "$work/cdx/a.cdx" "$work/settings/a.toml"
touch "$work/archives/a.warc" "$work/indexes/a.cdxj" "$work"/both/{a.warc,b.warc.gz}
cd "$work/archives"
expect_offers << END
warcdx |$commands
warcdx se|serve
warcdx list --h|--help
warcdx --v|--version
warcdx list --t|
warcdx index --t|--types
warcdx index --types re|resource response revisit
warcdx scan --types response,re|response,resource response,revisit
warcdx index --n|--name
warcdx index --|--help --name --types
warcdx index --types resource --|--help --name
warcdx index --name x.warc --|--help --types
warcdx index --name x.warc --types re|resource response revisit
warcdx index --name x.warc --types resource --|--help
warcdx index --name |
warcdx index --name x.warc |a.warc
warcdx scan --name x.warc --types resource 5 url=x |a.warc
warcdx scan --types resource |
warcdx scan --types resource 5 url=x |a.warc
warcdx list |a.warc
warcdx verify |a.warc
warcdx index |a.warc
warcdx scan 5 url=x |a.warc
warcdx get 0 |a.warc
warcdx get |
warcdx get --l|--length
warcdx get --length |
warcdx get --length 5 0 |a.warc
warcdx list --l|
warcdx query |key= url=
END
cd "$work/indexes"
expect_offers << END
warcdx merge |a.cdxj
warcdx check |a.cdxj
warcdx serve |a.cdxj
warcdx query url=x |a.cdxj
warcdx pages 5 url=x |a.cdxj
warcdx pages 5 url=x a.cdxj |a.cdxj
warcdx query url=a|
warcdx pages 5 url=a|
warcdx-gz merge |a.cdxj
warcdx-gz query url=x |a.cdxj
END

cd "$work/both"
expect_offers << END
warcdx-verify |a.warc b.warc.gz
warcdx-verify --|--help --jobs --json --output --program --quiet --resume --version
warcdx-verify --q|--quiet
warcdx-verify --quiet |a.warc b.warc.gz
warcdx-verify --j|--jobs --json
warcdx-verify --jobs |
warcdx-verify --jobs 2 |a.warc b.warc.gz
warcdx-verify a.warc --v|--version
warcdx-fetch --|--all --archives --at --help --index --json --output --program --quiet --record --version
warcdx-fetch --a|--all --archives --at
warcdx-fetch --at |
warcdx-update --|--all-faults --compact --dry-run --help --jobs --json --program --quiet --ratio --recursive --remove --scheduler --single --types --version
warcdx-update --re|--recursive --remove
warcdx-update --jobs |
warcdx-update --remove |
warcdx-update --scheduler |
warcdx-gz |$commands
warcdx-gz se|serve
warcdx-gz --|--help --version
warcdx-gz index --|--help --name --types
warcdx-gz index |a.warc b.warc.gz
warcdx-gz index --types re|resource response revisit
warcdx-gz index --types response,re|response,resource response,revisit
warcdx-gz index --types resource |a.warc b.warc.gz
warcdx-gz list |a.warc b.warc.gz
warcdx-gz list --t|
warcdx-gz verify a.warc |a.warc b.warc.gz
warcdx-gz scan 5 url=x |a.warc b.warc.gz
warcdx-gz get |
warcdx-gz get --l|--length
warcdx-gz get 0 |a.warc b.warc.gz
warcdx-gz query |key= url=
END

cd "$work/cdx"
expect_offers << END
warcdx-cdx |from to
warcdx-cdx --|--help --output --program --version
warcdx-cdx --v|--version
warcdx-cdx --program a.cdx f|from
warcdx-cdx from |a.cdx
warcdx-cdx from a.cdx |a.cdx
warcdx-cdx from --h|--help
warcdx-cdx from --o|--output
warcdx-cdx --output new from |a.cdx
warcdx-cdx from --output new |a.cdx
warcdx-cdx --program x from |a.cdx
END
cd "$work/indexes"
expect_offers << END
warcdx-cdx to |a.cdxj
warcdx-cdx to a.cdxj |a.cdxj
warcdx-gateway --|--address --archives --help --host --indexes --port --program --version --workers
warcdx-gateway --a|--address --archives
warcdx-gateway --port |
warcdx-gateway --indexes |a.cdxj
warcdx-gateway --indexes a.cdxj |a.cdxj
END
cd "$work/settings"
expect_offers << END
warcdx-gateway |a.toml
END
cd "$work/folders"
expect_offers << END
warcdx-gateway --archives |a
warcdx-gateway --indexes a.cdxj --archives |a
warcdx-gateway --indexes a.cdxj --archives a |a
END

expect_none_run() { # on standard input lines with a command that would make the file `run`
    local line
    while read -r line; do
        offered_after "$line" > /dev/null
        expect "what is run by '$line'" "" "$(find "$work" -name run -delete -print)"
    done
}

expect_none_run << 'END'
warcdx index --types '$(touch run)',
warcdx scan --types resource,\`touch\ run\`,re
warcdx list '$(touch run)'
warcdx list \`touch\ run\`/
warcdx query 'url=$(touch run)'
warcdx-verify '$(touch run)'
warcdx-verify --jobs '$(touch run)'
warcdx-gz index --types '$(touch run)',
warcdx-gz list \`touch\ run\`/
warcdx-cdx to '$(touch run)'
warcdx-cdx from \`touch\ run\`/
warcdx-gateway '$(touch run)'
warcdx-gateway --indexes '$(touch run)'
warcdx-update '$(touch run)'
END
if [ "$shell" != zsh ]; then # zsh itself expands a word that isn't quoted, or is so in double quotes
    expect_none_run << 'END'
warcdx index --types "$(touch run),
warcdx scan --types "resource,`touch run`,re
END
fi
end_script
