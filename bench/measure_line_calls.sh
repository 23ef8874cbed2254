#!/usr/bin/env bash
# Measures the calls that make keys and read and write index lines, and compares them with calls of the crates that they use.
#
# usage: measure_line_calls.sh
#
# The same 100,000 lines are used in one process, which a small program makes. It is proved and built in a copy of the crates in a temporary folder.
# Prints nanoseconds and ratios. The exit status is 0, or 1 if a ratio exceeds its goal:
#
#   reading a line as it is written, over serde_json's reading of its object      at most 0.30
#   reading a line with a number for its status, over the same                    at most 1.60
#   write_line, over serde_json's writing of its seven texts                      at most 1.20
#   url_key, over Url::parse                                                      at most 1.50
#
# Needs the Rattle kit, with its rt on the PATH.
set -euo pipefail
source "$(dirname "$0")/../tests/program.sh"
read_help "$@"
if [ $# -gt 0 ]; then stop_usage "unexpected argument '$1'"; fi
if ! type -P rt > /dev/null; then
    echo "$script: rt is not on the PATH" >&2
    exit 77
fi

copy=$(mktemp -d)
trap 'rm -rf "$copy"' EXIT
mkdir -p "$copy/crates/bench_lines/src"
cp -r "$root"/crates/{cdxj_core,cdxj_keys,cdxj_objects,cdxj_places} "$copy/crates/"
grep -E '^cdxj_(core|keys|objects|places):' "$root/crates.txt" > "$copy/crates.txt"
echo 'bench_lines: cdxj_core url serde_json anyhow' >> "$copy/crates.txt"
echo 'Handles allowed: none.' > "$copy/HANDLES"
git -C "$copy" init -q
cat > "$copy/crates/bench_lines/src/main.rt" <<'PROGRAM'
// Prints a name and a ratio in thousandths on each line, and the times in nanoseconds.
#![tactic(auto)]

ghost use Rattle.cdxj_core.specs.Entries.{IsGood};

use cdxj_core::{Entry, Field, Line, LineRef, url_key, write_line};
use serde_json::Value;
use std::alloc::Global;
use std::time::Instant;
use url::Url;

const LINES: u64 = 100_000;

const ROUNDS: u32 = 15;

fn entry(alloc: Global, number: u64) -> anyhow::Result<Entry> {
    Ok(Entry {
        key: format!(in alloc; "com,example)/articles/{number}/index.html")?,
        stamp: *b"20160919172024",
        url: format!(in alloc; "http://www.example.com/articles/{number}/index.html")?,
        mime: String::from_str(alloc, "text/html")?,
        status: String::from_str(alloc, "200")?,
        digest: String::from_str(alloc, "3I42H3S6NNFQ2MSVX7XZKYAYSCX5QBYJ")?,
        length: number % 100_000 + 264,
        offset: number,
        filename: String::from_str(alloc, "EXAMPLE-20160919172024-00000.warc")?,
    })
}

fn foreign(alloc: Global, number: u64) -> anyhow::Result<String> {
    Ok(format!(in alloc; "com,example)/articles/{number}/index.html 20160919172024 {{\"url\": \"http://www.example.com/articles/{number}/index.html\", \"mime\": \"text/html\", \"status\": 200, \"digest\": \"3I42H3S6NNFQ2MSVX7XZKYAYSCX5QBYJ\", \"length\": \"1043\", \"offset\": \"{number}\", \"filename\": \"EXAMPLE-20160919172024-00000.warc\"}}\n")?)
}

fn object_of(line: &str) -> &str {
    match line.split_once('{') {
        Some((_front, rest)) => line.get(line.len().saturating_sub(rest.len() + 1)..).unwrap_or(""),
        None => "",
    }
}

fn add(total: &mut u64, length: usize) {
    *total = total.wrapping_add(length as u64);
}

// Each function does its work once over all lines, and gives a sum of lengths, so that no work is left out.

fn read_objects(alloc: Global, lines: &[String]) -> anyhow::Result<u64> {
    let mut total = 0;
    for line in lines {
        match Value::from_str(alloc, object_of(line.as_str())) {
            Ok(value) => add(&mut total, value.get("url").and_then(|v| v.as_str()).map_or(0, |t| t.len())),
            Err(_error) => {}
        }
    }
    Ok(total)
}

fn read_lines(alloc: Global, lines: &[String]) -> anyhow::Result<u64> {
    let mut total = 0;
    for line in lines {
        match LineRef::plain(line.as_bytes()) {
            Some(read) => add(&mut total, read.value(Field::Original).len()),
            None => match Line::read(alloc, line.as_bytes()) {
                Ok(read) => add(&mut total, read.values().value(Field::Original).len()),
                Err(_fault) => {}
            },
        }
    }
    Ok(total)
}

fn write_texts(alloc: Global, entries: &[Entry]) -> anyhow::Result<u64> {
    let mut total = 0;
    for entry in entries {
        for text in [
            entry.url.as_str(),
            entry.mime.as_str(),
            entry.status.as_str(),
            entry.digest.as_str(),
            "1043",
            "333",
            entry.filename.as_str(),
        ] {
            add(&mut total, Value::try_from_str(alloc, text)?.to_vec(alloc)?.len());
        }
    }
    Ok(total)
}

fn write_lines(alloc: Global, entries: &[Entry]) -> anyhow::Result<u64> {
    let mut total = 0;
    for entry in entries {
        if entry.good() {
            add(&mut total, write_line(alloc, entry)?.len());
        }
    }
    Ok(total)
}

fn parse_urls(alloc: Global, entries: &[Entry]) -> anyhow::Result<u64> {
    let mut total = 0;
    for entry in entries {
        match Url::parse(alloc, entry.url.as_str()) {
            Ok(url) => add(&mut total, url.path().len()),
            Err(_error) => {}
        }
    }
    Ok(total)
}

fn make_keys(alloc: Global, entries: &[Entry]) -> anyhow::Result<u64> {
    let mut total = 0;
    for entry in entries {
        add(&mut total, url_key(alloc, entry.url.as_str())?.len());
    }
    Ok(total)
}

fn main(rt: HostRuntime) -> anyhow::Result<()> {
    let alloc = rt.alloc();
    let mut entries = Vec::new(alloc);
    let mut written = Vec::new(alloc);
    let mut numbered = Vec::new(alloc);
    for number in 0..LINES {
        let entry = entry(alloc, number)?;
        if entry.good() {
            let line = write_line(alloc, &entry)?;
            written.push(String::from_utf8(line)?)?;
        }
        entries.push(entry)?;
        numbered.push(foreign(alloc, number)?)?;
    }
    let mut best = [u128::MAX; 8];
    let mut total = 0u64;
    for _ in 0..ROUNDS {
        for (work, slot) in best.iter_mut().enumerate() {
            let start = Instant::now(&rt)?;
            let sum = match work {
                0 => read_objects(alloc, &written)?,
                1 => read_lines(alloc, &written)?,
                2 => read_objects(alloc, &numbered)?,
                3 => read_lines(alloc, &numbered)?,
                4 => write_texts(alloc, &entries)?,
                5 => write_lines(alloc, &entries)?,
                6 => parse_urls(alloc, &entries)?,
                _ => make_keys(alloc, &entries)?,
            };
            let time = start.elapsed(&rt)?.as_nanos() / u128::from(LINES);
            total = total.wrapping_add(sum);
            if time < *slot {
                *slot = time;
            }
        }
    }
    let [objects, plain, numbers, foreign, texts, lines, urls, keys] = best;
    for (name, time, base) in [
        ("written", plain, objects),
        ("numbered", foreign, numbers),
        ("write_line", lines, texts),
        ("url_key", keys, urls),
    ] {
        let ratio = time.saturating_mul(1000).checked_div(base).unwrap_or(0);
        println!(rt; "{name} {ratio} {time} {base}")?;
    }
    println!(rt; "sum {total}")?;
    Ok(())
}
PROGRAM
(cd "$copy/crates/bench_lines" && rt run) > "$copy/out.txt" 2> "$copy/err.txt" || { tail -20 "$copy/err.txt" >&2; exit 1; }
printf '%-42s %8s %8s %7s %7s\n' 'nanoseconds a line' 'ours' 'base' 'ratio' 'limit'
status=0
row() {
    read -r _ ratio time base < <(grep "^$1 " "$copy/out.txt")
    printf '%-42s %8d %8d %7s %7s\n' "$2" "$time" "$base" "$(printf '%d.%03d' $((ratio / 1000)) $((ratio % 1000)))" "$4"
    if [ "$ratio" -gt "$3" ]; then
        status=1
    fi
}
row written 'LineRef::plain, lines as they are written' 300 0.300
row numbered 'Line::read, lines with a number' 1600 1.600
row write_line 'write_line' 1200 1.200
row url_key 'url_key' 1500 1.500
exit $status
