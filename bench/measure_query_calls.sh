#!/usr/bin/env bash
# Measures the calls that read queries and match lines, and compares them with calls of the crates that they use.
#
# usage: measure_query_calls.sh
#
# A small program makes the measurements in one process. It is proved and built in a copy of the crates in a temporary folder.
# Prints nanoseconds and ratios. The exit status is 0, or 1 if a ratio exceeds its goal:
#
#   reading a query of 200 bytes, over Url::parse of its target                   at most 3
#   matching 100,000 lines that are held, over the reading of those lines         at most 0.50
#     each with an exact and with a prefix query, of lines that were read and of kept lines
#
# Needs the Rattle kit, with its rt on the PATH.
set -euo pipefail
source "$(dirname "$0")/../tests/program.sh"
read_help "$@"
if [ $# -gt 0 ]; then stop_usage "unexpected argument '$1'"; fi
if ! type -P rt > /dev/null; then
    echo "$script: rt is not on the PATH" >&2
    exit 77
fi

copy=$(mktemp -d)
trap 'rm -rf "$copy"' EXIT
mkdir -p "$copy/crates/bench_queries/src"
cp -r "$root"/crates/{query_text,cdxj_core,cdxj_keys,cdxj_objects,cdxj_places} "$copy/crates/"
grep -E '^(query_text|cdxj_(core|keys|objects|places)):' "$root/crates.txt" > "$copy/crates.txt"
echo 'bench_queries: query_text cdxj_core url anyhow' >> "$copy/crates.txt"
echo 'Handles allowed: none.' > "$copy/HANDLES"
git -C "$copy" init -q
cat > "$copy/crates/bench_queries/src/main.rt" <<'PROGRAM'
// Prints a name and a ratio in thousandths on each line, and the times in nanoseconds.
#![tactic(auto)]

use cdxj_core::{Field, Line, LineRef};
use query_text::Query;
use std::alloc::Global;
use std::time::Instant;
use url::Url;

const LINES: u64 = 100_000;

const ROUNDS: u32 = 15;

fn address(alloc: Global, number: u64) -> anyhow::Result<String> {
    Ok(format!(in alloc; "http://www.example.com/articles/{number}/index.html")?)
}

// 200 bytes.
fn query(alloc: Global, number: u64) -> anyhow::Result<String> {
    Ok(format!(in alloc; "url=http://www.example.com/articles/{number}/index.html&from=2016&to=201706&filter=mimetype:text/html&is=statuscode:200&limit=10000&showResumeKey=true&fl=urlkey,timestamp,original,statuscode&output=json")?)
}

fn line(alloc: Global, number: u64) -> anyhow::Result<String> {
    Ok(format!(in alloc; "com,example)/articles/{number}/index.html 20160919172024 {{\"url\": \"http://www.example.com/articles/{number}/index.html\", \"mime\": \"text/html\", \"status\": \"200\", \"digest\": \"3I42H3S6NNFQ2MSVX7XZKYAYSCX5QBYJ\", \"length\": \"1043\", \"offset\": \"{number}\", \"filename\": \"EXAMPLE-20160919172024-00000.warc\"}}\n")?)
}

fn add(total: &mut u64, length: usize) {
    *total = total.wrapping_add(length as u64);
}

// Each function does its work once over all texts or lines, and gives a sum, so that no work is left out.

fn parse_urls(alloc: Global, addresses: &[String]) -> anyhow::Result<u64> {
    let mut total = 0;
    for address in addresses {
        match Url::parse(alloc, address.as_str()) {
            Ok(url) => add(&mut total, url.path().len()),
            Err(_error) => {}
        }
    }
    Ok(total)
}

fn read_queries(alloc: Global, queries: &[String]) -> anyhow::Result<u64> {
    let mut total = 0;
    for text in queries {
        add(&mut total, Query::read(alloc, text.as_str())?.target().text().len());
    }
    Ok(total)
}

fn read_lines(alloc: Global, lines: &[String]) -> anyhow::Result<u64> {
    let mut total = 0;
    for line in lines {
        match Line::read(alloc, line.as_bytes()) {
            Ok(read) => add(&mut total, read.values().value(Field::Original).len()),
            Err(_fault) => {}
        }
    }
    Ok(total)
}

fn match_lines(query: &Query, lines: &[LineRef<'_>]) -> u64 {
    let mut total = 0;
    for line in lines {
        add(&mut total, usize::from(query.matches(line)));
    }
    total
}

fn match_kept(query: &Query, lines: &[Line]) -> u64 {
    let mut total = 0;
    for line in lines {
        add(&mut total, usize::from(query.matches_kept(line)));
    }
    total
}

fn main(rt: HostRuntime) -> anyhow::Result<()> {
    let alloc = rt.alloc();
    let mut addresses = Vec::new(alloc);
    let mut queries = Vec::new(alloc);
    let mut lines = Vec::new(alloc);
    for number in LINES..2 * LINES {
        addresses.push(address(alloc, number)?)?;
        queries.push(query(alloc, number)?)?;
        lines.push(line(alloc, number)?)?;
    }
    println!(rt; "bytes {}", queries.first().map_or(0, |text| text.len()))?;
    let mut kept = Vec::new(alloc);
    for line in lines.as_slice() {
        kept.push(Line::read(alloc, line.as_bytes())?)?;
    }
    let mut read = Vec::new(alloc);
    for line in kept.as_slice() {
        read.push(line.values())?;
    }
    let exact = Query::read(alloc, "url=example.com/articles/150000/index.html")?;
    let prefix = Query::read(alloc, "url=example.com/articles/*&from=2016")?;
    let mut best = [u128::MAX; 7];
    let mut total = 0u64;
    for _ in 0..ROUNDS {
        for (work, slot) in best.iter_mut().enumerate() {
            let start = Instant::now(&rt)?;
            let sum = match work {
                0 => parse_urls(alloc, &addresses)?,
                1 => read_queries(alloc, &queries)?,
                2 => read_lines(alloc, &lines)?,
                3 => match_lines(&exact, &read),
                4 => match_lines(&prefix, &read),
                5 => match_kept(&exact, &kept),
                _ => match_kept(&prefix, &kept),
            };
            let time = start.elapsed(&rt)?.as_nanos() / u128::from(LINES);
            total = total.wrapping_add(sum);
            if time < *slot {
                *slot = time;
            }
        }
    }
    let [urls, texts, reading, exact, prefix, exact_kept, prefix_kept] = best;
    for (name, time, base) in [
        ("read", texts, urls),
        ("exact", exact, reading),
        ("prefix", prefix, reading),
        ("exact_kept", exact_kept, reading),
        ("prefix_kept", prefix_kept, reading),
    ] {
        let ratio = time.saturating_mul(1000).checked_div(base).unwrap_or(0);
        println!(rt; "{name} {ratio} {time} {base}")?;
    }
    println!(rt; "sum {total}")?;
    Ok(())
}
PROGRAM
(cd "$copy/crates/bench_queries" && rt run) > "$copy/out.txt" 2> "$copy/err.txt" || { tail -20 "$copy/err.txt" >&2; exit 1; }
printf '%-42s %8s %8s %7s %7s\n' 'nanoseconds a text or line' 'ours' 'base' 'ratio' 'limit'
status=0
row() {
    read -r _ ratio time base < <(grep "^$1 " "$copy/out.txt")
    printf '%-42s %8d %8d %7s %7s\n' "$2" "$time" "$base" "$(printf '%d.%03d' $((ratio / 1000)) $((ratio % 1000)))" "$4"
    if [ "$ratio" -gt "$3" ]; then
        status=1
    fi
}
row read 'Query::read, 200 bytes' 3000 3.000
row exact 'matches, exact' 500 0.500
row prefix 'matches, prefix' 500 0.500
row exact_kept 'matches_kept, exact' 500 0.500
row prefix_kept 'matches_kept, prefix' 500 0.500
exit $status
