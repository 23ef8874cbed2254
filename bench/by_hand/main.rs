//! `list`, `index`, `check`, `merge` and a `query` of warcdx by hand, with unsafe code: how fast they could be.
//!
//! They check what warcdx checks and write what it writes, but take archives and indexes in the usual form alone: each
//! record of a crawler with CR LF, its payload's digest given, and each line as `warcdx index` writes it. At anything
//! else they end with exit status 9.
//!
//!     rustc -O -C target-cpu=x86-64-v2 main.rs -o by_hand
mod archives;
mod captures;
mod heads;
mod lanes;
mod lines;
mod merging;
mod numbers;
mod querying;

use std::io::{self, Write};
use std::process::{ExitCode, exit};

const ROOM: usize = 1 << 16; // bytes that are written at once

/// Text for standard output.
pub struct Output {
    pub text: Vec<u8>,
}

impl Output {
    pub fn new() -> Self {
        Output { text: Vec::with_capacity(2 * ROOM) }
    }

    #[inline(always)]
    pub fn write_if_full(&mut self) -> io::Result<()> {
        if self.text.len() < ROOM { Ok(()) } else { self.write() }
    }

    pub fn write(&mut self) -> io::Result<()> {
        io::stdout().write_all(&self.text)?;
        self.text.clear();
        io::stdout().flush()
    }
}

/// Ends the program at what isn't in the usual form.
#[cold]
pub fn unusual() -> ! {
    exit(9)
}

fn run(arguments: &[String]) -> io::Result<()> {
    match arguments {
        [command, files @ ..] if !files.is_empty() => match command.as_str() {
            "list" => archives::list(files),
            "index" => archives::index(files),
            "check" => merging::check(files),
            "merge" => merging::merge(files),
            "query" => querying::query(files),
            _ => unusual(),
        },
        _ => unusual(),
    }
}

fn main() -> ExitCode {
    let arguments: Vec<String> = std::env::args().skip(1).collect();
    match run(&arguments) {
        Ok(()) => ExitCode::SUCCESS,
        Err(error) => {
            eprintln!("by_hand: {error}");
            ExitCode::from(3)
        }
    }
}
