//! The header of a record.
use crate::lanes::{self, breaks, load, load_word, token_length};
use crate::numbers::number;
use crate::unusual;
use std::ops::Range;

const VERSION: usize = 10; // bytes of the first line
const MOST_DIGITS: usize = 18; // of Content-Length

/// The types of records. Any other is `other`.
pub const TYPES: [&str; 8] =
    ["warcinfo", "response", "resource", "request", "metadata", "revisit", "conversion", "continuation"];
pub const RESPONSE: usize = 1;

/// A header: ranges of bytes from its start.
#[derive(Default)]
pub struct Head {
    /// The bytes up to the block.
    pub length: usize,
    pub block_length: u64,
    /// The number of its type in `TYPES`, or their count.
    pub record_type: usize,
    pub date: usize,
    pub target: Range<usize>,
    pub payload_digest: Range<usize>,
    pub content_type: Range<usize>,
    required: Required,
}

/// How often the fields were met that each record has once.
#[derive(Default, PartialEq)]
struct Required {
    ids: u32,
    lengths: u32,
    dates: u32,
    types: u32,
}

const EACH: Required = Required { ids: 1, lengths: 1, dates: 1, types: 1 };

/// The lines of a text, found 64 bytes at a time.
pub struct Lines {
    text: *const u8,
    length: usize,
    word: usize,
    breaks: u64,
    start: usize,
}

impl Lines {
    /// The lines after `start`, which is less than 64.
    #[inline(always)]
    pub unsafe fn after(text: *const u8, length: usize, start: usize) -> Self {
        Lines { text, length, word: 0, breaks: breaks(text) & !0 << start, start }
    }

    /// Returns the next line without its CR LF, or `None` if it isn't ended by them within the text.
    #[inline(always)]
    pub unsafe fn next(&mut self) -> Option<Range<usize>> {
        while self.breaks == 0 {
            self.go_on();
            if self.word >= self.length {
                return None;
            }
        }
        let end = self.word + self.breaks.trailing_zeros() as usize;
        if end + 1 >= self.length {
            return None;
        }
        if self.text.add(end).cast::<[u8; 2]>().read_unaligned() != *b"\r\n" {
            unusual();
        }
        self.drop_break();
        if self.breaks == 0 && end + 1 == self.word + 64 {
            self.go_on();
        }
        self.drop_break();
        let line = self.start..end;
        self.start = end + 2;
        Some(line)
    }

    #[inline(always)]
    unsafe fn go_on(&mut self) {
        self.word += 64;
        self.breaks = breaks(self.text.add(self.word));
    }

    #[inline(always)]
    fn drop_break(&mut self) {
        self.breaks &= self.breaks.wrapping_sub(1);
    }
}

/// Reads the header at the start of a text, or returns `None` if it doesn't end within the text.
#[inline(always)]
pub unsafe fn read_head(text: *const u8, length: usize) -> Option<Head> {
    if length < VERSION {
        return None;
    }
    let version = load_word(text).to_le_bytes();
    if &version != b"WARC/1.0" && &version != b"WARC/1.1" || *text.add(8) != b'\r' || *text.add(9) != b'\n' {
        unusual();
    }
    let mut head = Head { record_type: TYPES.len(), ..Head::default() };
    let mut lines = Lines::after(text, length, VERSION);
    loop {
        let line = lines.next()?;
        if line.is_empty() {
            if head.required != EACH {
                unusual();
            }
            head.length = line.end + 2;
            return Some(head);
        }
        read_field(text, line, &mut head);
    }
}

#[inline(always)]
unsafe fn read_field(text: *const u8, line: Range<usize>, head: &mut Head) {
    let name = text.add(line.start);
    let length = token_length(name);
    if length == 0 || line.start + length >= line.end || *name.add(length) != b':' {
        unusual();
    }
    let value = trimmed(text, line.start + length + 1..line.end);
    match length {
        9 if is_name(name, b"warc-date") => {
            if !is_date(text.add(value.start), value.len()) {
                unusual();
            }
            head.date = value.start;
            head.required.dates += 1;
        }
        9 if is_name(name, b"warc-type") => {
            let written = std::slice::from_raw_parts(text.add(value.start), value.len());
            let is_written = |name: &&str| written.eq_ignore_ascii_case(name.as_bytes());
            head.record_type = TYPES.iter().position(is_written).unwrap_or(TYPES.len());
            head.required.types += 1;
        }
        14 if is_name(name, b"warc-record-id") => head.required.ids += 1,
        14 if is_name(name, b"content-length") => {
            let Some(length) = number(text.add(value.start), value.len()) else { unusual() };
            if value.len() > MOST_DIGITS {
                unusual();
            }
            head.block_length = length;
            head.required.lengths += 1;
        }
        15 if head.target.is_empty() && is_name(name, b"warc-target-uri") => head.target = value,
        19 if head.payload_digest.is_empty() && is_name(name, b"warc-payload-digest") => head.payload_digest = value,
        12 if head.content_type.is_empty() && is_name(name, b"content-type") => head.content_type = value,
        _ => {}
    }
}

/// Returns a range without the spaces and tabs at its ends.
#[inline(always)]
pub unsafe fn trimmed(text: *const u8, mut range: Range<usize>) -> Range<usize> {
    let is_blank = |at: usize| matches!(*text.add(at), b' ' | b'\t');
    while range.start < range.end && is_blank(range.start) {
        range.start += 1;
    }
    while range.start < range.end && is_blank(range.end - 1) {
        range.end -= 1;
    }
    range
}

/// Returns whether a name is this one, of at least 8 bytes in small letters and `-`, in any case.
#[inline(always)]
pub unsafe fn is_name<const LENGTH: usize>(name: *const u8, wanted: &[u8; LENGTH]) -> bool {
    const CASE: u64 = 0x2020_2020_2020_2020; // `-` has this bit
    load_word(name) | CASE == load_word(wanted.as_ptr())
        && load_word(name.add(LENGTH - 8)) | CASE == load_word(wanted.as_ptr().add(LENGTH - 8))
}

/// Returns whether a text is a time in seconds in UTC, as `2016-09-19T17:20:24Z`.
#[inline(always)]
unsafe fn is_date(text: *const u8, length: usize) -> bool {
    if length != 20 {
        unusual();
    }
    let are_digits = lanes::digits(load(text)) == 0b1101_1011_0110_1111;
    let digit = |at: usize| u32::from((*text.add(at)).wrapping_sub(b'0'));
    let two = |at: usize| digit(at) * 10 + digit(at + 1);
    let are_signs = [(4, b'-'), (7, b'-'), (10, b'T'), (13, b':'), (16, b':'), (19, b'Z')]
        .iter()
        .all(|&(at, sign)| *text.add(at) == sign);
    let (year, month, day) = (two(0) * 100 + two(2), two(5), two(8));
    are_digits
        && are_signs
        && digit(17) <= 5
        && digit(18) <= 9
        && (1..=12).contains(&month)
        && day >= 1
        && (day <= 28 || day <= days(year, month))
        && two(11) <= 23
        && two(14) <= 59
}

fn days(year: u32, month: u32) -> u32 {
    match month {
        2 if year % 4 == 0 && (year % 100 != 0 || year % 400 == 0) => 29,
        2 => 28,
        4 | 6 | 9 | 11 => 30,
        _ => 31,
    }
}
