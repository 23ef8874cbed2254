//! The line of a capture: of a response of HTTP whose payload's digest is given and whose URL needs no escapes.
use crate::heads::{Head, Lines, is_name, trimmed};
use crate::lanes::{controls, load, marks, token_length};
use crate::numbers::push_number;
use crate::unusual;
use std::cmp::Ordering;
use std::ops::Range;
use std::slice::from_raw_parts;

const STAMP: usize = 14; // digits
const MOST_LABELS: usize = 32; // of a host
const OTHERS: usize = 1024; // bytes of a line beside the URL, its key and other values of the header
const QUOTES: u32 = 28; // of a line

const HOST: u8 = 1;
const PATH: u8 = 2;

/// Where each byte of a URL may be without an escape.
const USES: [u8; 256] = uses();

const fn uses() -> [u8; 256] {
    let mut uses = [0; 256];
    let mut byte = 0x21u8;
    while byte < 0x7f {
        if !matches!(byte, b'"' | b'#' | b'\'' | b'<' | b'>' | b'\\' | b'^' | b'`' | b'{' | b'}') {
            uses[byte as usize] |= PATH;
        }
        if byte.is_ascii_lowercase() || byte.is_ascii_digit() || byte == b'-' || byte == b'.' {
            uses[byte as usize] |= HOST;
        }
        byte += 1;
    }
    uses
}

/// A line, and the length of its key.
pub struct Capture {
    start: u128,
    key: usize,
    line: Box<[u8]>,
}

impl Capture {
    pub fn new(key: usize, line: &[u8]) -> Self {
        let mut start = [0; 16];
        let length = key.min(16);
        start[..length].copy_from_slice(&line[..length]);
        Capture { start: u128::from_be_bytes(start), key, line: line.into() }
    }

    pub fn line(&self) -> &[u8] {
        &self.line
    }

    fn pair(&self) -> (&[u8], &[u8]) {
        (&self.line[..self.key], &self.line[self.key + 1..self.key + 1 + STAMP])
    }
}

impl Ord for Capture {
    fn cmp(&self, other: &Self) -> Ordering {
        self.start.cmp(&other.start).then_with(|| self.pair().cmp(&other.pair()))
    }
}

impl PartialOrd for Capture {
    fn partial_cmp(&self, other: &Self) -> Option<Ordering> {
        Some(self.cmp(other))
    }
}

impl PartialEq for Capture {
    fn eq(&self, other: &Self) -> bool {
        self.cmp(other).is_eq()
    }
}

impl Eq for Capture {}

/// What the header of HTTP says: the status, and where the media type is.
struct Response {
    status: [u8; 3],
    media_type: Range<usize>,
}

/// Appends the line of a record, of which `held` bytes are there, and returns the length of its key.
pub unsafe fn push_capture(
    line: &mut Vec<u8>,
    record: *const u8,
    held: usize,
    head: &Head,
    length: u64,
    offset: u64,
    file_name: &[u8],
) -> usize {
    let text_of = |range: &Range<usize>| from_raw_parts(record.add(range.start), range.len());
    if head.payload_digest.is_empty() || !is_http(text_of(&head.content_type)) {
        unusual();
    }
    let block = record.add(head.length);
    let block_held = (held - head.length).min(head.block_length as usize);
    let response = read_response(block, block_held);
    let url = without_brackets(text_of(&head.target));
    line.reserve(3 * url.len() + text_of(&head.payload_digest).len() + OTHERS);
    push_key(line, url);
    let key = line.len();
    push_stamp(line, record.add(head.date));
    line.extend_from_slice(b" {\"url\": \"");
    line.extend_from_slice(url);
    line.extend_from_slice(b"\", \"mime\": \"");
    match from_raw_parts(block.add(response.media_type.start), response.media_type.len()) {
        [] => line.push(b'-'),
        media_type => line.extend_from_slice(media_type),
    }
    line.extend_from_slice(b"\", \"status\": \"");
    line.extend_from_slice(&response.status);
    line.extend_from_slice(b"\", \"digest\": \"");
    let digest = text_of(&head.payload_digest);
    line.extend_from_slice(digest.strip_prefix(b"sha1:").unwrap_or(digest));
    line.extend_from_slice(b"\", \"length\": \"");
    push_number(line, length);
    line.extend_from_slice(b"\", \"offset\": \"");
    push_number(line, offset);
    line.extend_from_slice(b"\", \"filename\": \"");
    line.extend_from_slice(file_name);
    line.extend_from_slice(b"\"}\n");
    expect_clean(line);
    key
}

fn is_http(content_type: &[u8]) -> bool {
    let name = content_type.split(|byte| *byte == b';').next().unwrap_or(content_type);
    name.eq_ignore_ascii_case(b"application/http")
}

fn without_brackets(target: &[u8]) -> &[u8] {
    match target {
        [b'<', url @ .., b'>'] => url,
        url => url,
    }
}

/// Reads the status line and the fields of a response, which end within the text.
unsafe fn read_response(text: *const u8, length: usize) -> Response {
    let mut lines = Lines::after(text, length, 0);
    let mut next = || match lines.next() {
        Some(line) => line,
        None => unusual(),
    };
    let first = next();
    let status = match from_raw_parts(text, first.len()) {
        [b'H', b'T', b'T', b'P', b'/', b'1', b'.', b'0' | b'1', b' ', status @ ..] if status.len() >= 3 => {
            [status[0], status[1], status[2]]
        }
        _ => unusual(),
    };
    if !status.iter().all(u8::is_ascii_digit) {
        unusual();
    }
    let mut media_type = 0..0;
    loop {
        let line = next();
        if line.is_empty() {
            return Response { status, media_type };
        }
        expect_value(text, &line);
        let name = text.add(line.start);
        let name_length = token_length(name);
        if name_length == 0 || *name.add(name_length) != b':' {
            unusual();
        }
        if name_length == 12 && media_type.is_empty() && is_name(name, b"content-type") {
            media_type = media_type_of(text, line.start + name_length + 1..line.end);
        }
    }
}

/// Ends the program if a line has a control character.
#[inline(always)]
unsafe fn expect_value(text: *const u8, line: &Range<usize>) {
    let mut at = line.start;
    while at < line.end {
        let within = if line.end - at >= 16 { 0xffff } else { (1 << (line.end - at)) - 1 };
        if controls(load(text.add(at))) & within != 0 {
            unusual();
        }
        at += 16;
    }
}

unsafe fn media_type_of(text: *const u8, value: Range<usize>) -> Range<usize> {
    let bytes = from_raw_parts(text.add(value.start), value.len());
    let length = bytes.iter().position(|byte| *byte == b';').unwrap_or(bytes.len());
    trimmed(text, value.start..value.start + length)
}

/// Appends the key of a URL: the labels of the host from the last to the first, and the path in small letters.
fn push_key(line: &mut Vec<u8>, url: &[u8]) {
    let rest = match url.strip_prefix(b"http://").or_else(|| url.strip_prefix(b"https://")) {
        Some(rest) => rest,
        None => unusual(),
    };
    let mut ends = [0; MOST_LABELS];
    let (mut labels, mut uses, mut length) = (0, HOST, 0);
    while length < rest.len() && rest[length] != b'/' {
        uses &= USES[rest[length] as usize];
        if rest[length] == b'.' {
            if labels + 1 == MOST_LABELS {
                unusual();
            }
            ends[labels] = length;
            labels += 1;
        }
        length += 1;
    }
    if uses == 0 || length == 0 || length == rest.len() {
        unusual();
    }
    ends[labels] = length;
    let start_of = |label: usize| if label == 0 { 0 } else { ends[label - 1] + 1 };
    let is_www = labels > 1 && &rest[..ends[0]] == b"www";
    if !is_www && rest.starts_with(b"www") || !rest[start_of(labels)].is_ascii_lowercase() {
        unusual();
    }
    let first = usize::from(is_www);
    for label in (first..=labels).rev() {
        line.extend_from_slice(&rest[start_of(label)..ends[label]]);
        line.push(if label == first { b')' } else { b',' });
    }
    push_path(line, &rest[length..]);
}

fn push_path(line: &mut Vec<u8>, path: &[u8]) {
    let (mut uses, mut before) = (PATH, 0);
    for &byte in path {
        if before == b'/' && matches!(byte, b'.' | b'%') {
            unusual();
        }
        uses &= USES[byte as usize];
        before = byte;
    }
    if uses == 0 {
        unusual();
    }
    line.extend(path.iter().map(u8::to_ascii_lowercase));
}

/// Appends a space and the fourteen digits of a date.
unsafe fn push_stamp(line: &mut Vec<u8>, date: *const u8) {
    line.push(b' ');
    for (start, length) in [(0, 4), (5, 2), (8, 2), (11, 2), (14, 2), (17, 2)] {
        line.extend_from_slice(from_raw_parts(date.add(start), length));
    }
}

/// Ends the program if a value of the line needs an escape.
unsafe fn expect_clean(line: &mut Vec<u8>) {
    line.reserve(64);
    let length = line.len() - 1;
    let (mut at, mut quotes) = (0, 0);
    while at < length {
        let within = if length - at >= 64 { !0 } else { (1 << (length - at)) - 1 };
        let found = marks(line.as_ptr().add(at));
        if found.unclean & within != 0 {
            unusual();
        }
        quotes += (found.quotes & within).count_ones();
        at += 64;
    }
    if quotes != QUOTES {
        unusual();
    }
}
