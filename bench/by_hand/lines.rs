//! Lines of an index in the usual form, which are read from a file one after another.
use crate::lanes::{self, Marks, SPARE};
use crate::numbers::number;
use crate::unusual;
use std::fs::File;
use std::io::{self, Read};
use std::mem::MaybeUninit;

const PIECE: usize = 8192; // bytes that are read at once
const MOST_WORDS: usize = 19; // of 64 bytes in a line
const STAMP: usize = 14; // digits

/// What stands before each value of the JSON object. All but the first begin with the quote that ends a value.
const FRAMES: [&[u8]; 7] = [
    b"{\"url\": \"",
    b"\", \"mime\": \"",
    b"\", \"status\": \"",
    b"\", \"digest\": \"",
    b"\", \"length\": \"",
    b"\", \"offset\": \"",
    b"\", \"filename\": \"",
];
const FRAME_LANES: [[u8; 16]; 7] = frame_lanes();

const fn frame_lanes() -> [[u8; 16]; 7] {
    let mut lanes = [[0; 16]; 7];
    let mut frame = 0;
    while frame < 7 {
        let mut at = 0;
        while at < FRAMES[frame].len() {
            lanes[frame][at] = FRAMES[frame][at];
            at += 1;
        }
        frame += 1;
    }
    lanes
}

/// A line: offsets from the start of its buffer, or from its own start.
#[derive(Clone, Copy, Default)]
pub struct Line {
    /// Where it begins in its buffer.
    pub start: usize,
    /// The bytes of the line with its line feed.
    pub length: usize,
    /// The bytes of the key, with which the line begins.
    pub key: usize,
    /// Where the file name begins in the line.
    pub file_name: usize,
    /// The offset of the record, as the line has it.
    pub offset: u64,
}

/// What is kept of where the values of a line begin and end.
pub trait Kept: Copy + Default {
    fn of(starts: [usize; 7], ends: [usize; 7]) -> Self;
}

impl Kept for () {
    #[inline(always)]
    fn of(_starts: [usize; 7], _ends: [usize; 7]) {}
}

/// Where all values begin and end in their line.
#[derive(Clone, Copy, Default)]
pub struct Values {
    pub starts: [usize; 7],
    pub ends: [usize; 7],
}

impl Kept for Values {
    #[inline(always)]
    fn of(starts: [usize; 7], ends: [usize; 7]) -> Self {
        Values { starts, ends }
    }
}

/// An index, and its present line.
pub struct Source<K = ()> {
    file: File,
    bytes: Vec<u8>,
    next: usize,
    end: usize,
    is_over: bool,
    pub line: Line,
    pub values: K,
}

impl<K: Kept> Source<K> {
    pub fn open(name: &str) -> io::Result<Self> {
        let (file, bytes) = (File::open(name)?, vec![0; PIECE + SPARE]);
        Ok(Source { file, bytes, next: 0, end: 0, is_over: false, line: Line::default(), values: K::default() })
    }

    /// Goes to the next line. Returns `false` if there is none.
    #[inline(always)]
    pub fn advance(&mut self) -> io::Result<bool> {
        match unsafe { scan(&self.bytes, self.next, self.end) } {
            Some(line) => {
                self.take(line);
                Ok(true)
            }
            None => self.read_on(),
        }
    }

    /// The present line, with bytes behind it that may be read.
    #[inline(always)]
    pub fn text(&self) -> *const u8 {
        unsafe { self.bytes.as_ptr().add(self.line.start) }
    }

    #[inline(always)]
    fn take(&mut self, (line, values): (Line, K)) {
        self.next = line.start + line.length;
        (self.line, self.values) = (line, values);
    }

    #[cold]
    #[inline(never)]
    fn read_on(&mut self) -> io::Result<bool> {
        loop {
            self.bytes.copy_within(self.next..self.end, 0);
            (self.next, self.end) = (0, self.end - self.next);
            let room = self.bytes.len() - SPARE;
            if self.end == room {
                self.bytes.resize(2 * room + SPARE, 0);
                continue;
            }
            let count = self.file.read(&mut self.bytes[self.end..room])?;
            self.is_over = count == 0;
            self.end += count;
            self.bytes[self.end..self.end + SPARE].fill(b'x'); // no line ends there
            if self.is_over && self.end == 0 {
                return Ok(false);
            }
            if let Some(line) = unsafe { scan(&self.bytes, 0, self.end) } {
                self.take(line);
                return Ok(true);
            }
            if self.is_over {
                unusual();
            }
        }
    }
}

/// Reads the line that begins at `start`, or returns `None` if no line ends before `end`.
#[inline(always)]
unsafe fn scan<K: Kept>(bytes: &[u8], start: usize, end: usize) -> Option<(Line, K)> {
    let text = bytes.as_ptr().add(start);
    let mut quotes = [MaybeUninit::<u64>::uninit(); MOST_WORDS];
    let mut words = 0;
    let length = loop {
        if start + 64 * words >= end {
            return None;
        }
        if words == MOST_WORDS {
            unusual();
        }
        let marks: Marks = lanes::marks(text.add(64 * words));
        quotes[words].write(marks.quotes);
        if marks.unclean != 0 {
            let length = 64 * words + marks.unclean.trailing_zeros() as usize;
            if start + length >= end {
                return None;
            }
            if *text.add(length) != b'\n' {
                unusual();
            }
            break length;
        }
        words += 1;
    };
    let key = key_length(text, length);
    let mut at = key + STAMP + 2;
    if key == 0 || at + FRAMES[0].len() >= length || !has_stamp(text.add(key)) || !is_frame(text.add(at), 0) {
        unusual();
    }
    at += FRAMES[0].len();
    let (mut starts, mut ends) = ([0; 7], [0; 7]);
    for value in 0..7 {
        starts[value] = at;
        let mut word = at >> 6;
        let mut left = quotes[word].assume_init() & !0 << (at & 63);
        while left == 0 {
            word += 1;
            if word > words {
                unusual();
            }
            left = quotes[word].assume_init();
        }
        ends[value] = (word << 6) + left.trailing_zeros() as usize;
        if ends[value] >= length {
            unusual();
        }
        if value < 6 {
            if !is_frame(text.add(ends[value]), value + 1) {
                unusual();
            }
            at = ends[value] + FRAMES[value + 1].len();
        }
    }
    if ends[6] == starts[6] || ends[6] + 2 != length || *text.add(ends[6] + 1) != b'}' {
        unusual();
    }
    let Some(offset) = number(text.add(starts[5]), ends[5] - starts[5]) else { unusual() };
    Some((Line { start, length: length + 1, key, file_name: starts[6], offset }, K::of(starts, ends)))
}

#[inline(always)]
unsafe fn key_length(text: *const u8, length: usize) -> usize {
    let mut key = 0;
    while key < length {
        let spaces = lanes::equal(lanes::load(text.add(key)), b' ');
        if spaces != 0 {
            return key + spaces.trailing_zeros() as usize;
        }
        key += 16;
    }
    unusual()
}

/// Returns whether a text begins with a space, fourteen digits and a space.
#[inline(always)]
unsafe fn has_stamp(text: *const u8) -> bool {
    lanes::digits(lanes::load(text.add(1))) & 0x7fff == 0x3fff && *text.add(STAMP + 1) == b' '
}

#[inline(always)]
unsafe fn is_frame(text: *const u8, frame: usize) -> bool {
    let wanted = (1 << FRAMES[frame].len()) - 1;
    let found = lanes::equal_lanes(lanes::load(text), lanes::load(FRAME_LANES[frame].as_ptr()));
    found & wanted == wanted
}
