//! `query` of all lines of an index as text.
use crate::lanes;
use crate::lines::{Source, Values};
use crate::merging::{STAMP, hold, pair_order, push_lanes};
use crate::{Output, unusual};
use std::cmp::Ordering;
use std::io;

/// The query for all lines, the only one that is taken.
const ALL: &str = "key=&matchType=prefix";
/// How many values a row has behind the key and the timestamp.
const VALUES: usize = 5;

/// A row that was appended, and what its place has behind the key and the timestamp.
struct Row {
    /// Where it begins in the text of all rows.
    start: usize,
    /// Where the file name begins and ends among those of its group.
    file_name: (usize, usize),
    /// The offset of the record.
    offset: u64,
}

/// The rows of one key and timestamp, with which a text ends.
#[derive(Default)]
struct Group {
    rows: Vec<Row>,
    file_names: Vec<u8>,
}

impl Group {
    /// Appends the row of a source's line.
    #[inline(always)]
    unsafe fn push(&mut self, text: &mut Vec<u8>, source: &Source<Values>) {
        let (line, values) = (source.text(), &source.values);
        let (start, from) = (text.len(), self.file_names.len());
        push_row(text, line, source.line.key, values);
        push_lanes(&mut self.file_names, line.add(values.starts[6]), values.ends[6] - values.starts[6]);
        self.rows.push(Row { start, file_name: (from, self.file_names.len()), offset: source.line.offset });
    }

    /// Puts the rows in the order of their places, each place once.
    #[inline(always)]
    fn end(&mut self, text: &mut Vec<u8>) {
        if self.rows.len() > 1 {
            self.put_in_order(text);
        }
        self.rows.clear();
        self.file_names.clear();
    }

    fn put_in_order(&self, text: &mut Vec<u8>) {
        let first = self.rows[0].start;
        let written = text.split_off(first);
        let ends = self.rows[1..].iter().map(|row| row.start - first).chain([written.len()]);
        let place_of = |row: &Row| (&self.file_names[row.file_name.0..row.file_name.1], row.offset);
        let mut sorted: Vec<(&Row, usize)> = self.rows.iter().zip(ends).collect();
        sorted.sort_by(|left, right| place_of(left.0).cmp(&place_of(right.0)));
        sorted.dedup_by(|second, first| place_of(second.0) == place_of(first.0));
        for (row, end) in sorted {
            text.extend_from_slice(&written[row.start - first..end]);
        }
    }
}

/// Appends the key, the timestamp and the first values of a line, with a space before each but the key.
#[inline(always)]
unsafe fn push_row(text: &mut Vec<u8>, line: *const u8, key: usize, values: &Values) {
    let start = text.len();
    push_lanes(text, line, key + 1 + STAMP);
    for value in 0..VALUES {
        let (from, end) = (values.starts[value], values.ends[value]);
        if from == end {
            unusual(); // it would be written as `-`
        }
        text.push(b' ');
        push_lanes(text, line.add(from), end - from);
    }
    let length = text.len() - start;
    text.push(b'\n');
    if count_hidden(text, start, length) != VALUES as u32 + 1 {
        unusual(); // it would be escaped
    }
}

/// Counts the spaces and controls of a text. DEL isn't among the bytes of a usual line.
#[inline(always)]
unsafe fn count_hidden(text: &mut Vec<u8>, start: usize, length: usize) -> u32 {
    text.reserve(16);
    let bytes = text.as_ptr().add(start);
    let (mut count, mut at) = (0, 0);
    while at < length {
        let left = length - at;
        let within = if left < 16 { (1 << left) - 1 } else { 0xffff };
        count += (lanes::hidden(lanes::load(bytes.add(at))) & within).count_ones();
        at += 16;
    }
    count
}

/// Writes a row for each line of an index, in the order of places, each place once.
pub fn query(arguments: &[String]) -> io::Result<()> {
    let [query, name] = arguments else { unusual() };
    if query != ALL {
        unusual();
    }
    let (mut source, mut output) = (Source::<Values>::open(name)?, Output::new());
    let (mut group, mut before, mut key) = (Group::default(), Vec::new(), 0);
    while source.advance()? {
        if !group.rows.is_empty() {
            match unsafe { pair_order(before.as_ptr(), key, source.text(), source.line.key) } {
                Ordering::Less => {
                    group.end(&mut output.text);
                    output.write_if_full()?;
                }
                Ordering::Equal => {}
                Ordering::Greater => unusual(),
            }
        }
        key = source.line.key;
        unsafe {
            hold(&mut before, source.text(), key + 1 + STAMP);
            group.push(&mut output.text, &source);
        }
    }
    group.end(&mut output.text);
    output.write()
}
