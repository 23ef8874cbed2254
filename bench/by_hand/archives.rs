//! `list` and `index`.
use crate::captures::{Capture, push_capture};
use crate::heads::{Head, RESPONSE, TYPES, read_head};
use crate::lanes::SPARE;
use crate::numbers::push_number;
use crate::{Output, unusual};
use std::fs::File;
use std::io::{self, Read, Seek, SeekFrom};

const ROOM: usize = 1 << 16; // bytes that are held
const PIECE: usize = 8192; // bytes that are read at once, and the least that are skipped
const PIECE_AFTER_SKIP: usize = 2048;
const FRONT: usize = 1024; // bytes in which the header of HTTP is looked for
const CLOSING: &[u8] = b"\r\n\r\n";

/// An archive, read record by record.
struct Archive {
    file: File,
    size: u64,
    bytes: Vec<u8>,
    /// Where the present record begins in `bytes`, and what they hold.
    next: usize,
    end: usize,
    /// Where the present record begins in the file, and where the file is read on.
    offset: u64,
    position: u64,
}

impl Archive {
    fn open(name: &str) -> io::Result<Self> {
        let file = File::open(name)?;
        let (size, bytes) = (file.metadata()?.len(), vec![0; ROOM + SPARE]);
        Ok(Archive { file, size, bytes, next: 0, end: 0, offset: 0, position: 0 })
    }

    #[inline(always)]
    fn text(&self) -> *const u8 {
        unsafe { self.bytes.as_ptr().add(self.next) }
    }

    fn held(&self) -> usize {
        self.end - self.next
    }

    /// Returns the header of the present record, or `None` at the end.
    #[inline(always)]
    fn head(&mut self) -> io::Result<Option<Head>> {
        loop {
            if self.held() > 0 {
                if let Some(head) = unsafe { read_head(self.text(), self.held()) } {
                    return Ok(Some(head));
                }
            }
            if self.position == self.size {
                return if self.held() == 0 { Ok(None) } else { unusual() };
            }
            self.read_on(PIECE)?;
        }
    }

    /// Holds what follows, up to so many bytes.
    #[cold]
    fn read_on(&mut self, most: usize) -> io::Result<()> {
        self.bytes.copy_within(self.next..self.end, 0);
        (self.next, self.end) = (0, self.held());
        let until = (self.end + most).min(ROOM);
        let count = self.file.read(&mut self.bytes[self.end..until])?;
        self.end += count;
        self.position += count as u64;
        Ok(())
    }

    /// Goes to the next record.
    #[inline(always)]
    fn pass(&mut self, head: &Head) -> io::Result<()> {
        let to = head.length as u64 + head.block_length;
        if self.offset + to + CLOSING.len() as u64 > self.size {
            unusual();
        }
        if to + CLOSING.len() as u64 <= self.held() as u64 {
            self.next += to as usize;
        } else {
            self.skip(to)?;
        }
        if unsafe { self.text().cast::<[u8; 4]>().read_unaligned() } != CLOSING {
            unusual();
        }
        self.next += CLOSING.len();
        self.offset += to + CLOSING.len() as u64;
        Ok(())
    }

    fn skip(&mut self, to: u64) -> io::Result<()> {
        let is_far = to >= (self.held() + PIECE) as u64;
        self.position = self.file.seek(SeekFrom::Start(self.offset + to))?;
        (self.next, self.end) = (0, 0);
        self.read_on(if is_far { PIECE_AFTER_SKIP } else { PIECE })
    }
}

pub fn list(names: &[String]) -> io::Result<()> {
    let mut output = Output::new();
    for name in names {
        let mut archive = Archive::open(name)?;
        while let Some(head) = archive.head()? {
            push_number(&mut output.text, archive.offset);
            output.text.push(b' ');
            push_number(&mut output.text, length_of(&head));
            output.text.push(b' ');
            output.text.extend_from_slice(TYPES.get(head.record_type).unwrap_or(&"other").as_bytes());
            output.text.push(b'\n');
            output.write_if_full()?;
            archive.pass(&head)?;
        }
    }
    output.write()
}

fn length_of(head: &Head) -> u64 {
    head.length as u64 + head.block_length + CLOSING.len() as u64
}

pub fn index(names: &[String]) -> io::Result<()> {
    let mut captures = Vec::new();
    for name in names {
        let file_name = name.rsplit('/').next().unwrap_or(name).as_bytes();
        let mut archive = Archive::open(name)?;
        let mut line = Vec::with_capacity(ROOM);
        while let Some(head) = archive.head()? {
            if head.record_type == RESPONSE && !head.target.is_empty() {
                let front = head.length + head.block_length.min(FRONT as u64) as usize;
                if archive.held() < front && archive.position < archive.size {
                    archive.read_on(PIECE)?;
                }
                line.clear();
                let (offset, length) = (archive.offset, length_of(&head));
                let key = unsafe { push_capture(&mut line, archive.text(), archive.held(), &head, length, offset, file_name) };
                captures.push(Capture::new(key, &line));
            }
            archive.pass(&head)?;
        }
    }
    captures.sort(); // it is stable: captures of one key and time stay in the order of the archives
    let mut output = Output::new();
    for capture in &captures {
        output.text.extend_from_slice(capture.line());
        output.write_if_full()?;
    }
    output.write()
}
