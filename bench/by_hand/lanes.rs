//! Bytes that are compared sixteen at a time. Buffers have `SPARE` bytes behind what they hold.
use std::arch::x86_64::{
    __m128i, _mm_and_si128, _mm_cmpeq_epi8, _mm_cmplt_epi8, _mm_loadu_si128, _mm_min_epu8,
    _mm_movemask_epi8, _mm_or_si128, _mm_set1_epi8, _mm_setzero_si128, _mm_shuffle_epi8,
    _mm_srli_epi16, _mm_sub_epi8,
};
use std::cmp::Ordering;

/// The bytes that may be read behind each buffer.
pub const SPARE: usize = 128;

/// Whether each byte is one of a token (RFC 9110, section 5.6.2): bit `byte >> 4` of `LOW[byte & 15]`.
const LOW: [u8; 16] = low_halves();
const HIGH: [u8; 16] = [1, 2, 4, 8, 16, 32, 64, 128, 0, 0, 0, 0, 0, 0, 0, 0];

const fn low_halves() -> [u8; 16] {
    let mut halves = [0; 16];
    let mut byte = 0x21;
    while byte < 0x7f {
        if !is_separator(byte) {
            halves[(byte & 15) as usize] |= 1 << (byte >> 4);
        }
        byte += 1;
    }
    halves
}

const fn is_separator(byte: u8) -> bool {
    matches!(
        byte,
        b'(' | b')' | b'<' | b'>' | b'@' | b',' | b';' | b':' | b'\\' | b'"' | b'/' | b'[' | b']' | b'?' | b'='
            | b'{' | b'}'
    )
}

/// Loads 16 bytes.
#[inline(always)]
pub unsafe fn load(at: *const u8) -> __m128i {
    _mm_loadu_si128(at.cast())
}

/// Loads 8 bytes, the first as the lowest.
#[inline(always)]
pub unsafe fn load_word(at: *const u8) -> u64 {
    at.cast::<u64>().read_unaligned()
}

/// Returns a bit for each of 16 bytes that is equal to a byte.
#[inline(always)]
pub unsafe fn equal(bytes: __m128i, byte: u8) -> u32 {
    mask(_mm_cmpeq_epi8(bytes, _mm_set1_epi8(byte as i8)))
}

/// Returns a bit for each of 16 bytes that is equal to the byte of the other at its place.
#[inline(always)]
pub unsafe fn equal_lanes(left: __m128i, right: __m128i) -> u32 {
    mask(_mm_cmpeq_epi8(left, right))
}

/// Returns a bit for each of 16 bytes that is a decimal digit.
#[inline(always)]
pub unsafe fn digits(bytes: __m128i) -> u32 {
    let values = _mm_sub_epi8(bytes, _mm_set1_epi8(b'0' as i8));
    equal_lanes(_mm_min_epu8(values, _mm_set1_epi8(9)), values)
}

/// Returns a bit for each of 16 bytes that is a control character (below 0x20).
#[inline(always)]
pub unsafe fn controls(bytes: __m128i) -> u32 {
    equal_lanes(_mm_min_epu8(bytes, _mm_set1_epi8(0x1f)), bytes)
}

/// Returns a bit for each of 16 bytes that is a space or a control character below it.
#[inline(always)]
pub unsafe fn hidden(bytes: __m128i) -> u32 {
    equal_lanes(_mm_min_epu8(bytes, _mm_set1_epi8(0x20)), bytes)
}

/// Returns the length of the token with which a text begins.
#[inline(always)]
pub unsafe fn token_length(text: *const u8) -> usize {
    let (low, high) = (load(LOW.as_ptr()), load(HIGH.as_ptr()));
    let mut length = 0;
    loop {
        let bytes = load(text.add(length));
        let halves = _mm_and_si128(_mm_srli_epi16(bytes, 4), _mm_set1_epi8(15));
        let found = _mm_and_si128(_mm_shuffle_epi8(low, bytes), _mm_shuffle_epi8(high, halves));
        let others = equal_lanes(found, _mm_setzero_si128());
        if others != 0 {
            return length + others.trailing_zeros() as usize;
        }
        length += 16;
    }
}

/// What 64 bytes have of the bytes at which a line of an index is cut.
pub struct Marks {
    /// The bytes that a plain line hasn't: control characters, those above 0x7e, and `\`.
    pub unclean: u64,
    pub quotes: u64,
}

#[inline(always)]
pub unsafe fn marks(at: *const u8) -> Marks {
    let (mut unclean, mut quotes) = (0, 0);
    let mut lane = 0;
    while lane < 4 {
        let bytes = load(at.add(16 * lane));
        let below = _mm_cmplt_epi8(bytes, _mm_set1_epi8(0x20)); // those from 0x80 are negative
        let others = _mm_or_si128(
            _mm_cmpeq_epi8(bytes, _mm_set1_epi8(b'\\' as i8)),
            _mm_cmpeq_epi8(bytes, _mm_set1_epi8(0x7f)),
        );
        unclean |= u64::from(mask(_mm_or_si128(below, others))) << (16 * lane);
        quotes |= u64::from(equal(bytes, b'"')) << (16 * lane);
        lane += 1;
    }
    Marks { unclean, quotes }
}

/// Returns a bit for each of 64 bytes that is CR or LF.
#[inline(always)]
pub unsafe fn breaks(at: *const u8) -> u64 {
    let mut found = 0;
    let mut lane = 0;
    while lane < 4 {
        let bytes = load(at.add(16 * lane));
        found |= u64::from(equal(bytes, b'\r') | equal(bytes, b'\n')) << (16 * lane);
        lane += 1;
    }
    found
}

/// Compares texts by their bytes.
#[inline(always)]
pub unsafe fn compare(left: *const u8, left_length: usize, right: *const u8, right_length: usize) -> Ordering {
    let shorter = left_length.min(right_length);
    let mut at = 0;
    while at < shorter {
        let differing = !equal_lanes(load(left.add(at)), load(right.add(at))) & 0xffff;
        if differing != 0 {
            at += differing.trailing_zeros() as usize;
            if at >= shorter {
                break;
            }
            return (*left.add(at)).cmp(&*right.add(at));
        }
        at += 16;
    }
    left_length.cmp(&right_length)
}

#[inline(always)]
unsafe fn mask(lanes: __m128i) -> u32 {
    _mm_movemask_epi8(lanes) as u32
}
