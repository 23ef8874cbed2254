//! Decimal numbers.
use crate::lanes::load_word;

const POWERS: [u64; 8] = [1, 10, 100, 1_000, 10_000, 100_000, 1_000_000, 10_000_000];
const ZEROS: u64 = 0x3030_3030_3030_3030;

/// Reads a number below 2^63 without a leading zero. Eight bytes in front of it may be read.
#[inline(always)]
pub unsafe fn number(text: *const u8, length: usize) -> Option<u64> {
    if length == 0 || length > 19 || length > 1 && *text == b'0' {
        return None;
    }
    let (mut value, mut at) = (0u64, 0);
    while length - at >= 8 {
        value = value.checked_mul(100_000_000)?.checked_add(eight_digits(load_word(text.add(at)))?)?;
        at += 8;
    }
    let left = length - at;
    if left > 0 {
        let kept = !0 << (8 * (8 - left));
        let word = load_word(text.add(length).sub(8)) & kept | ZEROS & !kept;
        value = value.checked_mul(POWERS[left])?.checked_add(eight_digits(word)?)?;
    }
    (value >> 63 == 0).then_some(value)
}

/// Returns the value of eight digits, the first of which is the lowest byte.
#[inline(always)]
fn eight_digits(word: u64) -> Option<u64> {
    let values = word.wrapping_sub(ZEROS);
    if (values | word.wrapping_add(0x4646_4646_4646_4646)) & 0x8080_8080_8080_8080 != 0 {
        return None;
    }
    let pairs = values.wrapping_mul(10).wrapping_add(values >> 8);
    let first = (pairs & 0x0000_00ff_0000_00ff).wrapping_mul(0x000f_4240_0000_0064);
    let second = (pairs >> 16 & 0x0000_00ff_0000_00ff).wrapping_mul(0x0000_2710_0000_0001);
    Some(first.wrapping_add(second) >> 32)
}

/// Appends a number in decimal digits.
#[inline(always)]
pub fn push_number(text: &mut Vec<u8>, mut number: u64) {
    let mut digits = [0; 20];
    let mut from = digits.len();
    loop {
        from -= 1;
        digits[from] = b'0' + (number % 10) as u8;
        number /= 10;
        if number == 0 {
            break;
        }
    }
    text.extend_from_slice(&digits[from..]);
}
