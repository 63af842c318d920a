//! Reading fields byte by byte, from left to right, each byte once. What is called for each field is always inlined, so that the place
//! in the file stays in a register.

use crate::figures::ABSENT;

/// Why a field is refused.
#[derive(Clone, Copy, Debug, PartialEq, Eq)]
pub enum Fault {
    /// It is not written as its place asks, or lies out of its range.
    Form,
    /// Its stored number lies beyond what can be stored.
    Beyond,
}

/// The byte that ends a field.
#[derive(Clone, Copy, Debug, PartialEq, Eq)]
pub enum End {
    Space = b' ' as isize,
    LineFeed = b'\n' as isize,
}

impl End {
    const fn byte(self) -> u8 {
        self as u8
    }
}

const MOST_STORED: u64 = 1_000_000_000;
const MOST_WHOLE_DIGITS: usize = 10;
const MOST_KEY_DIGITS: usize = 5;

const POWERS: [u64; 7] = [1, 10, 100, 1_000, 10_000, 100_000, 1_000_000];

/// Some digits: how many they are and the number that they write, which is right for ten digits and fewer.
#[derive(Clone, Copy)]
struct Digits {
    value: u64,
    count: usize,
}

/// A place in the bytes of a file.
pub struct Scanner<'a> {
    bytes: &'a [u8],
    at: usize,
}

impl<'a> Scanner<'a> {
    pub fn new(bytes: &'a [u8], at: usize) -> Scanner<'a> {
        Scanner { bytes, at }
    }

    pub fn at(&self) -> usize {
        self.at
    }

    pub fn is_at_end(&self) -> bool {
        self.at >= self.bytes.len()
    }

    /// The next byte; after the last a zero byte, which no field has room for.
    #[inline(always)]
    fn peek(&self) -> u8 {
        self.bytes.get(self.at).copied().unwrap_or(0)
    }

    /// Passes over the next byte, where it is this one.
    #[inline(always)]
    fn skip(&mut self, byte: u8) -> bool {
        let is_next = self.peek() == byte;
        self.at += usize::from(is_next);
        is_next
    }

    #[inline(always)]
    fn end(&mut self, end: End) -> Result<(), Fault> {
        if self.skip(end.byte()) {
            Ok(())
        } else {
            Err(Fault::Form)
        }
    }

    #[inline(always)]
    fn digits(&mut self) -> Digits {
        let rest = self.bytes.get(self.at..).unwrap_or_default();
        let mut value: u64 = 0;
        let mut count = 0;
        for byte in rest {
            let digit = byte.wrapping_sub(b'0');
            if digit > 9 {
                break;
            }
            value = value.wrapping_mul(10).wrapping_add(u64::from(digit));
            count += 1;
        }
        self.at += count;
        Digits { value, count }
    }

    /// A number of one to five digits, from `low` to `high`, and the space after it.
    #[inline(always)]
    pub fn number(&mut self, low: u64, high: u64) -> Result<usize, Fault> {
        let Digits { value, count } = self.digits();
        let is_short = (1..=MOST_KEY_DIGITS).contains(&count);
        if !is_short || value < low || value > high {
            return Err(Fault::Form);
        }
        self.end(End::Space)?;
        Ok(value as usize)
    }

    /// A star and the space after it, where they are next.
    #[inline(always)]
    pub fn star(&mut self) -> bool {
        let is_next = self.peek() == b'*' && self.bytes.get(self.at + 1) == Some(&b' ');
        self.at += 2 * usize::from(is_next);
        is_next
    }

    /// A stored number, or `ABSENT` for a dash, and the end after it.
    #[inline(always)]
    pub fn figure(&mut self, decimals: usize, end: End) -> Result<i32, Fault> {
        let is_negative = self.skip(b'-');
        if is_negative && self.skip(end.byte()) {
            return Ok(ABSENT);
        }
        let size = self.magnitude(decimals)?;
        self.end(end)?;
        if size > MOST_STORED {
            return Err(Fault::Beyond);
        }
        let number = size as i32;
        Ok(if is_negative { -number } else { number })
    }

    /// A figure with no sign, times ten to the decimals.
    #[inline(always)]
    fn magnitude(&mut self, decimals: usize) -> Result<u64, Fault> {
        let whole = self.digits();
        if !(1..=MOST_WHOLE_DIGITS).contains(&whole.count) {
            return Err(Fault::Form);
        }
        if !self.skip(b'.') {
            return Ok(whole.value * POWERS[decimals]);
        }
        let part = self.digits();
        if !(1..=decimals).contains(&part.count) {
            return Err(Fault::Form);
        }
        Ok(whole.value * POWERS[decimals] + part.value * POWERS[decimals - part.count])
    }
}
