//! Sections to time readers on: sets of tuples, and LEB128 numbers.

use std::fmt;
use std::ops::RangeInclusive;

/// What the sets of a section are like.
pub struct Sets {
    /// how many bytes an address has
    pub size: usize,
    /// how many ranges a set has, before the null pair that ends it
    pub tuples: usize,
    pub big: bool,
}

impl fmt::Display for Sets {
    fn fmt(&self, f: &mut fmt::Formatter) -> fmt::Result {
        let order = if self.big { "big" } else { "little" };
        write!(f, "{} of {} bytes, {order}", self.tuples, self.size)
    }
}

impl Sets {
    fn number(&self, out: &mut Vec<u8>, value: u64, size: usize) {
        if self.big {
            out.extend_from_slice(&value.to_be_bytes()[8 - size..]);
        } else {
            out.extend_from_slice(&value.to_le_bytes()[..size]);
        }
    }
}

/// A section of at least `len` bytes, the numbers of its sets and of its ranges, and an address in its last range.
pub fn sets(len: usize, shape: &Sets) -> (Vec<u8>, usize, usize, u64) {
    let mut out = Vec::new();
    let (mut sets, mut ranges, mut begin) = (0, 0, 0x1000);
    while out.len() < len {
        // 12 bytes of fields, 4 of padding
        let body = 12 + (shape.tuples + 1) * 2 * shape.size;
        shape.number(&mut out, body as u64, 4);
        shape.number(&mut out, 2, 2);
        shape.number(&mut out, 100 * sets as u64, 4);
        out.extend_from_slice(&[shape.size as u8, 0]);
        shape.number(&mut out, 0, 4);
        for _ in 0..shape.tuples {
            begin += 32;
            shape.number(&mut out, begin, shape.size);
            shape.number(&mut out, 16, shape.size);
        }
        out.resize(out.len() + 2 * shape.size, 0);
        sets += 1;
        ranges += shape.tuples;
    }
    (out, sets, ranges, begin)
}

/// At least `len` bytes of LEB128 numbers, each of a drawn number of bits, and how many numbers there are.
pub fn numbers(len: usize, bits: RangeInclusive<u32>) -> (Vec<u8>, usize) {
    let (mut out, mut count, mut state) = (Vec::new(), 0, 1u64);
    while out.len() < len {
        // xorshift: the same numbers in each run
        state ^= state << 13;
        state ^= state >> 7;
        state ^= state << 17;
        let spread = bits.end() - bits.start() + 1;
        let width = bits.start() + (state.wrapping_mul(0x9e37_79b9_7f4a_7c15) >> 32) as u32 % spread;
        let mut value = (state | 1 << 63) >> (64 - width);
        while value >= 0x80 {
            out.push(value as u8 | 0x80);
            value >>= 7;
        }
        out.push(value as u8);
        count += 1;
    }
    (out, count)
}
