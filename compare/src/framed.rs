//! Buffers with margins around them, so that a write beside them is seen.

use std::fmt;

const MARGIN: usize = 32;
const MARGIN_BYTE: u8 = 0xa5;

/// Bytes between two margins, at any alignment.
#[derive(Default)]
pub struct Framed {
    bytes: Vec<u8>,
    from: usize,
    to: usize,
}

impl Framed {
    pub fn lay(&mut self, content: &[u8], shift: usize) {
        self.from = MARGIN + shift % 8;
        self.to = self.from + content.len();
        self.bytes.clear();
        self.bytes.resize(self.to + MARGIN, MARGIN_BYTE);
        self.inside().copy_from_slice(content);
    }

    pub fn inside(&mut self) -> &mut [u8] {
        &mut self.bytes[self.from..self.to]
    }

    pub fn holds(&self, content: &[u8]) -> bool {
        let (before, rest) = self.bytes.split_at(self.from);
        let (inside, behind) = rest.split_at(self.to - self.from);
        inside == content && before.iter().chain(behind).all(|&byte| byte == MARGIN_BYTE)
    }

    /// What is not as it should be, if anything is.
    pub fn fault(&self, expected: &[u8], name: &str) -> Option<String> {
        if self.holds(expected) {
            return None;
        }
        let got = &self.bytes[self.from..self.to];
        let differing = got.iter().zip(expected).position(|(a, b)| a != b);
        Some(match differing {
            None => format!("wrote beside the {name}"),
            Some(at) => {
                format!("byte {at} of the {name} is {}, expected {}", got[at], expected[at])
            }
        })
    }
}

/// So many numbers between others, aligned as C asks.
pub struct FramedNumbers<T, const N: usize>([[T; N]; 3]);

/// What ask writes.
pub type FramedPlaces = FramedNumbers<u32, 4>;

/// What reading a sentence writes.
pub type FramedParts = FramedNumbers<u64, 3>;

impl<T: Copy + PartialEq + fmt::Display, const N: usize> FramedNumbers<T, N> {
    pub fn new(fill: T) -> FramedNumbers<T, N> {
        FramedNumbers([[fill; N]; 3])
    }

    pub fn inside(&mut self) -> &mut [T; N] {
        &mut self.0[1]
    }

    /// What is not as in another frame, if anything is.
    pub fn fault(&self, expected: &FramedNumbers<T, N>, name: &str) -> Option<String> {
        let (got, expected) = (self.0.as_flattened(), expected.0.as_flattened());
        let at = got.iter().zip(expected).position(|(a, b)| a != b)?;
        let number = at as i64 - N as i64;
        Some(format!("number {number} of the {name} is {}, expected {}", got[at], expected[at]))
    }
}

/// Numbers that differ from one salt to another, so that none written is missed for good.
pub fn salted(salt: usize) -> u64 {
    0x9e37_79b9_7f4a_7c15 ^ salt as u64
}
