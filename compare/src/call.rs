//! A call in the one form that every call has: its name, numbers, and buffers that it reads or
//! writes. What is expected of it, and what comes back, are numbers and the same buffers.

use std::fmt::{self, Display, Formatter};

use crate::program::hex;
use crate::second::edition::Edition;

#[derive(Clone, Copy, PartialEq, Eq, Debug)]
pub enum Name {
    /// Adds one to a byte of the first buffer, or beside it: no call of the library, but a way to
    /// see that a touch beside a buffer is seen.
    Touch,
    Solve,
    Make,
    Gate,
    /// To the wanted edition.
    Move(Edition),
}

/// Where a buffer stands between the two pages that nothing may touch.
#[derive(Clone, Copy, PartialEq, Eq, Debug)]
pub enum Place {
    /// Its end at the page behind it.
    Last,
    /// A word before that.
    WordBefore,
    /// Its start at the page before it; an empty buffer so placed is null.
    First,
}

#[derive(Clone, PartialEq, Eq, Debug)]
pub struct Buffer {
    pub name: &'static str,
    pub bytes: Vec<u8>,
    pub place: Place,
}

#[derive(Clone, PartialEq, Eq, Debug)]
pub struct Call {
    pub name: Name,
    pub numbers: Vec<(&'static str, u64)>,
    pub buffers: Vec<Buffer>,
}

/// What a call answered, and every buffer after it.
#[derive(Clone, PartialEq, Eq, Debug)]
pub struct Reply {
    pub answer: Vec<u64>,
    pub buffers: Vec<Vec<u8>>,
}

impl Call {
    pub fn new(name: Name, numbers: &[(&'static str, u64)], buffers: Vec<Buffer>) -> Call {
        Call { name, numbers: numbers.to_vec(), buffers }
    }

    /// Of all its buffers.
    pub fn bytes(&self) -> usize {
        self.buffers.iter().map(|buffer| buffer.bytes.len()).sum()
    }
}

/// All that is needed to make the call again.
impl Display for Call {
    fn fmt(&self, f: &mut Formatter<'_>) -> fmt::Result {
        write!(f, "{:?}", self.name)?;
        self.numbers.iter().try_for_each(|(name, number)| write!(f, ", {name} {number}"))?;
        for Buffer { name, bytes, place } in &self.buffers {
            let (length, place) = (bytes.len(), format!("{place:?}"));
            write!(f, "\n{name} ({length} bytes, {}) ", place.to_lowercase())?;
            f.write_str(&if pattern(length) == *bytes { "pattern".into() } else { hex(bytes) })?;
        }
        Ok(())
    }
}

impl Buffer {
    pub fn new(name: &'static str, bytes: Vec<u8>) -> Buffer {
        Buffer { name, bytes, place: Place::Last }
    }

    /// A buffer lent for writing, with nothing in it that a call could count on.
    pub fn lent(name: &'static str, length: usize) -> Buffer {
        Buffer::new(name, pattern(length))
    }
}

/// The same bytes each time, none of them zero.
pub fn pattern(length: usize) -> Vec<u8> {
    let period: [u8; 255] = std::array::from_fn(|i| i as u8 + 1);
    let mut bytes = period.repeat(length / 255 + 1);
    bytes.truncate(length);
    bytes
}

pub fn words(bytes: &[u8]) -> Vec<u64> {
    let word = |bytes: &[u8]| u64::from_le_bytes(bytes.try_into().expect("8 bytes"));
    bytes.chunks_exact(8).map(word).collect()
}

pub fn bytes(words: &[u64]) -> Vec<u8> {
    let mut bytes = vec![0; 8 * words.len()];
    bytes
        .chunks_exact_mut(8)
        .zip(words)
        .for_each(|(eight, w)| eight.copy_from_slice(&w.to_le_bytes()));
    bytes
}
