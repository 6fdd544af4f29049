//! Terms in words.

use compare::draft::Draft;
use compare::keys;

#[derive(Clone, Copy)]
pub enum Part {
    Text(&'static [u8]),
    V,
    Cut(u16, u16),
}

pub fn add_term(draft: &mut Draft, parts: &[Part]) -> (u16, u16) {
    let first = draft.parts.len() as u16;
    for part in parts {
        let (kind, a, b) = match *part {
            Part::Text(bytes) => {
                let (from, bytes) = draft.add_text(bytes);
                (1, from, bytes)
            }
            Part::V => (2, 0, 0),
            Part::Cut(position, bytes) => (3, position, bytes),
        };
        draft.add_part(kind, a, b);
    }
    (first, parts.len() as u16)
}

/// The last of the letters from a, and the lengths.
pub type Words = (u8, u16, u16);

/// A sheet without assertions.
pub fn over((high, shortest, longest): Words) -> Draft {
    keys::over(&[(b'a', high)], shortest, longest)
}
