//! Terms claimed to contain terms: constants, v, cuts and joined ones on either side, so that the
//! claim is met and missed by all of them.

use super::new_bytes;
use crate::draft::Draft;
use crate::seed::Seeded;

/// A sheet of such claims alone, with words of at most so many bytes.
pub fn contained(s: &mut Seeded, most: usize) -> Draft {
    let longest = s.between(1, most);
    let mut draft = Draft {
        letters: vec![(b'a', b'a' + s.below(3) as u8)],
        shortest: s.between(0, longest) as u16,
        longest: longest as u16,
        new_bytes: new_bytes(s),
        ..Draft::default()
    };
    for _ in 0..s.between(1, 3) {
        add_containment(s, &mut draft);
    }
    draft
}

/// Claims that a term of up to three parts contains another one.
pub fn add_containment(s: &mut Seeded, draft: &mut Draft) {
    let (first, count) = add_term(s, draft, 3);
    let second = match s.below(6) {
        // Some of the same parts, and all of them with one more.
        0 => (first + count / 2, count - count / 2),
        1 => (first, count + add_term(s, draft, 1).1),
        _ => add_term(s, draft, 2),
    };
    draft.assert((4, s.below(2) as u8), (first, count), second);
}

/// Adds a term of at most so many parts.
fn add_term(s: &mut Seeded, draft: &mut Draft, most: usize) -> (u16, u16) {
    let (first, count) = (draft.parts.len() as u16, s.between(0, most));
    for _ in 0..count {
        match s.below(3) {
            0 => add_constant(s, draft),
            1 => draft.add_part(2, 0, 0),
            _ => add_cut(s, draft),
        };
    }
    (first, count as u16)
}

/// At most two bytes of v, and now and then one more, which may be past the longest.
fn add_cut(s: &mut Seeded, draft: &mut Draft) -> u16 {
    let longest = draft.longest as usize;
    let position = s.between(0, longest);
    let bytes = s.between(0, 2).min(longest - position) + s.once_in(12) as usize;
    draft.add_part(3, position as u16, bytes as u16)
}

/// A few letters, and now and then a byte that is none.
pub fn add_constant(s: &mut Seeded, draft: &mut Draft) -> u16 {
    let mut word = Vec::new();
    for _ in 0..s.between(0, 3) {
        let (low, high) = s.pick(&draft.letters);
        word.push(if s.once_in(8) { b'!' } else { s.pick(&[low, high]) });
    }
    let (from, bytes) = draft.add_text(&word);
    draft.add_part(1, from, bytes)
}
