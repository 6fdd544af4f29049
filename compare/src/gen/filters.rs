//! Sheets with grammars that derive many words, asserted and denied together: their walks go deep,
//! turn back often, and end both ways.

use super::contained::add_containment;
use super::new_bytes;
use super::small::{add_assertion, add_word_comparison, run, stretch};
use crate::draft::Draft;
use crate::seed::Seeded;

/// Such a sheet, with words of at most so many bytes.
pub fn filters(s: &mut Seeded, most: usize) -> Draft {
    let longest = s.between(1, most);
    let mut draft = Draft {
        letters: vec![(b'a', b'a' + s.between(0, 3) as u8)],
        shortest: s.between(0, longest.min(3)) as u16,
        longest: longest as u16,
        new_bytes: new_bytes(s),
        ..Draft::default()
    };
    if s.once_in(3) {
        draft.letters.push((b'x', b'y'));
    }
    add_leaves(s, &mut draft);
    add_joins(s, &mut draft);
    let mut last = draft.rows.len() as u16 - 1;
    if !s.once_in(3) {
        last = draft.add_row(6, last, 0);
    }
    let v = draft.add_part(2, 0, 0);
    if s.once_in(3) {
        add_wrapped(s, &mut draft, last);
    } else {
        draft.assert((1, 0), (v, 1), (last, 0));
    }
    if s.once_in(2) {
        let other = last - s.below(4).min(last as usize) as u16;
        draft.assert((1, 1), (v, 1), (other, 0));
    }
    add_others(s, &mut draft, v);
    draft
}

/// Rows without children: some letters, some words.
pub fn add_leaves(s: &mut Seeded, draft: &mut Draft) {
    for _ in 0..s.between(1, 4) {
        let low = s.pick(b"aaabbcx") as u16;
        draft.add_row(2, low, low + s.below(3) as u16);
    }
    for _ in 0..s.between(0, 3) {
        let mut word = Vec::new();
        for _ in 0..s.between(1, 3) {
            word.push(s.pick(b"aabbc"));
        }
        let (from, bytes) = draft.add_text(&word);
        draft.add_row(3, from, bytes);
    }
    if s.once_in(2) {
        draft.add_row(1, 0, 0);
    }
}

/// Rows with children, most of them earlier rows, so that most derive something.
pub fn add_joins(s: &mut Seeded, draft: &mut Draft) {
    let first = draft.rows.len();
    let count = first + s.between(2, 10);
    for row in first..count {
        let mut child = || if s.once_in(5) { s.below(count) } else { s.below(row) } as u16;
        let (a, b) = (child(), child());
        match s.below(10) {
            0..=3 => draft.add_row(4, a, b),
            4..=7 => draft.add_row(5, a, b),
            _ => draft.add_row(6, a, 0),
        };
    }
}

/// Asserts that v between two constants is derived by the row between the same two.
fn add_wrapped(s: &mut Seeded, draft: &mut Draft, row: u16) {
    let (before, after) = s.pick(&[("'", "'"), ("<<", ">"), ("ab", "b"), ("", "bc")]);
    let (before, after) = (draft.add_text(before.as_bytes()), draft.add_text(after.as_bytes()));
    let opening = draft.add_row(3, before.0, before.1);
    let closing = draft.add_row(3, after.0, after.1);
    let rest = draft.add_row(5, row, closing);
    let whole = draft.add_row(5, opening, rest);
    let term = draft.add_part(1, before.0, before.1);
    draft.add_part(2, 0, 0);
    draft.add_part(1, after.0, after.1);
    draft.assert((1, 0), (term, 3), (whole, 0));
}

fn add_others(s: &mut Seeded, draft: &mut Draft, v: u16) {
    if s.once_in(3) {
        let text = stretch(s, draft.text.len(), 2);
        draft.assert((2, s.below(2) as u8), (v, 1), text);
    }
    if s.once_in(4) {
        add_word_comparison(s, draft);
    }
    if s.once_in(4) {
        let one = draft.add_part(3, s.below(draft.longest as usize) as u16, 1);
        let other = draft.add_part(3, s.below(draft.longest as usize) as u16, 1);
        draft.assert((3, s.below(2) as u8), (one, 1), (other, 1));
    }
    if s.once_in(3) {
        add_containment(s, draft);
    }
    if s.once_in(6) {
        let term = run(s, draft, 3);
        let text = stretch(s, draft.text.len(), 3);
        draft.assert((2, s.below(2) as u8), term, text);
    }
    if s.once_in(8) {
        add_assertion(s, draft);
    }
}
