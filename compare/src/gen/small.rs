//! Small valid sheets, and the records that other sorts use too.

use super::contained::add_containment;
use super::new_bytes;
use crate::draft::{Draft, Record};
use crate::seed::Seeded;

const BYTES: &[u8] = b"aaabbbccdx";
const EDGES: &[u8] = &[0, 1, 127, 128, 254, 255];

/// A small sheet; the scale is 1 where brute force must try every filling.
pub fn small(s: &mut Seeded, scale: usize) -> Draft {
    let longest = s.between(0, 2 + scale);
    let mut draft = Draft {
        shortest: s.between(0, longest) as u16,
        longest: longest as u16,
        new_bytes: new_bytes(s),
        ..Draft::default()
    };
    for _ in 0..s.between(1, scale + 1) {
        draft.letters.push(range(s));
    }
    add_bytes(s, &mut draft, 5 * scale);
    let rows = s.between(0, 5 * scale);
    add_rows(s, &mut draft, rows);
    if !s.once_in(4) {
        draft.add_part(2, 0, 0);
    }
    for _ in 0..s.between(0, 2 * scale) {
        let part = part(s, &draft);
        draft.parts.push(part);
    }
    for _ in 0..s.between(0, 1 + scale) {
        add_assertion(s, &mut draft);
    }
    if s.once_in(3) {
        add_word_comparison(s, &mut draft);
    }
    if s.once_in(4) {
        add_containment(s, &mut draft);
    }
    draft
}

fn byte(s: &mut Seeded) -> u8 {
    if s.once_in(30) {
        s.pick(EDGES)
    } else {
        s.pick(BYTES)
    }
}

pub fn range(s: &mut Seeded) -> (u8, u8) {
    let low = byte(s);
    (low, low.saturating_add(s.below(2) as u8))
}

/// Adds up to so many bytes of text.
pub fn add_bytes(s: &mut Seeded, draft: &mut Draft, most: usize) {
    for _ in 0..s.between(0, most) {
        draft.text.push(byte(s));
    }
}

/// Makes the table this long; children may be any row of it.
pub fn add_rows(s: &mut Seeded, draft: &mut Draft, count: usize) {
    while draft.rows.len() < count {
        let row = row(s, draft.text.len(), count);
        draft.rows.push(row);
    }
}

fn row(s: &mut Seeded, text: usize, rows: usize) -> Record {
    let (a, b) = (s.below(rows) as u16, s.below(rows) as u16);
    match s.below(16) {
        0 => (1, 0, 0),
        1..=4 => {
            let (low, high) = range(s);
            (2, low as u16, high as u16)
        }
        5..=7 => {
            let (from, bytes) = stretch(s, text, 3);
            (3, from, bytes)
        }
        8..=10 => (4, a, b),
        11..=13 => (5, a, b),
        _ => (6, a, 0),
    }
}

/// A stretch of the text of at most so many bytes.
pub fn stretch(s: &mut Seeded, text: usize, most: usize) -> (u16, u16) {
    let from = s.between(0, text);
    let bytes = s.between(0, most.min(text - from));
    (from as u16, bytes as u16)
}

pub fn part(s: &mut Seeded, draft: &Draft) -> Record {
    match s.below(24) {
        0 => (3, u16::MAX, s.below(2) as u16),
        1..=8 => {
            let (from, bytes) = stretch(s, draft.text.len(), 3);
            (1, from, bytes)
        }
        9..=14 => (2, 0, 0),
        _ => (3, s.between(0, draft.longest as usize + 1) as u16, s.between(0, 2) as u16),
    }
}

/// A run of at most so many parts.
pub fn run(s: &mut Seeded, draft: &Draft, most: usize) -> (u16, u16) {
    stretch(s, draft.parts.len(), most)
}

/// An assertion of any kind, often about v alone.
pub fn add_assertion(s: &mut Seeded, draft: &mut Draft) {
    let v = draft.parts.iter().position(|part| part.0 == 2);
    let term = match v {
        Some(v) if s.once_in(2) => (v as u16, 1),
        _ => run(s, draft, 3),
    };
    let sign = s.once_in(3) as u8;
    let (kind, about) = match s.below(10) {
        0..=3 if !draft.rows.is_empty() => (1, (s.below(draft.rows.len()) as u16, 0)),
        0..=5 => (2, stretch(s, draft.text.len(), 2)),
        6..=7 => (3, run(s, draft, 2)),
        _ => (4, run(s, draft, 2)),
    };
    draft.assert((kind, sign), term, about);
}

/// Compares v with a constant that v can be, so that words are met and missed by one.
pub fn add_word_comparison(s: &mut Seeded, draft: &mut Draft) {
    let mut word = Vec::new();
    for _ in 0..s.between(draft.shortest as usize, draft.longest as usize) {
        word.push(s.pick(&draft.letters).0);
    }
    let (from, bytes) = draft.add_text(&word);
    let constant = draft.add_part(1, from, bytes);
    let v = draft.add_part(2, 0, 0);
    let sign = s.below(2) as u8;
    if s.once_in(2) {
        draft.assert((3, sign), (v, 1), (constant, 1));
    } else {
        draft.assert((3, sign), (constant, 1), (v, 1));
    }
}
