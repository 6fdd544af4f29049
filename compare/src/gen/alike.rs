//! Sheets with many letters that are alike, or told apart by one thing.

use super::new_bytes;
use crate::draft::Draft;
use crate::seed::Seeded;

const LETTERS: &[&[(u8, u8)]] = &[
    &[(b'A', b'Z')],
    &[(b'A', b'Z'), (b'0', b'9'), (b'-', b'-')],
    &[(0, 255)],
    &[(0, 199), (100, 255)],
    &[(b'a', b'p')],
    &[(b'a', b'd'), (b'c', b'f'), (b'f', b'f')],
    &[(250, 255), (0, 5)],
    &[(b'A', b'Z'), (b'a', b'z')],
];

/// A sheet whose whole walk can be tried.
pub fn alike(s: &mut Seeded) -> Draft {
    let letters = s.pick(LETTERS);
    let most = if letter_count(letters) > 16 { 2 } else { 3 };
    draft(s, letters, most)
}

/// A sheet whose walk can be counted only by taking alike letters together.
pub fn deep_alike(s: &mut Seeded) -> Draft {
    let letters = s.pick(LETTERS);
    let most = s.pick(&[7, 8, 9, 16, 60]);
    draft(s, letters, most)
}

fn letter_count(letters: &[(u8, u8)]) -> usize {
    letters.iter().map(|&(low, high)| (high - low) as usize + 1).sum()
}

fn draft(s: &mut Seeded, letters: &[(u8, u8)], most: usize) -> Draft {
    let longest = s.between(most.min(1), most);
    let mut draft = Draft {
        letters: letters.to_vec(),
        shortest: s.pick(&[0, longest as u16]),
        longest: longest as u16,
        new_bytes: new_bytes(s),
        ..Draft::default()
    };
    draft.add_part(2, 0, 0);
    for _ in 0..s.between(1, 2) {
        match s.below(8) {
            0 => told_by_range(s, &mut draft),
            1 => told_by_byte(s, &mut draft),
            2 => told_by_v(s, &mut draft),
            3 => told_by_nothing(s, &mut draft),
            4 => told_by_case(s, &mut draft),
            5 => told_by_unused(s, &mut draft),
            _ => told_by_containment(s, &mut draft),
        }
    }
    if s.once_in(2) {
        // No word passes, so every prefix that can be walked is.
        let any = any_word(&mut draft);
        draft.assert((1, 1), (0, 1), (any, 0));
    }
    draft
}

fn any_word(draft: &mut Draft) -> u16 {
    let byte = draft.add_row(2, 0, 255);
    draft.add_row(6, byte, 0)
}

/// A letter of the sheet.
fn letter(s: &mut Seeded, draft: &Draft) -> u8 {
    let (low, high) = s.pick(&draft.letters);
    s.between(low as usize, high as usize) as u8
}

/// A range that cuts the letters in two or three.
fn range_row(s: &mut Seeded, draft: &mut Draft) -> u16 {
    let (one, other) = (letter(s, draft), letter(s, draft));
    draft.add_row(2, one.min(other) as u16, one.max(other) as u16)
}

fn told_by_range(s: &mut Seeded, draft: &mut Draft) {
    let range = range_row(s, draft);
    let any = any_word(draft);
    let row = match s.below(4) {
        0 => draft.add_row(6, range, 0),
        1 => draft.add_row(5, any, range),
        2 => draft.add_row(5, range, any),
        _ => range,
    };
    draft.assert((1, s.below(2) as u8), (0, 1), (row, 0));
}

fn told_by_byte(s: &mut Seeded, draft: &mut Draft) {
    let byte = if s.once_in(4) { s.byte() } else { letter(s, draft) };
    let (from, bytes) = draft.add_text(&[byte]);
    let sign = s.below(2) as u8;
    match s.below(3) {
        0 => draft.assert((2, sign), (0, 1), (from, bytes)),
        1 => {
            let row = draft.add_row(3, from, bytes);
            let star = draft.add_row(6, row, 0);
            draft.assert((1, sign), (0, 1), (star, 0));
        }
        _ => {
            let position = s.below(draft.longest as usize + 1) as u16;
            let cut = draft.add_part(3, position, s.pick(&[1, 1, 3]));
            let constant = draft.add_part(1, from, bytes);
            draft.assert((3, sign), (cut, 1), (constant, 1));
        }
    }
}

/// A comparison of v with v tells letters apart by what stands elsewhere in the prefix.
fn told_by_v(s: &mut Seeded, draft: &mut Draft) {
    let longest = draft.longest as usize;
    let sign = s.below(2) as u8;
    if s.once_in(3) && longest <= 20 {
        let cut = draft.add_part(3, 0, s.between(0, longest) as u16);
        draft.add_part(2, 0, 0);
        draft.add_part(3, 0, s.between(0, longest) as u16);
        draft.assert((3, sign), (cut, 2), (cut + 1, 2));
    } else {
        let one = draft.add_part(3, s.below(longest + 1) as u16, 1);
        let other = draft.add_part(3, s.below(longest + 1) as u16, 1);
        draft.assert((3, sign), (one, 1), (other, 1));
    }
}

/// A constant within v or within a cut of it, these within a constant, or v within v.
fn told_by_containment(s: &mut Seeded, draft: &mut Draft) {
    let (one, other) = (add_stretch(s, draft), add_stretch(s, draft));
    let (first, count) = (draft.parts.len() as u16, s.between(1, 2) as u16);
    for _ in 0..count {
        let word: Vec<u8> = (0..s.between(1, 3)).map(|_| letter(s, draft)).collect();
        let (from, bytes) = draft.add_text(&word);
        draft.add_part(1, from, bytes);
    }
    let (term, second) = match s.below(6) {
        0..=1 => ((one, 1), (first, count)),
        2..=3 => ((first, count), (one, 1)),
        // With some of the constant joined to it.
        4 if draft.longest <= 50 => ((other, 2), (first + 1, count - 1)),
        _ => ((one, 1), (other, 1)),
    };
    draft.assert((4, s.below(2) as u8), term, second);
}

/// Adds v or a cut of it as a part.
fn add_stretch(s: &mut Seeded, draft: &mut Draft) -> u16 {
    if s.once_in(2) {
        return draft.add_part(2, 0, 0);
    }
    let longest = draft.longest as usize;
    draft.add_part(3, s.below(longest + 1) as u16, s.between(1, longest.min(3)) as u16)
}

/// A letter and the same in the other case, which are two bytes as any others are; whole rows of
/// one case too.
fn told_by_case(s: &mut Seeded, draft: &mut Draft) {
    let upper = s.between(b'A' as usize, b'Z' as usize) as u8;
    let byte = s.pick(&[upper, upper.to_ascii_lowercase()]);
    if s.once_in(2) {
        let (low, high) = if byte == upper { (b'A', b'Z') } else { (b'a', b'z') };
        let range = draft.add_row(2, low as u16, high as u16);
        let star = draft.add_row(6, range, 0);
        draft.assert((1, s.below(2) as u8), (0, 1), (star, 0));
    } else {
        let text = draft.add_text(&[byte]);
        draft.assert((2, s.below(2) as u8), (0, 1), text);
    }
}

fn told_by_nothing(s: &mut Seeded, draft: &mut Draft) {
    if s.once_in(2) {
        let any = any_word(draft);
        draft.assert((1, 0), (0, 1), (any, 0));
    }
}

/// Rows and text that would tell letters apart, but no assertion reads them.
fn told_by_unused(s: &mut Seeded, draft: &mut Draft) {
    range_row(s, draft);
    let byte = letter(s, draft);
    let (from, bytes) = draft.add_text(&[byte]);
    draft.add_row(3, from, bytes);
    draft.add_part(1, from, bytes);
}
