//! Valid sheets with tables, terms and lengths at their limits.

use super::new_bytes;
use super::small::{add_assertion, add_bytes, add_rows, part, run, stretch};
use crate::draft::Draft;
use crate::second::sheet::{Sheet, LENGTH_LIMIT, TABLES};
use crate::seed::Seeded;

pub fn limits(s: &mut Seeded) -> Draft {
    let (shortest, longest) =
        s.pick(&[(60, 60), (0, 60), (59, 60), (30, 60), (0, 0), (0, 0), (0, 1), (2, 3), (0, 30)]);
    let mut draft = Draft { shortest, longest, new_bytes: new_bytes(s), ..Draft::default() };
    // The longest sheet has every table full, but perhaps for a few bytes of text.
    let full = s.once_in(6);
    let letters = if full { 8 } else { s.pick(&[1, 8]) };
    add_letters(s, &mut draft, letters);
    if full || s.once_in(2) {
        let most = TABLES[1].most - s.pick(&[0, 0, 0, 1, 2, 3, 4]);
        add_long_text(s, &mut draft, most);
    } else {
        add_bytes(s, &mut draft, 6);
    }
    add_any_star(&mut draft);
    match s.below(4) {
        0 if !full => {}
        1 if !full => add_rows(s, &mut draft, 8),
        2 => add_chain(s, &mut draft),
        _ => add_rows(s, &mut draft, TABLES[2].most),
    }
    let parts = if full { TABLES[3].most } else { s.pick(&[2, TABLES[3].most]) };
    add_parts(s, &mut draft, parts);
    let assertions = if full { TABLES[4].most } else { s.pick(&[1, 2, 3, TABLES[4].most]) };
    add_assertions(s, &mut draft, assertions);
    draft
}

/// One range, or eight that overlap.
fn add_letters(s: &mut Seeded, draft: &mut Draft, count: usize) {
    let width = s.pick(&[0, 1, 3, 40, 255]);
    let around = s.byte();
    for _ in 0..count {
        let low = around.wrapping_add(s.below(6) as u8);
        draft.letters.push((low, low.saturating_add(s.between(0, width) as u8)));
    }
}

fn add_long_text(s: &mut Seeded, draft: &mut Draft, count: usize) {
    while draft.text.len() < count {
        let byte = if s.once_in(3) { s.byte() } else { s.pick(&draft.letters).0 };
        draft.text.push(byte);
    }
}

/// Row 0 is any byte, row 1 any word.
fn add_any_star(draft: &mut Draft) {
    draft.add_row(2, 0, 255);
    draft.add_row(6, 0, 0);
}

/// A full table in which each row refers to the next one, up or down.
fn add_chain(s: &mut Seeded, draft: &mut Draft) {
    let most = TABLES[2].most as u16;
    let (kind, rising) = (s.pick(&[4, 4, 5, 6]), s.once_in(2));
    let start = draft.rows.len() as u16;
    for row in start..most {
        let next = if rising { (row + 1) % most } else { row - 1 };
        let other = if kind == 4 || kind == 5 { s.pick(&[next, 0, 1, row]) } else { 0 };
        draft.add_row(kind, next, other);
    }
}

/// Parts, v first, with a term of 60 bytes among them.
fn add_parts(s: &mut Seeded, draft: &mut Draft, count: usize) {
    draft.add_part(2, 0, 0);
    let rest = LENGTH_LIMIT.saturating_sub(draft.longest as usize);
    if rest <= draft.text.len() {
        draft.add_part(1, s.below(draft.text.len() - rest + 1) as u16, rest as u16);
    } else {
        draft.add_part(3, 0, rest as u16);
    }
    while draft.parts.len() < count {
        let part = part(s, draft);
        draft.parts.push(part);
    }
}

/// Assertions that few words break, so that the walk goes deep, and sometimes a chance one.
fn add_assertions(s: &mut Seeded, draft: &mut Draft, count: usize) {
    let chance = s.once_in(2);
    while draft.assertions.len() < count {
        if chance && draft.assertions.is_empty() {
            add_assertion(s, draft);
        } else {
            add_easy_assertion(s, draft);
        }
        if Sheet::check(&draft.bytes()).is_err_and(|fault| fault.number == 17) {
            draft.assertions.pop();
        }
    }
}

fn add_easy_assertion(s: &mut Seeded, draft: &mut Draft) {
    let (v, sixty) = ((0, 1), (0, 2));
    let any_row = s.below(draft.rows.len()) as u16;
    match s.below(11) {
        0 => draft.assert((2, 0), v, (s.between(0, draft.text.len()) as u16, 0)),
        1 => draft.assert((3, 0), sixty, sixty),
        2 => {
            let text = stretch(s, draft.text.len(), 70);
            draft.assert((2, 1), sixty, text);
        }
        3 => {
            let other = run(s, draft, 3);
            draft.assert((3, 1), v, other);
        }
        4 => draft.assert((1, 0), sixty, (1, 0)),
        5 => draft.assert((1, 1), sixty, (any_row, 0)),
        6 => draft.assert((1, 0), v, (any_row, 0)),
        7 => draft.assert((4, 0), sixty, s.pick(&[v, sixty, (0, 0)])),
        8 => draft.assert((4, 1), v, sixty),
        9 => {
            let other = run(s, draft, 3);
            draft.assert((4, 1), sixty, other);
        }
        _ => draft.assert((1, 0), v, (1, 0)),
    }
}
