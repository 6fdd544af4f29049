//! Claims about cuts that end within v, at its end or past it, or begin past it, so that the cut
//! rule shows.

use super::contained::add_constant;
use super::filters::{add_joins, add_leaves};
use super::new_bytes;
use crate::draft::{Draft, CUT_RULE_1};
use crate::seed::Seeded;

/// A sheet of such claims, with words of at most so many bytes.
pub fn cuts(s: &mut Seeded, most: usize) -> Draft {
    let longest = s.between(0, most);
    let mut draft = Draft {
        letters: vec![(b'a', b'a' + s.below(3) as u8)],
        shortest: s.between(0, longest) as u16,
        longest: longest as u16,
        new_bytes: if s.once_in(2) { new_bytes(s) } else { Some(CUT_RULE_1) },
        ..Draft::default()
    };
    add_leaves(s, &mut draft);
    add_joins(s, &mut draft);
    for _ in 0..s.between(1, 2) {
        add_claim(s, &mut draft);
    }
    if s.once_in(4) {
        // No word passes, so every prefix that can be walked is.
        let v = draft.add_part(2, 0, 0);
        draft.assert((2, 1), (v, 1), (0, 0));
    }
    draft
}

fn add_claim(s: &mut Seeded, draft: &mut Draft) {
    let sign = s.below(2) as u8;
    let term = add_term(s, draft);
    match s.between(1, 4) {
        1 => {
            let row = s.below(draft.rows.len()) as u16;
            draft.assert((1, sign), term, (row, 0));
        }
        2 => {
            let constant = add_constant(s, draft);
            let (_, from, bytes) = draft.parts[constant as usize];
            draft.assert((2, sign), term, (from, bytes));
        }
        kind => {
            let other = add_other(s, draft);
            let (one, other) = if s.once_in(2) { (term, other) } else { (other, term) };
            draft.assert((kind as u8, sign), one, other);
        }
    }
}

/// A cut, now and then with something joined to it.
fn add_term(s: &mut Seeded, draft: &mut Draft) -> (u16, u16) {
    let cut = add_cut(s, draft);
    if !s.once_in(3) {
        return (cut, 1);
    }
    match s.below(3) {
        0 => draft.add_part(2, 0, 0),
        1 => add_cut(s, draft),
        _ => add_constant(s, draft),
    };
    (cut, 2)
}

/// What the term is compared with.
fn add_other(s: &mut Seeded, draft: &mut Draft) -> (u16, u16) {
    match s.below(5) {
        0 => (draft.add_part(2, 0, 0), 1),
        1 => add_term(s, draft),
        _ => (add_constant(s, draft), 1),
    }
}

fn add_cut(s: &mut Seeded, draft: &mut Draft) -> u16 {
    let longest = draft.longest as usize;
    let within = s.between(0, longest);
    let past = s.pick(&[longest, longest + 1, 60, 65_535]);
    let position = s.pick(&[0, within, within, within, past]);
    let rest = longest.saturating_sub(position);
    let bytes = s.pick(&[0, 1, 1, 2, rest, rest + 1, 20]);
    draft.add_part(3, position as u16, bytes as u16)
}
