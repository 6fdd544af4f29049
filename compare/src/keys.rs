//! The sheets of the paper's keys, and faulty ones.

use crate::cut_rules::cut_rules;
use crate::draft::Draft;
use crate::regions::regions;

/// The budget of a key that names none.
pub const BUDGET: u64 = 1_000_000;

/// A question to the solver: its sheet, its budget and the line the checking program would print.
pub struct Key {
    pub name: &'static str,
    pub draft: Draft,
    pub budget: u64,
    pub line: &'static str,
}

/// The question that the draft asks.
pub fn key(name: &'static str, draft: Draft, budget: u64, line: &'static str) -> Key {
    Key { name, draft, budget, line }
}

/// Every question whose sheet is written here and kept.
pub fn kept() -> Vec<Key> {
    keys().into_iter().chain(faulty()).chain(regions()).chain(cut_rules()).collect()
}

/// K1 to K11.
pub fn keys() -> Vec<Key> {
    vec![
        key("k1", brackets(0, 2), BUDGET, "found 0 1 -"),
        key("k2", brackets(1, 2), BUDGET, "found 2 5 3c3e"),
        key("k3", brackets(3, 3), BUDGET, "none 1"),
        key("k4", brackets(4, 4), BUDGET, "found 4 7 3c3c3e3e"),
        key("k5", not_the_first(), 11, "found 4 11 3c3e3c3e"),
        key("k6", not_the_first(), 10, "spent 10"),
        key("k7", twice(), BUDGET, "none 3"),
        key("k8", cut_past_the_end(), BUDGET, "found 3 7 616161"),
        key("k9", no_letter(), BUDGET, "none 3"),
        key("k10", only_itself(), BUDGET, "none 3"),
        key("k11", digits(), BUDGET, "found 2 3 3030"),
    ]
}

/// K4 with a fault in it.
pub fn faulty() -> Vec<Key> {
    let faulty = |name, change: fn(&mut Draft), line| {
        let mut draft = brackets(4, 4);
        change(&mut draft);
        key(name, draft, BUDGET, line)
    };
    let long_term = |draft: &mut Draft| {
        let long = draft.add_part(3, 0, 61);
        draft.assert((3, 1), (0, 1), (long, 1));
    };
    let cut_rule_2 = |draft: &mut Draft| draft.new_bytes = Some([2, 0, 0, 0]);
    vec![
        faulty("faulty-count", |draft| draft.rows.resize(257, (1, 0, 0)), "refused 14 2 0"),
        faulty("faulty-lengths", |draft| draft.longest = 61, "refused 141"),
        faulty("faulty-cut-rule", cut_rule_2, "refused 16 5 0"),
        faulty("faulty-row", |draft| draft.rows[5] = (5, 1, 7), "refused 16 2 5"),
        faulty("faulty-term", long_term, "refused 17 4 1"),
    ]
}

/// A sheet without rows, parts and assertions.
pub fn over(letters: &[(u8, u8)], shortest: u16, longest: u16) -> Draft {
    Draft { letters: letters.to_vec(), shortest, longest, ..Draft::default() }
}

/// Sheet B: v is balanced.
pub fn brackets(shortest: u16, longest: u16) -> Draft {
    let mut draft = over(&[(b'<', b'<'), (b'>', b'>')], shortest, longest);
    let (less, greater) = (b'<' as u16, b'>' as u16);
    draft.rows = vec![
        (1, 0, 0),
        (2, less, less),
        (2, greater, greater),
        (4, 0, 4),
        (5, 5, 6),
        (5, 1, 3),
        (5, 2, 3),
    ];
    let v = draft.add_part(2, 0, 0);
    draft.assert((1, 0), (v, 1), (3, 0));
    draft
}

/// K5 and K6.
fn not_the_first() -> Draft {
    let mut draft = brackets(4, 4);
    let (from, bytes) = draft.add_text(b"<<>>");
    let word = draft.add_part(1, from, bytes);
    draft.assert((3, 1), (0, 1), (word, 1));
    draft
}

/// K7.
fn twice() -> Draft {
    let mut draft = over(&[(b'a', b'b')], 1, 1);
    let (from, bytes) = draft.add_text(b"ab");
    let v = draft.add_part(2, 0, 0);
    draft.add_part(2, 0, 0);
    let word = draft.add_part(1, from, bytes);
    draft.assert((3, 0), (v, 2), (word, 1));
    draft
}

/// K8.
fn cut_past_the_end() -> Draft {
    let mut draft = over(&[(b'a', b'a')], 0, 3);
    let (from, bytes) = draft.add_text(b"x");
    let cut = draft.add_part(3, 2, 1);
    let word = draft.add_part(1, from, bytes);
    draft.assert((3, 1), (cut, 1), (word, 1));
    draft
}

/// K9.
fn no_letter() -> Draft {
    let mut draft = over(&[(b'a', b'a')], 0, 2);
    let text = draft.add_text(b"b");
    let v = draft.add_part(2, 0, 0);
    draft.assert((2, 0), (v, 1), text);
    draft
}

/// K10; the paper names no letter, and any gives the same answer.
fn only_itself() -> Draft {
    let mut draft = over(&[(b'a', b'a')], 0, 2);
    let row = draft.add_row(4, 0, 0);
    let v = draft.add_part(2, 0, 0);
    draft.assert((1, 0), (v, 1), (row, 0));
    draft
}

/// K11.
fn digits() -> Draft {
    over(&[(b'0', b'9')], 2, 2)
}

/// K12: the list is made for row 1.
pub fn star_of_a() -> Draft {
    let mut draft = over(&[(b'a', b'a')], 0, 2);
    let a = draft.add_row(2, b'a' as u16, b'a' as u16);
    draft.add_row(6, a, 0);
    draft
}
