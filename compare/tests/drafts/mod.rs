//! Drafts that several tests begin from.

use compare::draft::Draft;
use compare::gen::alike::alike;
use compare::gen::contained::contained;
use compare::gen::cuts::cuts;
use compare::gen::filters::filters;
use compare::gen::limits::limits;
use compare::gen::small::small;
use compare::keys::over;
use compare::second::sheet::{ASSERTIONS, LETTERS, PARTS, ROWS, TABLES};
use compare::seed::Seeded;

/// Accepted sheets of every sort.
pub fn any_sort(s: &mut Seeded) -> Draft {
    match s.below(20) {
        0..=4 => small(s, 2),
        5..=9 => filters(s, 5),
        10..=12 => alike(s),
        13..=15 => contained(s, 5),
        16..=18 => cuts(s, 5),
        _ => limits(s),
    }
}

/// Every table with as many records as it may have, and so many bytes of text.
pub fn full(text: usize) -> Draft {
    let mut draft = over(&[(b'a', b'a')], 1, 1);
    draft.letters.resize(TABLES[LETTERS].most, (b'a', b'a'));
    draft.text.resize(text, b'a');
    draft.rows.resize(TABLES[ROWS].most, (1, 0, 0));
    draft.parts.resize(TABLES[PARTS].most, (2, 0, 0));
    (0..TABLES[ASSERTIONS].most).for_each(|_| draft.assert((1, 1), (0, 1), (0, 0)));
    draft
}
