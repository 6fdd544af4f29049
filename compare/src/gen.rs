//! The seeded generator: sheets of every sort. Lists and words are in `lists`.

pub mod alike;
pub mod broken;
pub mod contained;
pub mod cuts;
pub mod damage;
pub mod faults;
pub mod filters;
pub mod limits;
pub mod lists;
pub mod sizes;
pub mod small;
mod wrong;

use crate::draft::{CUT_RULE_0, CUT_RULE_1};
use crate::second::edition::Edition;
use crate::seed::Seeded;

/// The sheets of one case, and the sort they are of. Sheets that are mostly refused at once come in
/// numbers, as there are many ways to be refused.
pub fn sheets(s: &mut Seeded) -> (&'static str, Vec<Vec<u8>>) {
    match s.below(100) {
        0 => return ("each byte", damage::each_byte(s)),
        1 => return ("each field", bytes(faults::each_field(s))),
        2..=4 => return ("two faults", bytes(faults::two_at_once(s))),
        5 => return ("sizes", bytes(sizes::sizes(s))),
        _ => {}
    }
    match s.below(26) {
        0..=3 => ("small", vec![small::small(s, 2).bytes()]),
        4..=8 => ("filters", vec![filters::filters(s, 7).bytes()]),
        9 => ("limits", vec![limits::limits(s).bytes()]),
        10..=12 => ("alike", vec![alike::alike(s).bytes()]),
        13..=15 => ("contained", vec![contained::contained(s, 6).bytes()]),
        16..=18 => ("cuts", vec![cuts::cuts(s, 5).bytes()]),
        19..=24 => ("damaged", (0..8).map(|_| damage::damaged(s)).collect()),
        _ => ("random", (0..8).map(|_| damage::random_bytes(s)).collect()),
    }
}

fn bytes(sheets: Vec<faults::Faulty>) -> Vec<Vec<u8>> {
    sheets.into_iter().map(|(bytes, _)| bytes).collect()
}

/// The new bytes of a sound sheet: of either edition, and under either cut rule.
fn new_bytes(s: &mut Seeded) -> Option<[u8; 4]> {
    s.pick(&[None, Some(CUT_RULE_0), Some(CUT_RULE_1)])
}

/// Where the trailer begins, if there is room for it; without a mark as in the first edition.
fn trailer_start(bytes: &[u8]) -> Option<usize> {
    Edition::of(bytes).unwrap_or(Edition::First).trailer_start(bytes)
}
