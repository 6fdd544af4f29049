//! Everyday sheets of the second edition, under each cut rule: keys of the branch `LDN`, and filters
//! that look at the three bytes behind `LDN-`.

use crate::draft::{Draft, CUT_RULE_0, CUT_RULE_1};
use crate::keys::{key, over, Key, BUDGET};
use crate::regions::add_joined;

pub fn cut_rules() -> Vec<Key> {
    let ask = |name, draft, line| key(name, draft, BUDGET, line);
    vec![
        ask("cut-rule-0-none", not_abz(CUT_RULE_0), "none 11"),
        ask("cut-rule-1-found", not_abz(CUT_RULE_1), "found 6 45 4c444e2d4141"),
        ask("cut-rule-1-none", ends_with_ab(0), "none 173"),
        ask("cut-rule-1-none-back", ends_with_ab(1), "none 173"),
    ]
}

/// The parts of `branch`: all of v, and the three bytes.
const V: u16 = 0;
const CUT: u16 = 1;
/// Its rows: a capital, and the branch's code.
const CAPITAL: u16 = 0;
const CODE: u16 = 1;

fn branch(new_bytes: [u8; 4]) -> Draft {
    let mut draft = over(&[(b'-', b'-'), (b'A', b'Z')], 0, 10).with_new_bytes(new_bytes);
    draft.add_part(2, 0, 0);
    draft.add_part(3, 4, 3);
    draft.add_row(2, b'A' as u16, b'Z' as u16);
    let (from, bytes) = draft.add_text(b"LDN-");
    draft.add_row(3, from, bytes);
    draft
}

fn add_constant(draft: &mut Draft, text: &[u8]) -> u16 {
    let (from, bytes) = draft.add_text(text);
    draft.add_part(1, from, bytes)
}

/// A key of `LDN-` and two capitals whose three bytes are not `ABZ`.
fn not_abz(new_bytes: [u8; 4]) -> Draft {
    let mut draft = branch(new_bytes);
    let filter = add_joined(&mut draft, &[CODE, CAPITAL, CAPITAL]);
    let abz = add_constant(&mut draft, b"ABZ");
    draft.assert((1, 0), (V, 1), (filter, 0));
    draft.assert((3, 1), (CUT, 1), (abz, 1));
    draft
}

/// A key of `LDN-` and capitals whose three bytes are `AB`, but which is not `LDN-AB`; with sign 1
/// the question asked back.
fn ends_with_ab(sign: u8) -> Draft {
    let mut draft = branch(CUT_RULE_1);
    let capitals = draft.add_row(6, CAPITAL, 0);
    let filter = add_joined(&mut draft, &[CODE, capitals]);
    let ab = add_constant(&mut draft, b"AB");
    let key = add_constant(&mut draft, b"LDN-AB");
    draft.assert((1, 0), (V, 1), (filter, 0));
    draft.assert((3, sign), (CUT, 1), (ab, 1));
    draft.assert((3, 1 - sign), (V, 1), (key, 1));
    draft
}
