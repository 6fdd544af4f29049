//! Everyday sheets in which a term contains another: a key's region code in a list of codes, and in
//! the key's own number.

use crate::draft::Draft;
use crate::everyday::add_codes;
use crate::keys::{key, over, Key, BUDGET};

/// Keys of a region code, a dash and a number.
const LETTERS: [(u8, u8); 3] = [(b'A', b'Z'), (b'0', b'9'), (b'-', b'-')];

pub fn regions() -> Vec<Key> {
    let ask = |name, draft, line| key(name, draft, BUDGET, line);
    vec![
        ask("region-list-found", in_list(b"LDNMANEDI"), "found 7 65 414e452d303030"),
        ask("region-list-none", in_list(b"LDN,MAN,EDI"), "none 12699"),
        ask("region-inside-found", inside(&[b"LN", b"SE"]), "found 6 2908 53452d305345"),
        ask("region-inside-none", inside(&[b"LN"]), "none 2850"),
    ]
}

/// A key of three capitals, a dash and three digits whose capitals stand in the list, but which is
/// of none of the three regions.
fn in_list(list: &[u8]) -> Draft {
    let mut draft = over(&LETTERS, 3, 10);
    let capital = draft.add_row(2, b'A' as u16, b'Z' as u16);
    let digit = draft.add_row(2, b'0' as u16, b'9' as u16);
    let dash = draft.add_row(2, b'-' as u16, b'-' as u16);
    let number = add_joined(&mut draft, &[dash, digit, digit, digit]);
    let any = add_joined(&mut draft, &[capital, capital, capital, number]);
    let code = add_codes(&mut draft, &[b"LDN", b"MAN", b"EDI"]);
    let of_region = draft.add_row(5, code, number);

    let v = draft.add_part(2, 0, 0);
    let region = draft.add_part(3, 0, 3);
    let (from, bytes) = draft.add_text(list);
    let list = draft.add_part(1, from, bytes);
    draft.assert((1, 0), (v, 1), (any, 0));
    draft.assert((4, 0), (list, 1), (region, 1));
    draft.assert((1, 1), (v, 1), (of_region, 0));
    draft
}

/// A key of one of the codes, a dash and three capitals or digits which contain its own code, but
/// not `LN`.
fn inside(codes: &[&[u8]]) -> Draft {
    let mut draft = over(&LETTERS, 6, 6);
    let capital = draft.add_row(2, b'A' as u16, b'Z' as u16);
    let digit = draft.add_row(2, b'0' as u16, b'9' as u16);
    let sign = draft.add_row(4, capital, digit);
    let dash = draft.add_row(2, b'-' as u16, b'-' as u16);
    let code = add_codes(&mut draft, codes);
    let filter = add_joined(&mut draft, &[code, dash, sign, sign, sign]);

    let v = draft.add_part(2, 0, 0);
    let region = draft.add_part(3, 0, 2);
    let number = draft.add_part(3, 3, 3);
    let text = draft.add_text(b"LN");
    draft.assert((1, 0), (v, 1), (filter, 0));
    draft.assert((4, 0), (number, 1), (region, 1));
    draft.assert((2, 1), (number, 1), text);
    draft
}

/// The rows one after the other.
pub fn add_joined(draft: &mut Draft, rows: &[u16]) -> u16 {
    rows.iter().copied().reduce(|one, other| draft.add_row(5, one, other)).expect("a row")
}
