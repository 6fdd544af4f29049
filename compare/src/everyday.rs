//! An everyday filter of 32 rows: branch codes, and groups of letters and digits behind them.

use crate::draft::Draft;
use crate::second::make::make;

/// The length of the list's words.
pub const N: usize = 20;
/// A key of that length that the filter lets through.
pub const KEY: &[u8; N] = b"LDN-AB12-C3D4-E5F6-7";

const CODES: [&[u8]; 8] = [b"LDN", b"BRS", b"MAN", b"LDS", b"EDI", b"GLA", b"CDF", b"BEL"];

/// The filter's sheet, and its last row: the root.
pub fn filter() -> (Draft, u16) {
    let mut draft = Draft {
        letters: vec![(b'A', b'Z'), (b'0', b'9'), (b'-', b'-')],
        longest: N as u16,
        ..Draft::default()
    };
    let letter = draft.add_row(2, b'A' as u16, b'Z' as u16);
    let digit = draft.add_row(2, b'0' as u16, b'9' as u16);
    let sign = draft.add_row(4, letter, digit);
    let signs = draft.add_row(6, sign, 0);
    let dash = draft.add_row(2, b'-' as u16, b'-' as u16);
    let code = add_codes(&mut draft, &CODES);

    // A code and groups, none of them empty.
    let dashed = draft.add_row(5, dash, sign);
    let group = draft.add_row(5, dashed, signs);
    let groups = draft.add_row(6, group, 0);
    let grouped = draft.add_row(5, code, groups);
    // A code, a dash and anything.
    let any = draft.add_row(4, sign, dash);
    let anything = draft.add_row(6, any, 0);
    let behind = draft.add_row(5, dash, anything);
    let loose = draft.add_row(5, code, behind);
    // One branch's own prefix.
    let (from, bytes) = draft.add_text(b"LDN-");
    let prefix = draft.add_row(3, from, bytes);
    let own = draft.add_row(5, prefix, signs);
    let strict = draft.add_row(4, grouped, own);
    let root = draft.add_row(4, strict, loose);
    (draft, root)
}

/// Any one of the codes.
pub fn add_codes(draft: &mut Draft, codes: &[&[u8]]) -> u16 {
    let mut rows = Vec::new();
    for code in codes {
        let (from, bytes) = draft.add_text(code);
        rows.push(draft.add_row(3, from, bytes));
    }
    let or = |one: u16, other: u16| draft.add_row(4, one, other);
    rows.into_iter().reduce(or).expect("a code")
}

/// The filter's list for keys of that length.
pub fn list() -> Vec<u8> {
    let (draft, root) = filter();
    let sheet = draft.bytes();
    let mut list = vec![0; 1 << 20];
    let made = make(&sheet, root.into(), N as u64, &mut list);
    list.truncate(made.length as usize);
    list
}
