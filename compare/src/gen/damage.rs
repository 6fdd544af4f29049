//! Damaged sheets: one fault, or two so that the order of refusals shows.

use super::alike::alike;
use super::broken::break_record;
use super::contained::contained;
use super::cuts::cuts;
use super::filters::filters;
use super::limits::limits;
use super::small::small;
use super::trailer_start;
use crate::draft::Draft;
use crate::second::edition::{EDITIONS, FIELDS, TOTAL_AND_MARK};
use crate::second::sheet::{read_u16, SHEET_LIMIT, TABLES};
use crate::seed::Seeded;

pub fn damaged(s: &mut Seeded) -> Vec<u8> {
    let mut draft = match s.below(7) {
        0 => limits(s),
        1 => alike(s),
        2 => filters(s, 5),
        3 => contained(s, 4),
        4 => cuts(s, 4),
        _ => small(s, 2),
    };
    let faults = s.between(1, 2);
    let in_draft = s.below(faults + 1);
    for _ in 0..in_draft {
        damage_draft(s, &mut draft);
    }
    let mut bytes = draft.bytes();
    for _ in in_draft..faults {
        damage_bytes(s, &mut bytes);
    }
    bytes
}

/// A small sheet with each of its bytes changed in turn.
pub fn each_byte(s: &mut Seeded) -> Vec<Vec<u8>> {
    let sheet = small(s, 1).bytes();
    (0..sheet.len()).map(|at| with_byte_changed(s, &sheet, at)).collect()
}

/// The bytes with one of them changed.
pub fn with_byte_changed(s: &mut Seeded, bytes: &[u8], at: usize) -> Vec<u8> {
    let mut bytes = bytes.to_vec();
    bytes[at] = match s.below(4) {
        0 => bytes[at].wrapping_add(1),
        1 => bytes[at].wrapping_sub(1),
        2 => bytes[at] ^ 0x80,
        _ => bytes[at] ^ s.between(1, 255) as u8,
    };
    bytes
}

/// Bytes of no sheet, most of them with a mark and a total that pass.
pub fn random_bytes(s: &mut Seeded) -> Vec<u8> {
    let length = match s.below(5) {
        0 => s.pick(&[0, 1, 100]),
        1..=2 => s.between(30, 40),
        _ => s.between(SHEET_LIMIT - 5, SHEET_LIMIT + 1),
    };
    let mut bytes: Vec<u8> = (0..length).map(|_| s.byte()).collect();
    if !s.once_in(4) {
        restore_end(s, &mut bytes);
    }
    bytes
}

/// Faults that keep every table and the trailer in agreement.
fn damage_draft(s: &mut Seeded, draft: &mut Draft) {
    match s.below(20) {
        0 => draft.letters.resize(9, (b'a', b'b')),
        1 => draft.text.resize(1_025, b'a'),
        2 => draft.rows.resize(257, (1, 0, 0)),
        3 => draft.parts.resize(65, (2, 0, 0)),
        4 => {
            draft.assert((2, 0), (0, 0), (0, 0));
            let last = draft.assertions[0];
            draft.assertions.resize(33, last);
        }
        5 => draft.letters.clear(),
        6..=8 => add_long_term(s, draft),
        _ => break_record(s, draft),
    }
}

/// A term of 61 bytes or more, in one of the two places a term can have, or of 60.
fn add_long_term(s: &mut Seeded, draft: &mut Draft) {
    let bytes = s.pick(&[60, 61, 62, 65_535]);
    let term = (draft.add_part(3, s.below(3) as u16, bytes), 1);
    let kind = s.pick(&[3, 4]);
    match s.below(4) {
        0 => draft.assert((kind, 0), (0, 0), term),
        1 => draft.assert((kind, 1), term, (0, 0)),
        2 => draft.assert((2, 0), term, (0, 0)),
        // A part that no assertion uses may be of any length.
        _ => {}
    }
}

fn damage_bytes(s: &mut Seeded, bytes: &mut Vec<u8>) {
    let Some(trailer) = trailer_start(bytes) else {
        return cut(s, bytes);
    };
    match s.below(18) {
        0 => cut(s, bytes),
        1 => grow(s, bytes, trailer),
        2..=3 => change_mark(s, bytes),
        4 => change_pair(s, bytes, trailer),
        5..=7 => change_field(s, bytes, trailer),
        8 => change_new_byte(s, bytes, trailer),
        9 => change_any_byte(s, bytes),
        10..=12 => change_zero(s, bytes, trailer),
        _ => change_record(s, bytes, trailer),
    }
}

/// Takes bytes away, at the end or within; sometimes mark and total are put right.
fn cut(s: &mut Seeded, bytes: &mut Vec<u8>) {
    if s.once_in(2) {
        bytes.truncate(s.below(bytes.len() + 1));
    } else {
        let at = s.below(bytes.len() + 1);
        let end = (at + s.between(1, 12)).min(bytes.len());
        bytes.drain(at..end);
    }
    if s.once_in(2) {
        restore_end(s, bytes);
    }
}

/// Puts bytes in, a few or up to the longest sheet and past it.
fn grow(s: &mut Seeded, bytes: &mut Vec<u8>, trailer: usize) {
    let to_limit = SHEET_LIMIT.saturating_sub(bytes.len());
    let near_limit = to_limit.saturating_sub(s.below(5));
    let more = s.pick(&[1, 2, 4, 6, 12, 40, near_limit, to_limit, to_limit + 1, to_limit + 100]);
    let at = s.pick(&[0, trailer, bytes.len() - TOTAL_AND_MARK, bytes.len()]);
    let filling = s.pick(&[0, 1, 255]);
    bytes.splice(at..at, std::iter::repeat_n(filling, more));
    if s.once_in(2) {
        restore_end(s, bytes);
    }
}

/// Writes the total that the length asks for, and the mark of either edition.
fn restore_end(s: &mut Seeded, bytes: &mut [u8]) {
    if let Some(end) = bytes.len().checked_sub(TOTAL_AND_MARK) {
        let total = bytes.len() as u32;
        bytes[end..end + 4].copy_from_slice(&total.to_le_bytes());
        bytes[end + 4..].copy_from_slice(s.pick(&EDITIONS).mark());
    }
}

/// The mark of either edition, or of none.
fn change_mark(s: &mut Seeded, bytes: &mut [u8]) {
    let mark = bytes.len() - 4;
    if s.once_in(2) {
        bytes[mark..].copy_from_slice(s.pick(&EDITIONS).mark());
    } else {
        bytes[mark + s.below(4)] ^= s.between(1, 255) as u8;
    }
}

/// A field of the trailer: all of it but the mark is taken for fields of two bytes.
fn change_field(s: &mut Seeded, bytes: &mut [u8], trailer: usize) {
    let at = trailer + 2 * s.below((bytes.len() - 4 - trailer) / 2);
    change_u16(s, bytes, trailer, at);
}

/// In the first edition the total stands where the second has the new bytes.
fn change_new_byte(s: &mut Seeded, bytes: &mut [u8], trailer: usize) {
    bytes[trailer + FIELDS + s.below(4)] = s.pick(&[0, 1, 2, 255]);
}

fn change_pair(s: &mut Seeded, bytes: &mut [u8], trailer: usize) {
    let (shortest, longest): (u16, u16) =
        s.pick(&[(0, 61), (61, 61), (1, 0), (60, 59), (9, 65_535)]);
    bytes[trailer..trailer + 2].copy_from_slice(&shortest.to_le_bytes());
    bytes[trailer + 2..trailer + 4].copy_from_slice(&longest.to_le_bytes());
}

fn change_u16(s: &mut Seeded, bytes: &mut [u8], trailer: usize, at: usize) {
    let old = read_u16(bytes, at) as u16;
    let limits = TABLES.map(|table| table.most as u16 + 1);
    let count = read_u16(bytes, trailer + 6 + 4 * s.below(5)) as u16;
    let new = match s.below(6) {
        0 => old.wrapping_add(1),
        1 => old.wrapping_sub(1),
        2 => s.pick(&limits),
        3 => s.pick(&[0, 1, 60, 61, 255, 256, 32_767, 32_768, 65_535]),
        // The first reference past a table, and the last one within.
        4 => s.pick(&[count, count.wrapping_add(1), count.wrapping_sub(1)]),
        _ => s.number() as u16,
    };
    bytes[at..at + 2].copy_from_slice(&new.to_le_bytes());
}

/// Where a record of the table begins, as the trailer now gives the tables; nothing if nowhere.
fn record(s: &mut Seeded, bytes: &[u8], trailer: usize, table: usize) -> Option<usize> {
    let offset = read_u16(bytes, trailer + 4 + 4 * table);
    let count = read_u16(bytes, trailer + 6 + 4 * table);
    let size = TABLES[table].record;
    let within = count > 0 && offset + count * size <= trailer;
    within.then(|| offset + size * s.below(count))
}

/// A byte or a field of a record.
fn change_record(s: &mut Seeded, bytes: &mut [u8], trailer: usize) {
    let table = s.below(5);
    let Some(start) = record(s, bytes, trailer, table) else {
        return change_any_byte(s, bytes);
    };
    let size = TABLES[table].record;
    if size > 2 && s.once_in(2) {
        let field = s.between(1, size / 2 - 1);
        change_u16(s, bytes, trailer, start + 2 * field);
    } else {
        bytes[start + s.below(size)] = s.pick(&[0, 1, 2, 3, 4, 5, 6, 7, 255]);
    }
}

/// A zero field of a row, a part or an assertion.
fn change_zero(s: &mut Seeded, bytes: &mut [u8], trailer: usize) {
    let (table, at) = s.pick(&[(2, 1), (3, 1), (4, 10), (4, 11)]);
    match record(s, bytes, trailer, table) {
        Some(start) => bytes[start + at] = s.pick(&[1, 2, 128, 255]),
        None => change_any_byte(s, bytes),
    }
}

fn change_any_byte(s: &mut Seeded, bytes: &mut [u8]) {
    if !bytes.is_empty() {
        let at = s.below(bytes.len());
        bytes[at] = s.byte();
    }
}
