//! Sheets at either end of the sizes that the editions allow.

use super::faults::{sound, Faulty};
use super::trailer_start;
use crate::draft::{Draft, CUT_RULE_1};
use crate::second::edition::{Edition, EDITIONS, TOTAL_AND_MARK};
use crate::second::fault::Fault;
use crate::second::sheet::{LETTERS, SHEET_LEAST, SHEET_LIMIT, TABLES, TEXT};
use crate::seed::Seeded;

/// Sheets shorter and longer than the trailers by a few bytes, and longer than full tables allow.
pub fn sizes(s: &mut Seeded) -> Vec<Faulty> {
    let mut sheets = Vec::new();
    for edition in EDITIONS {
        sheets.extend((SHEET_LEAST - 1..=SHEET_LEAST + 5).map(|length| zeros(edition, length)));
    }
    let full = sound(s, TABLES.map(|table| table.most));
    for full in [Draft { new_bytes: None, ..full.clone() }, full.with_new_bytes(CUT_RULE_1)] {
        sheets.extend((1..=5).flat_map(|more| [with_gap(&full, more), with_text(&full, more)]));
    }
    sheets
}

/// No table has a record.
fn zeros(edition: Edition, length: usize) -> Faulty {
    let mut bytes = vec![0; length - TOTAL_AND_MARK];
    bytes.extend((length as u32).to_le_bytes());
    bytes.extend(edition.mark());
    let fault = if length < SHEET_LEAST {
        Fault::alone(10)
    } else if edition.trailer_start(&bytes).is_none() {
        Fault::alone(13)
    } else {
        Fault::at(14, LETTERS, 0)
    };
    (bytes, fault)
}

/// So many bytes between the full tables and the trailer.
fn with_gap(full: &Draft, more: usize) -> Faulty {
    let mut bytes = full.bytes();
    let trailer = trailer_start(&bytes).expect("a sheet with its trailer");
    bytes.splice(trailer..trailer, std::iter::repeat_n(0, more));
    let (total, length) = (bytes.len() - TOTAL_AND_MARK, bytes.len() as u32);
    bytes[total..total + 4].copy_from_slice(&length.to_le_bytes());
    too_long_or(Fault::alone(15), bytes)
}

/// So many bytes of text more than there may be.
fn with_text(full: &Draft, more: usize) -> Faulty {
    let mut draft = full.clone();
    draft.add_text(&vec![b'a'; more]);
    too_long_or(Fault::at(14, TEXT, 0), draft.bytes())
}

fn too_long_or(fault: Fault, bytes: Vec<u8>) -> Faulty {
    let fault = if bytes.len() > SHEET_LIMIT { Fault::alone(11) } else { fault };
    (bytes, fault)
}
