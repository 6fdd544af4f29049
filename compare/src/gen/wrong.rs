//! Records of an accepted sheet made wrong in one field, by the first value that is wrong there.

use super::trailer_start;
use crate::second::edition::FIELDS;
use crate::second::sheet::{read_u16, ASSERTIONS, LETTERS, PARTS, ROWS, TABLES, TEXT};

/// A field of one byte or of two, from its place in a record or in a sheet, and what it is to hold.
#[derive(Clone, Copy, PartialEq, Eq, Debug)]
pub enum Field {
    Byte(usize, u8),
    Word(usize, u16),
}

impl Field {
    pub fn write(self, bytes: &mut [u8]) {
        match self {
            Field::Byte(at, value) => bytes[at] = value,
            Field::Word(at, value) => bytes[at..at + 2].copy_from_slice(&value.to_le_bytes()),
        }
    }

    fn behind(self, start: usize) -> Field {
        match self {
            Field::Byte(at, value) => Field::Byte(start + at, value),
            Field::Word(at, value) => Field::Word(start + at, value),
        }
    }
}

/// Where the trailer has the shortest length; the longest is the field behind it.
pub fn lengths_field(sheet: &[u8]) -> usize {
    trailer_start(sheet).expect("a sheet with its trailer")
}

/// Where the trailer has a table's offset; its count is the field behind it.
pub fn offset_field(sheet: &[u8], table: usize) -> usize {
    lengths_field(sheet) + 4 + 4 * table
}

/// The least value that is wrong for the new byte, and the greatest; a sheet of the second edition.
pub fn wrong_new_byte(sheet: &[u8], number: usize) -> [Field; 2] {
    let least = if number == 0 { 2 } else { 1 };
    [least, 255].map(|value| Field::Byte(lengths_field(sheet) + FIELDS + number, value))
}

/// The fields that can be wrong beside the others, each with such a value; text has none.
pub fn wrong_fields(sheet: &[u8], table: usize, number: usize) -> Vec<Field> {
    let count = |table| read_u16(sheet, offset_field(sheet, table) + 2);
    let (text, rows, parts) = (count(TEXT), count(ROWS), count(PARTS));
    let start = read_u16(sheet, offset_field(sheet, table)) + TABLES[table].record * number;
    let record = &sheet[start..start + TABLES[table].record];
    let fields = match table {
        LETTERS => wrong_letters(record[0], record[1]),
        ROWS => wrong_row(record, text, rows),
        PARTS => wrong_part(record, text),
        ASSERTIONS => wrong_assertion(record, text, rows, parts),
        _ => vec![],
    };
    fields.into_iter().map(|field| field.behind(start)).collect()
}

fn wrong_letters(low: u8, high: u8) -> Vec<Field> {
    let over = high.checked_add(1).map(|low| Field::Byte(0, low));
    let under = low.checked_sub(1).map(|high| Field::Byte(1, high));
    over.into_iter().chain(under).collect()
}

fn wrong_row(record: &[u8], text: usize, rows: usize) -> Vec<Field> {
    let pair = match record[0] {
        1 => [1, 1],
        2 => [read_u16(record, 4) + 1, 256],
        3 => past(record, 2, text),
        6 => [rows, 1],
        _ => [rows, rows],
    };
    [vec![Field::Byte(0, 0), Field::Byte(0, 7), Field::Byte(1, 1)], words(2, pair)].concat()
}

fn wrong_part(record: &[u8], text: usize) -> Vec<Field> {
    let pair = match record[0] {
        1 => words(2, past(record, 2, text)),
        2 => words(2, [1, 1]),
        // A cut may begin anywhere and be of any length.
        _ => vec![],
    };
    [vec![Field::Byte(0, 0), Field::Byte(0, 4), Field::Byte(1, 1)], pair].concat()
}

fn wrong_assertion(record: &[u8], text: usize, rows: usize, parts: usize) -> Vec<Field> {
    let pair = match record[0] {
        1 => [rows, 1],
        2 => past(record, 6, text),
        _ => past(record, 6, parts),
    };
    let ends = vec![Field::Byte(0, 0), Field::Byte(0, 5), Field::Byte(1, 2), Field::Word(10, 1)];
    [ends, words(2, past(record, 2, parts)), words(6, pair)].concat()
}

/// For a stretch or a run in a table of so many, the least first and the least length that leave it.
fn past(record: &[u8], at: usize, count: usize) -> [usize; 2] {
    [count - read_u16(record, at + 2) + 1, count - read_u16(record, at) + 1]
}

/// Two fields that are neighbours.
fn words(at: usize, [one, other]: [usize; 2]) -> Vec<Field> {
    vec![Field::Word(at, one as u16), Field::Word(at + 2, other as u16)]
}
