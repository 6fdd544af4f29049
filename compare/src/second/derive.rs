//! Derivation of terms whose places are known or unknown bytes.
//!
//! For each start, from the last to the first, each row has the set of places where a word derived
//! from that start can end. The sets begin empty and only grow, so what is reached is the least
//! solution: exactly what finite derivations show, also where rows refer to themselves.

use super::sheet::{Row, Sheet};

/// One byte of a term.
#[derive(Clone, Copy, PartialEq, Eq, Debug)]
pub enum Place {
    Known(u8),
    Unknown,
}

impl Place {
    /// Whether the place can hold the byte: an unknown place is filled with letters only.
    pub fn can_be(self, byte: u8, sheet: &Sheet) -> bool {
        match self {
            Place::Known(known) => known == byte,
            Place::Unknown => sheet.is_letter(byte),
        }
    }

    fn can_lie(self, low: u8, high: u8, sheet: &Sheet) -> bool {
        match self {
            Place::Known(known) => low <= known && known <= high,
            Place::Unknown => sheet.has_letter_between(low, high),
        }
    }
}

/// Whether the places can be filled, each separately, so that they hold the bytes.
pub fn can_read(sheet: &Sheet, places: &[Place], bytes: &[u8]) -> bool {
    places.len() == bytes.len()
        && places.iter().zip(bytes).all(|(place, &byte)| place.can_be(byte, sheet))
}

/// Whether some filling of the unknown places, each separately, is derived by the row.
pub fn derives(sheet: &Sheet, row: usize, term: &[Place]) -> bool {
    let order = children_first(sheet, row);
    let mut chart = Chart { sheet, term, sets: vec![0; (term.len() + 1) * sheet.rows.len()] };
    for start in (0..=term.len()).rev() {
        chart.plain_rows(&order, start);
        while chart.joining_rows(&order, start) {}
    }
    chart.ends(0, row) & bit(term.len()) != 0
}

/// Whether the row derives the word.
pub fn derives_word(sheet: &Sheet, row: usize, word: &[u8]) -> bool {
    let places: Vec<Place> = word.iter().map(|&byte| Place::Known(byte)).collect();
    derives(sheet, row, &places)
}

/// The rows the row refers to, itself included, children before parents where there is no cycle:
/// then few passes are needed, and rows that do not matter cost nothing.
fn children_first(sheet: &Sheet, row: usize) -> Vec<usize> {
    let mut order = Vec::new();
    refer(sheet, row, &mut vec![false; sheet.rows.len()], &mut order);
    order
}

fn refer(sheet: &Sheet, row: usize, seen: &mut [bool], order: &mut Vec<usize>) {
    if seen[row] {
        return;
    }
    seen[row] = true;
    match sheet.rows[row] {
        Row::Or(a, b) | Row::Then(a, b) => {
            refer(sheet, a, seen, order);
            refer(sheet, b, seen, order);
        }
        Row::Star(a) => refer(sheet, a, seen, order),
        Row::Empty | Row::Byte { .. } | Row::Text(_) => {}
    }
    order.push(row);
}

/// A set of ends is one bit an end: a term has at most 60 bytes.
fn bit(end: usize) -> u64 {
    1 << end
}

struct Chart<'a> {
    sheet: &'a Sheet,
    term: &'a [Place],
    /// A set of ends for each start and row.
    sets: Vec<u64>,
}

impl Chart<'_> {
    fn ends(&self, start: usize, row: usize) -> u64 {
        self.sets[start * self.sheet.rows.len() + row]
    }

    /// Whether the set has grown.
    fn grow(&mut self, start: usize, row: usize, ends: u64) -> bool {
        let set = &mut self.sets[start * self.sheet.rows.len() + row];
        let grown = *set | ends != *set;
        *set |= ends;
        grown
    }

    /// The rows without children.
    fn plain_rows(&mut self, order: &[usize], start: usize) {
        let rest = &self.term[start..];
        for &row in order {
            let length = match self.sheet.rows[row] {
                Row::Empty => Some(0),
                Row::Byte { low, high } => {
                    let lies = rest.first().is_some_and(|p| p.can_lie(low, high, self.sheet));
                    lies.then_some(1)
                }
                Row::Text(stretch) => {
                    let places = rest.get(..stretch.bytes);
                    let text = self.sheet.stretch(stretch);
                    let reads = places.is_some_and(|places| can_read(self.sheet, places, text));
                    reads.then_some(stretch.bytes)
                }
                Row::Or(..) | Row::Then(..) | Row::Star(_) => None,
            };
            if let Some(length) = length {
                self.grow(start, row, bit(start + length));
            }
        }
    }

    /// One pass over the rows with children; whether any set has grown.
    fn joining_rows(&mut self, order: &[usize], start: usize) -> bool {
        let mut grown = false;
        for &row in order {
            let ends = match self.sheet.rows[row] {
                Row::Or(a, b) => self.ends(start, a) | self.ends(start, b),
                Row::Then(a, b) => self.join(self.ends(start, a), b),
                Row::Star(a) => bit(start) | self.join(self.ends(start, a), row),
                Row::Empty | Row::Byte { .. } | Row::Text(_) => 0,
            };
            grown |= self.grow(start, row, ends);
        }
        grown
    }

    /// The ends of the row from any of the starts.
    fn join(&self, mut starts: u64, row: usize) -> u64 {
        let mut ends = 0;
        while starts != 0 {
            ends |= self.ends(starts.trailing_zeros() as usize, row);
            starts &= starts - 1;
        }
        ends
    }
}
