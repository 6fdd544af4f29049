//! The checker of a problem sheet: refusals 10 to 17 in the papers' order, 141 behind 14, then the
//! sheet parsed.

use super::edition::{cut_rule, CutRule, Edition, EDITIONS, FIELDS, TOTAL_AND_MARK};
use super::fault::Fault;

/// The shortest sheet, of either edition: as long as the first one's trailer.
pub const SHEET_LEAST: usize = Edition::First.trailer();
/// The longest sheet, of either edition: every table at its limit, and the second one's trailer.
pub const SHEET_LIMIT: usize = 3_380;
/// The limit of the longest length, of a term and of a list's n.
pub const LENGTH_LIMIT: usize = 60;

/// One of the five tables: the bytes of a record, and how many records there may be.
pub struct Table {
    pub record: usize,
    pub fewest: usize,
    pub most: usize,
}

const fn table(record: usize, fewest: usize, most: usize) -> Table {
    Table { record, fewest, most }
}

/// Letters, text, rows, parts, assertions.
pub const TABLES: [Table; 5] =
    [table(2, 1, 8), table(1, 0, 1_024), table(6, 0, 256), table(6, 0, 64), table(12, 0, 32)];

/// The tables' numbers.
pub const LETTERS: usize = 0;
pub const TEXT: usize = 1;
pub const ROWS: usize = 2;
pub const PARTS: usize = 3;
pub const ASSERTIONS: usize = 4;
/// The number that stands for the trailer's new bytes, which are no table.
pub const NEW_BYTES: usize = 5;

/// Bytes of the text table.
#[derive(Clone, Copy, PartialEq, Eq, Debug)]
pub struct Stretch {
    pub from: usize,
    pub bytes: usize,
}

/// Neighbouring parts, joined to a term.
#[derive(Clone, Copy, PartialEq, Eq, Debug)]
pub struct Run {
    pub first: usize,
    pub count: usize,
}

#[derive(Clone, Copy, PartialEq, Eq, Debug)]
pub enum Row {
    Empty,
    Byte { low: u8, high: u8 },
    Text(Stretch),
    Or(usize, usize),
    Then(usize, usize),
    Star(usize),
}

#[derive(Clone, Copy, PartialEq, Eq, Debug)]
pub enum Part {
    Text(Stretch),
    Whole,
    Cut { position: usize, bytes: usize },
}

#[derive(Clone, Copy, PartialEq, Eq, Debug)]
pub enum Claim {
    Derived { row: usize },
    Contains(Stretch),
    Equals(Run),
    ContainsTerm(Run),
}

#[derive(Clone, Copy, PartialEq, Eq, Debug)]
pub struct Assertion {
    pub denied: bool,
    pub term: Run,
    pub claim: Claim,
}

/// An accepted sheet.
#[derive(Clone, PartialEq, Eq, Debug)]
pub struct Sheet {
    /// Each byte of the union once, rising.
    pub letters: Vec<u8>,
    pub text: Vec<u8>,
    pub rows: Vec<Row>,
    pub parts: Vec<Part>,
    pub assertions: Vec<Assertion>,
    pub shortest: usize,
    pub longest: usize,
    pub cut_rule: CutRule,
}

impl Sheet {
    /// The sheet, or its first fault.
    pub fn check(bytes: &[u8]) -> Result<Sheet, Fault> {
        Sheet::check_of(&EDITIONS, bytes)
    }

    /// The same where a call takes these editions alone.
    pub fn check_of(editions: &[Edition], bytes: &[u8]) -> Result<Sheet, Fault> {
        let sheet = Trailer::check(editions, bytes)?.sheet(bytes)?;
        let long = |a: &Assertion| a.terms().any(|term| sheet.term_length(term) > LENGTH_LIMIT);
        match sheet.assertions.iter().position(long) {
            None => Ok(sheet),
            Some(record) => Err(Fault::at(17, ASSERTIONS, record)),
        }
    }

    pub fn is_letter(&self, byte: u8) -> bool {
        self.letters.binary_search(&byte).is_ok()
    }

    pub fn has_letter_between(&self, low: u8, high: u8) -> bool {
        let next = self.letters.partition_point(|&letter| letter < low);
        self.letters.get(next).is_some_and(|&letter| letter <= high)
    }

    pub fn stretch(&self, stretch: Stretch) -> &[u8] {
        &self.text[stretch.from..stretch.from + stretch.bytes]
    }

    pub fn run(&self, run: Run) -> &[Part] {
        &self.parts[run.first..run.first + run.count]
    }

    /// The term's bytes at the longest length, a cut counting its full b.
    pub fn term_length(&self, run: Run) -> usize {
        let length = |part: &Part| match *part {
            Part::Text(stretch) => stretch.bytes,
            Part::Whole => self.longest,
            Part::Cut { bytes, .. } => bytes,
        };
        self.run(run).iter().map(length).sum()
    }
}

impl Assertion {
    /// Its term, and its second term if it compares two.
    pub fn terms(&self) -> impl Iterator<Item = Run> {
        let second = match self.claim {
            Claim::Equals(run) | Claim::ContainsTerm(run) => Some(run),
            Claim::Derived { .. } | Claim::Contains(_) => None,
        };
        std::iter::once(self.term).chain(second)
    }
}

/// The trailer's lengths, where each table begins and how many records it has, and the new bytes.
struct Trailer<'a> {
    shortest: usize,
    longest: usize,
    tables: [(usize, usize); 5],
    new_bytes: &'a [u8],
}

impl Trailer<'_> {
    /// Refusals 10 to 15.
    fn check<'a>(editions: &[Edition], bytes: &'a [u8]) -> Result<Trailer<'a>, Fault> {
        if bytes.len() < SHEET_LEAST {
            return Err(Fault::alone(10));
        }
        if bytes.len() > SHEET_LIMIT {
            return Err(Fault::alone(11));
        }
        let edition = Edition::of(bytes).filter(|edition| editions.contains(edition));
        let edition = edition.ok_or(Fault::alone(12))?;
        let total = read_u32(bytes, bytes.len() - TOTAL_AND_MARK) as usize;
        // A sheet too short for its own trailer is refused whatever the total that it stores.
        let start = edition.trailer_start(bytes).filter(|_| total == bytes.len());
        let start = start.ok_or(Fault::alone(13))?;
        let trailer = Trailer::read(&bytes[start..]);
        if let Some(table) = trailer.first_miscounted() {
            return Err(Fault::at(14, table, 0));
        }
        if trailer.shortest > trailer.longest || trailer.longest > LENGTH_LIMIT {
            return Err(Fault::alone(141));
        }
        if !trailer.end_to_end(start) {
            return Err(Fault::alone(15));
        }
        Ok(trailer)
    }

    fn read(bytes: &[u8]) -> Trailer<'_> {
        Trailer {
            shortest: read_u16(bytes, 0),
            longest: read_u16(bytes, 2),
            tables: std::array::from_fn(|i| {
                (read_u16(bytes, 4 + 4 * i), read_u16(bytes, 6 + 4 * i))
            }),
            new_bytes: &bytes[FIELDS..bytes.len() - TOTAL_AND_MARK],
        }
    }

    /// The first table whose count is outside its limits.
    fn first_miscounted(&self) -> Option<usize> {
        let mut counts = self.tables.iter().map(|&(_, count)| count).zip(&TABLES);
        counts.position(|(count, table)| count < table.fewest || count > table.most)
    }

    fn end_to_end(&self, end: usize) -> bool {
        let mut at = 0;
        for (&(offset, count), table) in self.tables.iter().zip(&TABLES) {
            if offset != at {
                return false;
            }
            at += count * table.record;
        }
        at == end
    }

    /// Everything parsed, or the first that breaks its rule: the new bytes, then every record, the
    /// tables in order.
    fn sheet(&self, bytes: &[u8]) -> Result<Sheet, Fault> {
        let [_, text, rows, parts, _] = self.tables.map(|(_, count)| count);
        Ok(Sheet {
            cut_rule: cut_rule(self.new_bytes).ok_or(Fault::at(16, NEW_BYTES, 0))?,
            letters: union(self.records(bytes, LETTERS, range)?),
            text: self.records(bytes, TEXT, |record| Some(record[0]))?,
            rows: self.records(bytes, ROWS, |record| row(record, text, rows))?,
            parts: self.records(bytes, PARTS, |record| part(record, text))?,
            assertions: self
                .records(bytes, ASSERTIONS, |record| assertion(record, text, rows, parts))?,
            shortest: self.shortest,
            longest: self.longest,
        })
    }

    /// The records of one table parsed, or the first that cannot be.
    fn records<T>(
        &self,
        bytes: &[u8],
        table: usize,
        parse: impl Fn(&[u8]) -> Option<T>,
    ) -> Result<Vec<T>, Fault> {
        let (offset, count) = self.tables[table];
        let size = TABLES[table].record;
        let records = bytes[offset..offset + count * size].chunks_exact(size).enumerate();
        records.map(|(i, record)| parse(record).ok_or(Fault::at(16, table, i))).collect()
    }
}

fn range(record: &[u8]) -> Option<(u8, u8)> {
    (record[0] <= record[1]).then_some((record[0], record[1]))
}

/// Each byte of the ranges once, rising.
fn union(ranges: Vec<(u8, u8)>) -> Vec<u8> {
    (0..=255).filter(|byte| ranges.iter().any(|(low, high)| low <= byte && byte <= high)).collect()
}

fn row(record: &[u8], text: usize, rows: usize) -> Option<Row> {
    let (a, b) = (read_u16(record, 2), read_u16(record, 4));
    let kind = if record[1] == 0 { record[0] } else { 0 };
    match kind {
        1 if a == 0 && b == 0 => Some(Row::Empty),
        2 if a <= b && b <= 255 => Some(Row::Byte { low: a as u8, high: b as u8 }),
        3 if a + b <= text => Some(Row::Text(Stretch { from: a, bytes: b })),
        4 if a < rows && b < rows => Some(Row::Or(a, b)),
        5 if a < rows && b < rows => Some(Row::Then(a, b)),
        6 if a < rows && b == 0 => Some(Row::Star(a)),
        _ => None,
    }
}

fn part(record: &[u8], text: usize) -> Option<Part> {
    let (a, b) = (read_u16(record, 2), read_u16(record, 4));
    let kind = if record[1] == 0 { record[0] } else { 0 };
    match kind {
        1 if a + b <= text => Some(Part::Text(Stretch { from: a, bytes: b })),
        2 if a == 0 && b == 0 => Some(Part::Whole),
        3 => Some(Part::Cut { position: a, bytes: b }),
        _ => None,
    }
}

fn assertion(record: &[u8], text: usize, rows: usize, parts: usize) -> Option<Assertion> {
    let [first, count, a, b, zero] = std::array::from_fn(|i| read_u16(record, 2 + 2 * i));
    if record[1] > 1 || first + count > parts || zero != 0 {
        return None;
    }
    let claim = match record[0] {
        1 if a < rows && b == 0 => Claim::Derived { row: a },
        2 if a + b <= text => Claim::Contains(Stretch { from: a, bytes: b }),
        3 if a + b <= parts => Claim::Equals(Run { first: a, count: b }),
        4 if a + b <= parts => Claim::ContainsTerm(Run { first: a, count: b }),
        _ => return None,
    };
    Some(Assertion { denied: record[1] == 1, term: Run { first, count }, claim })
}

pub fn read_u16(bytes: &[u8], at: usize) -> usize {
    u16::from_le_bytes([bytes[at], bytes[at + 1]]) as usize
}

pub fn read_u32(bytes: &[u8], at: usize) -> u32 {
    u32::from_le_bytes([bytes[at], bytes[at + 1], bytes[at + 2], bytes[at + 3]])
}
