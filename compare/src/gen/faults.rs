//! Sheets that are accepted but for faults in known places, so that it is known which is the first.

use super::new_bytes;
use super::small::{add_rows, part, range, stretch};
use super::wrong::{lengths_field, offset_field, wrong_fields, wrong_new_byte, Field};
use crate::draft::Draft;
use crate::second::fault::Fault;
use crate::second::sheet::{read_u16, ASSERTIONS, LENGTH_LIMIT, LETTERS, NEW_BYTES, TABLES, TEXT};
use crate::seed::Seeded;

/// A place that can be at fault, in the order in which a sheet is checked.
#[derive(Clone, Copy, PartialEq, Eq, PartialOrd, Ord, Debug)]
pub enum Spot {
    Mark,
    Total,
    Count { table: usize },
    Lengths,
    Offset { table: usize },
    NewByte { number: usize },
    Record { table: usize, record: usize },
    Term { assertion: usize },
}

impl Spot {
    /// What is to be said where no earlier spot is at fault.
    pub fn fault(self) -> Fault {
        match self {
            Spot::Mark => Fault::alone(12),
            Spot::Total => Fault::alone(13),
            Spot::Count { table } => Fault::at(14, table, 0),
            Spot::Lengths => Fault::alone(141),
            Spot::Offset { .. } => Fault::alone(15),
            Spot::NewByte { .. } => Fault::at(16, NEW_BYTES, 0),
            Spot::Record { table, record } => Fault::at(16, table, record),
            Spot::Term { assertion } => Fault::at(17, ASSERTIONS, assertion),
        }
    }
}

/// A sheet, and its first fault.
pub type Faulty = (Vec<u8>, Fault);

/// One spot with each of all: alone, and two at once.
pub fn two_at_once(s: &mut Seeded) -> Vec<Faulty> {
    let counts = TABLES.map(|table| s.pick(&[2, 3, table.most]));
    let base = Base::new(s, counts);
    let spots = base.spots(s);
    let one = s.pick(&spots);
    spots.into_iter().map(|other| base.with(s, one, other)).collect()
}

/// Each new byte, then each field of each record in turn.
pub fn each_field(s: &mut Seeded) -> Vec<Faulty> {
    let counts = [2, 4, s.between(2, 6), s.between(2, 4), s.between(2, 4)];
    let draft = sound(s, counts);
    let bytes = draft.bytes();
    let mut sheets = Vec::new();
    let mut add = |field: Field, fault| {
        let mut bytes = bytes.clone();
        field.write(&mut bytes);
        sheets.push((bytes, fault));
    };
    for number in new_byte_numbers(&draft) {
        for field in wrong_new_byte(&bytes, number) {
            add(field, Fault::at(16, NEW_BYTES, 0));
        }
    }
    for (table, count) in counts.into_iter().enumerate() {
        for record in 0..count {
            for field in wrong_fields(&bytes, table, record) {
                add(field, Fault::at(16, table, record));
            }
        }
    }
    sheets
}

/// An accepted sheet with so many records in each table.
pub fn sound(s: &mut Seeded, counts: [usize; 5]) -> Draft {
    Base::new(s, counts).draft
}

fn new_byte_numbers(draft: &Draft) -> std::ops::Range<usize> {
    0..draft.new_bytes.map_or(0, |bytes| bytes.len())
}

/// An accepted sheet, and a cut in its parts that is too long for a term; no term has it yet.
struct Base {
    draft: Draft,
    long: u16,
}

impl Base {
    fn new(s: &mut Seeded, counts: [usize; 5]) -> Base {
        let [letters, text, rows, parts, assertions] = counts;
        let new_bytes = new_bytes(s);
        let mut draft = Draft { shortest: 1, longest: 3, new_bytes, ..Draft::default() };
        draft.letters = (0..letters).map(|_| range(s)).collect();
        draft.text = (0..text).map(|_| s.pick(b"abx")).collect();
        add_rows(s, &mut draft, rows);
        draft.parts = (0..parts).map(|_| part(s, &draft)).collect();
        let long = s.pick(&[0, parts - 1]);
        draft.parts[long] = (3, s.below(3) as u16, s.pick(&[LENGTH_LIMIT as u16 + 1, u16::MAX]));
        let base = Base { draft, long: long as u16 };
        (0..assertions).fold(base, |base, _| base.asserted(s))
    }

    fn asserted(mut self, s: &mut Seeded) -> Base {
        let (term, sign) = (self.short_term(s), s.below(2) as u8);
        let (kind, about) = match s.below(4) {
            0 => (1, (s.below(self.draft.rows.len()) as u16, 0)),
            1 => (2, stretch(s, self.draft.text.len(), 2)),
            2 => (3, self.short_term(s)),
            _ => (4, self.short_term(s)),
        };
        self.draft.assert((kind, sign), term, about);
        self
    }

    /// One part or none.
    fn short_term(&self, s: &mut Seeded) -> (u16, u16) {
        let first = s.below(self.draft.parts.len()) as u16;
        (first, if first == self.long { 0 } else { s.below(2) as u16 })
    }

    /// Every spot but for the records, of which the first, the last and any other are taken.
    fn spots(&self, s: &mut Seeded) -> Vec<Spot> {
        let mut spots = vec![Spot::Mark, Spot::Total, Spot::Lengths];
        spots.extend(new_byte_numbers(&self.draft).map(|number| Spot::NewByte { number }));
        for (table, count) in self.draft.counts().into_iter().enumerate() {
            spots.extend([Spot::Count { table }, Spot::Offset { table }]);
            for record in [0, s.below(count), count - 1] {
                if table != TEXT {
                    spots.push(Spot::Record { table, record });
                }
                if table == ASSERTIONS {
                    spots.push(Spot::Term { assertion: record });
                }
            }
        }
        spots
    }

    /// The sheet with faults in both spots, which may be one.
    fn with(&self, s: &mut Seeded, one: Spot, other: Spot) -> Faulty {
        let mut draft = self.draft.clone();
        for spot in [one, other] {
            if let Spot::Term { assertion } = spot {
                self.lengthen(s, &mut draft, assertion);
            }
        }
        let sound = draft.bytes();
        let mut bytes = sound.clone();
        for spot in [one, other] {
            if let Some(field) = wrong(s, &sound, spot) {
                field.write(&mut bytes);
            }
        }
        (bytes, one.min(other).fault())
    }

    /// Makes one term of the assertion too long.
    fn lengthen(&self, s: &mut Seeded, draft: &mut Draft, assertion: usize) {
        let statement = &mut draft.assertions[assertion];
        if s.once_in(2) {
            (statement.first, statement.count) = (self.long, 1);
        } else {
            (statement.kind, statement.a, statement.b) = (s.pick(&[3, 4]), self.long, 1);
        }
    }
}

/// A field that is at fault in the spot, and what it holds; nothing for a term.
fn wrong(s: &mut Seeded, bytes: &[u8], spot: Spot) -> Option<Field> {
    let lengths = lengths_field(bytes);
    Some(match spot {
        Spot::Mark => Field::Byte(bytes.len() - 1, s.pick(b"\x0003Q")),
        Spot::Total => Field::Word(bytes.len() - 8, bytes.len() as u16 + s.pick(&[1, 256])),
        Spot::Count { table } => {
            let many = s.pick(&[TABLES[table].most as u16 + 1, 65_535]);
            // The letters alone can be too few.
            let count = if table == LETTERS && s.once_in(2) { 0 } else { many };
            Field::Word(offset_field(bytes, table) + 2, count)
        }
        Spot::Lengths if s.once_in(2) => Field::Word(lengths, s.pick(&[4, 60, 61, 65_535])),
        Spot::Lengths => Field::Word(lengths + 2, s.pick(&[0, 61, 65_535])),
        Spot::Offset { table } => {
            let at = offset_field(bytes, table);
            let offset = read_u16(bytes, at) as u16;
            Field::Word(at, s.pick(&[offset.wrapping_add(1), offset.wrapping_sub(1)]))
        }
        Spot::NewByte { number } => s.pick(&wrong_new_byte(bytes, number)),
        Spot::Record { table, record } => s.pick(&wrong_fields(bytes, table, record)),
        Spot::Term { .. } => return None,
    })
}
