//! The writer of sheets: tables end to end, trailer last.

use crate::second::edition::Edition;
use crate::second::sheet::TABLES;

/// The new bytes that give each cut rule.
pub const CUT_RULE_0: [u8; 4] = [0; 4];
pub const CUT_RULE_1: [u8; 4] = [1, 0, 0, 0];

/// A row or a part: kind, a, b.
pub type Record = (u8, u16, u16);

#[derive(Clone, Copy, PartialEq, Eq, Debug)]
pub struct Statement {
    pub kind: u8,
    pub sign: u8,
    pub first: u16,
    pub count: u16,
    pub a: u16,
    pub b: u16,
}

/// A sheet before it is written; nothing keeps it from breaking the rules.
#[derive(Clone, Default, PartialEq, Eq, Debug)]
pub struct Draft {
    pub letters: Vec<(u8, u8)>,
    pub text: Vec<u8>,
    pub rows: Vec<Record>,
    pub parts: Vec<Record>,
    pub assertions: Vec<Statement>,
    pub shortest: u16,
    pub longest: u16,
    /// Cut rule, comparison rule, two zeros; a sheet of the first edition has none.
    pub new_bytes: Option<[u8; 4]>,
}

impl Draft {
    pub fn bytes(&self) -> Vec<u8> {
        let mut bytes = Vec::new();
        self.letters.iter().for_each(|&(low, high)| bytes.extend([low, high]));
        bytes.extend(&self.text);
        self.rows.iter().chain(&self.parts).for_each(|&record| write_record(&mut bytes, record));
        self.assertions.iter().for_each(|statement| statement.write(&mut bytes));
        let mut trailer = vec![self.shortest, self.longest];
        let mut offset = 0;
        for (count, table) in self.counts().into_iter().zip(&TABLES) {
            trailer.extend([offset as u16, count as u16]);
            offset += count * table.record;
        }
        trailer.iter().for_each(|field| bytes.extend(field.to_le_bytes()));
        bytes.extend(self.new_bytes.iter().flatten());
        let total = bytes.len() as u32 + 8;
        bytes.extend(total.to_le_bytes());
        bytes.extend(self.edition().mark());
        bytes
    }

    fn edition(&self) -> Edition {
        self.new_bytes.map_or(Edition::First, |_| Edition::Second)
    }

    /// The same tables and lengths with these new bytes.
    pub fn with_new_bytes(&self, new_bytes: [u8; 4]) -> Draft {
        Draft { new_bytes: Some(new_bytes), ..self.clone() }
    }

    pub fn counts(&self) -> [usize; 5] {
        [
            self.letters.len(),
            self.text.len(),
            self.rows.len(),
            self.parts.len(),
            self.assertions.len(),
        ]
    }

    /// Puts the words of text at the end of the text table; its offset and length.
    pub fn add_text(&mut self, text: &[u8]) -> (u16, u16) {
        let from = self.text.len() as u16;
        self.text.extend(text);
        (from, text.len() as u16)
    }

    /// Adds a part; its number.
    pub fn add_part(&mut self, kind: u8, a: u16, b: u16) -> u16 {
        self.parts.push((kind, a, b));
        self.parts.len() as u16 - 1
    }

    /// Adds a row; its number.
    pub fn add_row(&mut self, kind: u8, a: u16, b: u16) -> u16 {
        self.rows.push((kind, a, b));
        self.rows.len() as u16 - 1
    }

    /// Adds an assertion about the term of `count` parts from `first`.
    pub fn assert(
        &mut self,
        (kind, sign): (u8, u8),
        (first, count): (u16, u16),
        (a, b): (u16, u16),
    ) {
        self.assertions.push(Statement { kind, sign, first, count, a, b });
    }
}

impl Statement {
    fn write(&self, bytes: &mut Vec<u8>) {
        bytes.extend([self.kind, self.sign]);
        for field in [self.first, self.count, self.a, self.b, 0] {
            bytes.extend(field.to_le_bytes());
        }
    }
}

fn write_record(bytes: &mut Vec<u8>, (kind, a, b): Record) {
    bytes.extend([kind, 0]);
    bytes.extend(a.to_le_bytes());
    bytes.extend(b.to_le_bytes());
}
