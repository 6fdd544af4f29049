//! The gate: is a word accepted by a cut list?

use super::sheet::{read_u16, read_u32, LENGTH_LIMIT};
use super::solve::WORK;

pub const LIST_MARK: &[u8; 4] = b"CUT1";

#[derive(Clone, Copy, PartialEq, Eq, Debug)]
pub enum Choice {
    Byte { low: u8, high: u8 },
    Text { from: usize },
    Cut { k: usize, a: usize, b: usize },
    Empty,
}

/// A well-formed list.
#[derive(Clone, PartialEq, Eq, Debug)]
pub struct CutList {
    pub root: usize,
    pub n: usize,
    /// For each m and row, the options of the head.
    pub groups: Vec<Vec<Vec<Choice>>>,
}

pub fn gate(list: &[u8], text: &[u8], word: &[u8], work: &mut [u64]) -> u32 {
    let Some(list) = CutList::check(list, text.len()) else {
        return 30;
    };
    if word.len() != list.n {
        return 31;
    }
    if work.len() < WORK {
        return 18;
    }
    work[..WORK].fill(0);
    if list.accepts(text, word) {
        0
    } else {
        1
    }
}

impl CutList {
    /// The list, or nothing if it is not well formed.
    pub fn check(bytes: &[u8], text: usize) -> Option<CutList> {
        let fields = bytes.len().checked_sub(16)?;
        let (root, rows, n) =
            (read_u16(bytes, fields), read_u16(bytes, fields + 2), bytes[fields + 4] as usize);
        let agree = bytes[fields + 5..fields + 8] == [0, 0, 0]
            && read_u32(bytes, fields + 8) as usize == bytes.len()
            && &bytes[fields + 12..] == LIST_MARK
            && (1..=256).contains(&rows)
            && root < rows
            && n <= LENGTH_LIMIT;
        if !agree {
            return None;
        }
        let trailer = fields.checked_sub(4 * (n + 1))?;
        let mut reader = Reader { bytes: &bytes[..trailer], at: 0, rows, text };
        let mut groups = Vec::new();
        for m in 0..=n {
            if read_u32(bytes, trailer + 4 * m) as usize != reader.at {
                return None;
            }
            groups.push(reader.group(m)?);
        }
        (reader.at == trailer).then_some(CutList { root, n, groups })
    }

    /// Each head's set of accepted starts, shortest words first: an option 3 looks only at those.
    pub fn accepts(&self, text: &[u8], word: &[u8]) -> bool {
        let mut starts: Vec<Vec<u64>> = Vec::new();
        for (m, heads) in self.groups.iter().enumerate() {
            let accepted = |options: &Vec<Choice>| {
                options.iter().fold(0, |set, &o| set | choice_starts(o, m, text, word, &starts))
            };
            let group = heads.iter().map(accepted).collect();
            starts.push(group);
        }
        starts[self.n][self.root] & 1 != 0
    }
}

/// The starts, one bit each, of the stretches of m bytes of the word for which the option holds.
fn choice_starts(choice: Choice, m: usize, text: &[u8], word: &[u8], starts: &[Vec<u64>]) -> u64 {
    let places = 0..=word.len() - m;
    let such = |holds: &dyn Fn(&[u8]) -> bool| {
        places.filter(|&i| holds(&word[i..i + m])).fold(0, |set, i| set | 1 << i)
    };
    match choice {
        Choice::Byte { low, high } => such(&|bytes| low <= bytes[0] && bytes[0] <= high),
        Choice::Text { from } => such(&|bytes| bytes == &text[from..from + m]),
        Choice::Cut { k, a, b } => starts[k][a] & (starts[m - k][b] >> k),
        Choice::Empty => such(&|_| true),
    }
}

/// Reads the groups one after the other.
struct Reader<'a> {
    bytes: &'a [u8],
    at: usize,
    rows: usize,
    text: usize,
}

impl Reader<'_> {
    fn eight(&mut self) -> Option<[u8; 8]> {
        let record = self.bytes.get(self.at..self.at + 8)?;
        self.at += 8;
        record.try_into().ok()
    }

    fn group(&mut self, m: usize) -> Option<Vec<Vec<Choice>>> {
        (0..self.rows).map(|row| self.head(row, m)).collect()
    }

    fn head(&mut self, row: usize, m: usize) -> Option<Vec<Choice>> {
        let head = self.eight()?;
        if read_u16(&head, 0) != row || head[2] as usize != m || head[3] != 0 {
            return None;
        }
        (0..read_u32(&head, 4)).map(|_| self.option(m)).collect()
    }

    fn option(&mut self, m: usize) -> Option<Choice> {
        let option = self.eight()?;
        let (k, a, b) = (option[1] as usize, read_u16(&option, 2), read_u16(&option, 4));
        let kind = if read_u16(&option, 6) == 0 { option[0] } else { 0 };
        match kind {
            1 if m == 1 && k == 0 && a <= b && b <= 255 => {
                Some(Choice::Byte { low: a as u8, high: b as u8 })
            }
            2 if m >= 1 && k == 0 && b == m && a + b <= self.text => Some(Choice::Text { from: a }),
            3 if 0 < k && k < m && a < self.rows && b < self.rows => Some(Choice::Cut { k, a, b }),
            4 if m == 0 && k == 0 && a == 0 && b == 0 => Some(Choice::Empty),
            _ => None,
        }
    }
}
