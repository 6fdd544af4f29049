//! The maker of cut lists: refusals 10 to 17 and 20 to 22, and the exact bytes of the list.

use super::derive::derives_word;
use super::fault::Fault;
use super::sheet::{Row, Sheet, LENGTH_LIMIT};

/// The report on a list, or on a moved sheet.
#[derive(Clone, Copy, PartialEq, Eq, Debug)]
pub struct Made {
    pub number: u32,
    pub table: u32,
    pub record: u32,
    pub length: u32,
}

impl Made {
    /// So many bytes are written.
    pub fn written(length: usize) -> Made {
        Made { number: 0, table: 0, record: 0, length: length as u32 }
    }

    pub fn refused(Fault { number, table, record }: Fault) -> Made {
        Made { number, table, record, length: 0 }
    }

    /// The number, with what it is about.
    pub fn fault(&self) -> Fault {
        Fault { number: self.number, table: self.table, record: self.record }
    }
}

pub fn make(bytes: &[u8], row: u64, length: u64, list: &mut [u8]) -> Made {
    let plan = match Plan::check(bytes, row, length) {
        Ok(plan) => plan,
        Err(fault) => return Made::refused(fault),
    };
    // The size is known before a byte is written: the longest lists are far longer than the space.
    let size = plan.size();
    if size > list.len() {
        return Made::refused(Fault::alone(22));
    }
    list[..size].copy_from_slice(&plan.write(size));
    Made::written(size)
}

/// What a list is made of.
pub struct Plan {
    sheet: Sheet,
    root: usize,
    n: usize,
    /// Whether each row derives the empty word.
    empty: Vec<bool>,
    /// For each row, the rows reachable from it by steps that keep the length, rising.
    reach: Vec<Vec<usize>>,
}

impl Plan {
    /// Refusals 10 to 17, 20 and 21.
    pub fn check(bytes: &[u8], row: u64, length: u64) -> Result<Plan, Fault> {
        let sheet = Sheet::check(bytes)?;
        if row >= sheet.rows.len() as u64 {
            return Err(Fault::alone(20));
        }
        if length > LENGTH_LIMIT as u64 {
            return Err(Fault::alone(21));
        }
        let rows = 0..sheet.rows.len();
        let empty: Vec<bool> = rows.clone().map(|row| derives_word(&sheet, row, &[])).collect();
        let reach = rows.map(|row| reachable(&sheet, &empty, row)).collect();
        Ok(Plan { sheet, root: row as usize, n: length as usize, empty, reach })
    }

    /// The list's length.
    pub fn size(&self) -> usize {
        let mut heads_and_options = 0;
        for m in 0..=self.n {
            for row in 0..self.sheet.rows.len() {
                heads_and_options += 1 + self.option_count(row, m);
            }
        }
        8 * heads_and_options + 4 * self.n + 20
    }

    fn option_count(&self, row: usize, m: usize) -> usize {
        if m == 0 {
            return self.empty[row] as usize;
        }
        let given = |&reached: &usize| match self.sheet.rows[reached] {
            Row::Byte { .. } => (m == 1) as usize,
            Row::Text(stretch) => (stretch.bytes == m) as usize,
            Row::Then(..) | Row::Star(_) => m - 1,
            Row::Empty | Row::Or(..) => 0,
        };
        self.reach[row].iter().map(given).sum()
    }

    fn write(&self, size: usize) -> Vec<u8> {
        let mut list = Vec::with_capacity(size);
        let mut offsets = Vec::new();
        for m in 0..=self.n {
            offsets.push(list.len() as u32);
            for row in 0..self.sheet.rows.len() {
                self.write_head(&mut list, row, m);
                self.write_options(&mut list, row, m);
            }
        }
        for offset in offsets {
            list.extend(offset.to_le_bytes());
        }
        list.extend((self.root as u16).to_le_bytes());
        list.extend((self.sheet.rows.len() as u16).to_le_bytes());
        list.extend([self.n as u8, 0, 0, 0]);
        list.extend((size as u32).to_le_bytes());
        list.extend(b"CUT1");
        list
    }

    fn write_head(&self, list: &mut Vec<u8>, row: usize, m: usize) {
        list.extend((row as u16).to_le_bytes());
        list.extend([m as u8, 0]);
        list.extend((self.option_count(row, m) as u32).to_le_bytes());
    }

    fn write_options(&self, list: &mut Vec<u8>, row: usize, m: usize) {
        if m == 0 {
            if self.empty[row] {
                write_option(list, 4, 0, 0, 0);
            }
            return;
        }
        for &reached in &self.reach[row] {
            match self.sheet.rows[reached] {
                Row::Byte { low, high } if m == 1 => {
                    write_option(list, 1, 0, low as usize, high as usize);
                }
                Row::Text(stretch) if stretch.bytes == m => {
                    write_option(list, 2, 0, stretch.from, stretch.bytes);
                }
                Row::Then(a, b) => (1..m).for_each(|k| write_option(list, 3, k, a, b)),
                Row::Star(a) => (1..m).for_each(|k| write_option(list, 3, k, a, reached)),
                _ => {}
            }
        }
    }
}

fn write_option(list: &mut Vec<u8>, kind: u8, k: usize, a: usize, b: usize) {
    list.extend([kind, k as u8]);
    list.extend((a as u16).to_le_bytes());
    list.extend((b as u16).to_le_bytes());
    list.extend([0, 0]);
}

/// The rows reachable by steps that keep the length, the row itself included, rising.
fn reachable(sheet: &Sheet, empty: &[bool], row: usize) -> Vec<usize> {
    let mut reached = vec![false; sheet.rows.len()];
    let mut waiting = vec![row];
    while let Some(row) = waiting.pop() {
        if std::mem::replace(&mut reached[row], true) {
            continue;
        }
        match sheet.rows[row] {
            Row::Or(a, b) => waiting.extend([a, b]),
            Row::Then(a, b) => {
                waiting.extend(empty[b].then_some(a));
                waiting.extend(empty[a].then_some(b));
            }
            Row::Star(a) => waiting.push(a),
            Row::Empty | Row::Byte { .. } | Row::Text(_) => {}
        }
    }
    (0..sheet.rows.len()).filter(|&row| reached[row]).collect()
}
