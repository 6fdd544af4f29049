//! Why a call is refused: the number, and which table and record it is about.

use std::fmt::{self, Display, Formatter};

#[derive(Clone, Copy, PartialEq, Eq, PartialOrd, Ord, Debug)]
pub struct Fault {
    pub number: u32,
    /// From 0 letters to 4 assertions, and 5 for the trailer's new bytes; 0 where the number is
    /// about none of these.
    pub table: u32,
    /// 0 where the number is about no record.
    pub record: u32,
}

impl Fault {
    /// A number that is about no table and no record.
    pub const fn alone(number: u32) -> Fault {
        Fault { number, table: 0, record: 0 }
    }

    /// A number that is about that record of that table.
    pub const fn at(number: u32, table: usize, record: usize) -> Fault {
        Fault { number, table: table as u32, record: record as u32 }
    }
}

/// As the checking program tells it.
impl Display for Fault {
    fn fmt(&self, f: &mut Formatter<'_>) -> fmt::Result {
        let Fault { number, table, record } = self;
        match number {
            14 | 16 | 17 => write!(f, "refused {number} {table} {record}"),
            _ => write!(f, "refused {number}"),
        }
    }
}
