//! The calls, so that any two programs that have them can be compared.

use std::collections::VecDeque;

use crate::call::{bytes, words, Call, Name, Reply};
use crate::second::edition::Edition;
use crate::second::gate::gate;
use crate::second::make::{make, Made};
use crate::second::moving::to_edition;
use crate::second::sheet::LENGTH_LIMIT;
use crate::second::solve::{solve, Solved, WORK};

/// A program's calls: each as the program written here answers it, unless it has its own.
pub trait Calls {
    fn solve(&self, sheet: &[u8], budget: u64, work: &mut [u64], out: &mut [u8]) -> Solved {
        solve(sheet, budget, work, out)
    }

    fn make(&self, sheet: &[u8], row: u64, length: u64, list: &mut [u8]) -> Made {
        make(sheet, row, length, list)
    }

    fn gate(&self, list: &[u8], text: &[u8], word: &[u8], work: &mut [u64]) -> u32 {
        gate(list, text, word, work)
    }

    fn to_edition(&self, wanted: Edition, sheet: &[u8], room: &mut [u8]) -> Made {
        to_edition(wanted, sheet, room)
    }
}

/// The program written here.
pub struct Second;

impl Calls for Second {}

/// A program under comparison: it is put calls, and gives their replies in the same order, each when
/// it has it. An error says why it gives no more.
pub trait Program {
    fn put(&mut self, call: &Call) -> Result<(), String>;
    fn reply(&mut self, call: &Call) -> Result<Reply, String>;
}

/// A program in this process.
pub struct Here<C> {
    calls: C,
    replies: VecDeque<Reply>,
}

impl<C> Here<C> {
    pub fn new(calls: C) -> Here<C> {
        Here { calls, replies: VecDeque::new() }
    }
}

impl<C: Calls> Program for Here<C> {
    fn put(&mut self, call: &Call) -> Result<(), String> {
        let mut buffers: Vec<Vec<u8>> = call.buffers.iter().map(|b| b.bytes.clone()).collect();
        let numbers: Vec<u64> = call.numbers.iter().map(|&(_, number)| number).collect();
        let answer = match (call.name, &mut buffers[..]) {
            (Name::Solve, [sheet, work, out]) => {
                let mut lent = words(work);
                let solved = self.calls.solve(sheet, numbers[0], &mut lent, out);
                *work = bytes(&lent);
                solved.numbers()
            }
            (Name::Make, [sheet, list]) => {
                self.calls.make(sheet, numbers[0], numbers[1], list).numbers()
            }
            (Name::Gate, [list, text, word, work]) => {
                let mut lent = words(work);
                let number = self.calls.gate(list, text, word, &mut lent);
                *work = bytes(&lent);
                vec![number.into()]
            }
            (Name::Move(wanted), [sheet, room]) => {
                self.calls.to_edition(wanted, sheet, room).numbers()
            }
            _ => return Err(format!("no such call here: {:?}", call.name)),
        };
        self.replies.push_back(Reply { answer, buffers });
        Ok(())
    }

    fn reply(&mut self, _: &Call) -> Result<Reply, String> {
        self.replies.pop_front().ok_or_else(|| "no call was put".to_string())
    }
}

impl Solved {
    /// Its fields, in order, as they come back from a call.
    pub fn numbers(&self) -> Vec<u64> {
        let Solved { number, table, record, length, trials } = *self;
        vec![number.into(), table.into(), record.into(), length.into(), trials]
    }
}

impl Made {
    /// Its fields, in order, as they come back from a call.
    pub fn numbers(&self) -> Vec<u64> {
        let Made { number, table, record, length } = *self;
        [number, table, record, length].map(u64::from).to_vec()
    }
}

/// The checking program's line for a sheet.
pub fn answer(sheet: &[u8], budget: u64) -> String {
    let mut out = [0; LENGTH_LIMIT];
    let solved = solve(sheet, budget, &mut vec![0; WORK], &mut out);
    line(&solved, &out)
}

/// The checking program's line for a solver's answer.
pub fn line(solved: &Solved, out: &[u8]) -> String {
    let Solved { number, length, trials, .. } = *solved;
    match number {
        0 if length == 0 => format!("found 0 {trials} -"),
        0 => format!("found {length} {trials} {}", hex(&out[..length as usize])),
        1 => format!("none {trials}"),
        2 => format!("spent {trials}"),
        _ => solved.fault().to_string(),
    }
}

pub fn hex(bytes: &[u8]) -> String {
    bytes.iter().map(|byte| format!("{byte:02x}")).collect()
}
