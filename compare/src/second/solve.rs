//! The solver: the walk with its trials, and what the call says and leaves.

use super::fault::Fault;
use super::open::open;
use super::sheet::Sheet;

/// Words of workspace that the solver and the gate ask for and leave zero.
pub const WORK: usize = 7_564;

#[derive(Clone, Copy, PartialEq, Eq, Debug)]
pub struct Solved {
    pub number: u32,
    pub table: u32,
    pub record: u32,
    pub length: u32,
    pub trials: u64,
}

impl Solved {
    /// Found, none or spent.
    pub fn walked(number: u32, length: usize, trials: u64) -> Solved {
        Solved { number, table: 0, record: 0, length: length as u32, trials }
    }

    fn refused(Fault { number, table, record }: Fault) -> Solved {
        Solved { number, table, record, length: 0, trials: 0 }
    }

    /// The number, with what it is about.
    pub fn fault(&self) -> Fault {
        Fault { number: self.number, table: self.table, record: self.record }
    }
}

/// A whole walk: its full count, and the word if one was found.
#[derive(Clone, PartialEq, Eq, Debug)]
pub struct Walked {
    pub trials: u64,
    pub found: Option<Vec<u8>>,
}

pub fn solve(bytes: &[u8], budget: u64, work: &mut [u64], out: &mut [u8]) -> Solved {
    solve_by(walk, bytes, budget, work, out)
}

/// The solver's call with a given walk, so that one long walk can serve many budgets.
pub fn solve_by(
    walk: impl FnOnce(&Sheet, u64) -> Option<Walked>,
    bytes: &[u8],
    budget: u64,
    work: &mut [u64],
    out: &mut [u8],
) -> Solved {
    let sheet = match check(bytes, work, out) {
        Ok(sheet) => sheet,
        Err(fault) => return Solved::refused(fault),
    };
    let walked = walk(&sheet, budget);
    work[..WORK].fill(0);
    match walked {
        None => Solved::walked(2, 0, budget),
        Some(Walked { trials, found: None }) => Solved::walked(1, 0, trials),
        Some(Walked { trials, found: Some(word) }) => {
            out[..word.len()].copy_from_slice(&word);
            Solved::walked(0, word.len(), trials)
        }
    }
}

/// Refusals 10 to 19.
fn check(bytes: &[u8], work: &[u64], out: &[u8]) -> Result<Sheet, Fault> {
    let sheet = Sheet::check(bytes)?;
    if work.len() < WORK {
        return Err(Fault::alone(18));
    }
    if out.len() < sheet.longest {
        return Err(Fault::alone(19));
    }
    Ok(sheet)
}

/// The walk, or nothing if its full count is above the budget.
pub fn walk(sheet: &Sheet, budget: u64) -> Option<Walked> {
    walk_by(open, sheet, budget)
}

/// The walk with a given judgement.
pub fn walk_by(
    open: impl Fn(&Sheet, &[u8], usize) -> bool,
    sheet: &Sheet,
    budget: u64,
) -> Option<Walked> {
    let mut walk = Walk { open, sheet, budget, trials: 0, prefix: Vec::new() };
    for n in sheet.shortest..=sheet.longest {
        match walk.visit(n) {
            Visit::Found => return Some(Walked { trials: walk.trials, found: Some(walk.prefix) }),
            Visit::Spent => return None,
            Visit::Done => {}
        }
    }
    Some(Walked { trials: walk.trials, found: None })
}

struct Walk<'a, F> {
    open: F,
    sheet: &'a Sheet,
    budget: u64,
    trials: u64,
    prefix: Vec<u8>,
}

enum Visit {
    Found,
    Done,
    Spent,
}

impl<F: Fn(&Sheet, &[u8], usize) -> bool> Walk<'_, F> {
    /// Judges the prefix in hand, then walks its extensions if it is open.
    fn visit(&mut self, n: usize) -> Visit {
        if self.trials == self.budget {
            return Visit::Spent;
        }
        self.trials += 1;
        if !(self.open)(self.sheet, &self.prefix, n) {
            return Visit::Done;
        }
        if self.prefix.len() == n {
            return Visit::Found;
        }
        for &letter in &self.sheet.letters {
            self.prefix.push(letter);
            match self.visit(n) {
                Visit::Done => self.prefix.pop(),
                end => return end,
            };
        }
        Visit::Done
    }
}
