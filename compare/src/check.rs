//! A run of generated cases through the comparison, with arguments at every interesting edge.

use std::iter;
use std::ops::Range;
use std::time::{Duration, Instant};

use crate::compare::{Comparison, Difference, GateCall, MakeCall, SolveCall};
use crate::count::{count, Passed};
use crate::gen;
use crate::gen::damage::with_byte_changed;
use crate::gen::lists;
use crate::moves::moves;
use crate::program::Program;
use crate::second::gate::CutList;
use crate::second::make::Plan;
use crate::second::sheet::{Assertion, Claim, Sheet, LENGTH_LIMIT};
use crate::second::solve::{walk, Walked, WORK};
use crate::seed::Seeded;
use crate::tally::Tally;

/// A list longer than this is asked for only with too little space.
const WRITTEN_LIST: usize = 1 << 20;
/// Now and then a list up to this length is written, and a word put to it.
const LONG_LIST: usize = 1 << 24;
/// A list up to this length has every byte changed in turn.
const SMALL_LIST: usize = 400;

/// What a run met.
pub struct Report {
    pub cases: u64,
    pub tally: Tally,
}

/// Runs the cases of that seed, and none begun after so many seconds.
pub fn check(
    program: &mut dyn Program,
    seed: u64,
    cases: Range<u64>,
    seconds: Option<u64>,
) -> Result<Report, Difference> {
    run(program, seed, cases, seconds, |case| {
        if case.s.once_in(6) {
            case.foreign_list()
        } else {
            case.sheets()
        }
    })
}

/// Compares counts that no plain walk can reach; for a program that takes alike letters together.
pub fn check_alike(
    program: &mut dyn Program,
    seed: u64,
    cases: Range<u64>,
    seconds: Option<u64>,
) -> Result<Report, Difference> {
    run(program, seed, cases, seconds, |case| case.deep_alike())
}

fn run(
    program: &mut dyn Program,
    seed: u64,
    cases: Range<u64>,
    seconds: Option<u64>,
    each: impl Fn(&mut Case) -> Result<(), Difference>,
) -> Result<Report, Difference> {
    let end = seconds.map(|seconds| Instant::now() + Duration::from_secs(seconds));
    let mut comparison = Comparison::new(program);
    let mut done = 0;
    for number in cases {
        if end.is_some_and(|end| Instant::now() >= end) {
            break;
        }
        comparison.begin(number);
        each(&mut Case { s: Seeded::new(seed, number), comparison: &mut comparison })?;
        done += 1;
    }
    comparison.settle()?;
    Ok(Report { cases: done, tally: comparison.tally })
}

/// An accepted sheet, and the moved one if it has a form in the other edition.
struct Accepted {
    bytes: Vec<u8>,
    moved: Option<Vec<u8>>,
    sheet: Sheet,
}

impl Accepted {
    /// Its forms, which are answered alike.
    fn in_each_edition(&self) -> impl Iterator<Item = &Vec<u8>> {
        iter::once(&self.bytes).chain(&self.moved)
    }
}

/// One case of a run.
struct Case<'a, 'b> {
    s: Seeded,
    comparison: &'a mut Comparison<'b>,
}

impl Case<'_, '_> {
    fn sheets(&mut self) -> Result<(), Difference> {
        let (sort, sheets) = gen::sheets(&mut self.s);
        self.comparison.tally.sort(sort);
        for bytes in sheets {
            match Sheet::check(&bytes) {
                Ok(sheet) => {
                    self.comparison.tally.sheet(&bytes, &sheet);
                    let moved = moves(&mut self.s, self.comparison, &bytes)?;
                    let accepted = Accepted { bytes, moved, sheet };
                    self.walks(&accepted)?;
                    self.lists(&accepted)?;
                }
                Err(_) => self.refused_sheet(&bytes)?,
            }
        }
        Ok(())
    }

    fn refused_sheet(&mut self, bytes: &[u8]) -> Result<(), Difference> {
        for (work, out) in [(WORK, LENGTH_LIMIT), (WORK - 1, LENGTH_LIMIT), (0, 0)] {
            let budget = self.s.pick(&[0, 1, 1_000]);
            self.comparison.solve(bytes, SolveCall { budget, work, out }, walk)?;
        }
        for space in [0, 40, 1_000] {
            let (row, length) = (self.s.pick(&[0, 1, 256]), self.s.pick(&[0, 2, 61]));
            self.comparison.make(bytes, MakeCall { row, length, space })?;
        }
        moves(&mut self.s, self.comparison, bytes)?;
        Ok(())
    }

    /// The solver at every edge of budget, workspace and output; one walk answers both editions.
    fn walks(&mut self, accepted: &Accepted) -> Result<(), Difference> {
        let Accepted { bytes, sheet, .. } = accepted;
        let most = affordable(sheet);
        let full = walk(sheet, most);
        let budgets = match &full {
            Some(walked) => {
                let count = walked.trials;
                vec![0, 1, count - 1, count, count + 1, 1 << 63, u64::MAX]
            }
            None => vec![0, 1, most / 2, most],
        };
        let answer = |_: &Sheet, budget| full.clone().filter(|walked| walked.trials <= budget);
        let longest = sheet.longest;
        for &budget in &budgets {
            for bytes in accepted.in_each_edition() {
                let (work, out) = (WORK + self.s.below(3), longest + self.s.below(3));
                self.comparison.solve(bytes, SolveCall { budget, work, out }, answer)?;
            }
        }
        let mut edges =
            vec![(0, longest), (WORK - 1, longest), (WORK, longest), (WORK + 9, longest + 9)];
        if longest > 0 {
            edges.extend([(WORK, longest - 1), (WORK - 1, longest - 1), (WORK + 1, 0)]);
        }
        for (work, out) in edges {
            let budget = self.s.pick(&budgets);
            self.comparison.solve(bytes, SolveCall { budget, work, out }, answer)?;
        }
        Ok(())
    }

    /// The maker at every edge of row, length and space, then the gate on what it wrote.
    fn lists(&mut self, accepted: &Accepted) -> Result<(), Difference> {
        let Accepted { bytes, sheet, .. } = accepted;
        let rows = sheet.rows.len() as u64;
        let beyond = [rows, rows + 1, 65_536, 1 << 32, u64::MAX];
        let too_long = [61, 255, 256, 1 << 32, u64::MAX];
        let (row, length) = (self.s.pick(&beyond), self.s.pick(&too_long));
        let space = self.s.pick(&[0, 20, 500]);
        for bytes in accepted.in_each_edition() {
            self.comparison.make(bytes, MakeCall { row, length, space })?;
            self.comparison.make(bytes, MakeCall { row, length: 2, space })?;
        }
        if rows == 0 {
            return Ok(());
        }
        let row = self.s.below(sheet.rows.len()) as u64;
        self.comparison.make(bytes, MakeCall { row, length, space })?;
        for _ in 0..2 {
            let row = self.s.below(sheet.rows.len()) as u64;
            let length =
                if self.s.once_in(5) { self.s.pick(&[7, 12, 30, 59, 60]) } else { self.s.below(5) };
            if let Some(list) = self.spaces(accepted, row, length as u64)? {
                self.gates(&list, &sheet.text)?;
            }
        }
        if rows > 100 && self.s.once_in(10) {
            self.long_list(bytes, sheet, row)?;
        }
        Ok(())
    }

    /// The longest list that is to be written, one byte short of its space and with room for it.
    fn long_list(&mut self, bytes: &[u8], sheet: &Sheet, row: u64) -> Result<(), Difference> {
        let size = |length| Plan::check(bytes, row, length).map_or(usize::MAX, |plan| plan.size());
        let mut lengths = (0..=LENGTH_LIMIT as u64).rev();
        let Some(length) = lengths.find(|&length| size(length) <= LONG_LIST) else {
            return Ok(());
        };
        let space = size(length);
        self.comparison.make(bytes, MakeCall { row, length, space: space - 1 })?;
        let Some(bytes) = self.comparison.make(bytes, MakeCall { row, length, space })? else {
            return Ok(());
        };
        let list = CutList::check(&bytes, sheet.text.len()).expect("a maker's list");
        let word = lists::likely_word(&mut self.s, &list, &sheet.text);
        let call = GateCall { list: &bytes, text: &sheet.text, word: &word, work: WORK };
        self.comparison.tally.sort("long list");
        self.comparison.gate(call)
    }

    /// The maker with every interesting space; the list, if it is of a length to be written. The
    /// moved sheet has the same one.
    fn spaces(
        &mut self,
        accepted: &Accepted,
        row: u64,
        length: u64,
    ) -> Result<Option<Vec<u8>>, Difference> {
        let Accepted { bytes, moved, .. } = accepted;
        let size = Plan::check(bytes, row, length).map_or(0, |plan| plan.size());
        let mut spaces = vec![0, self.s.below(size.min(WRITTEN_LIST)), size.min(WRITTEN_LIST) - 1];
        if size <= WRITTEN_LIST {
            spaces.extend([size, size + 1, size + self.s.between(2, 50)]);
        }
        let mut list = None;
        for space in spaces {
            list = self.comparison.make(bytes, MakeCall { row, length, space })?;
        }
        if let (Some(moved), Some(list)) = (moved, &list) {
            self.comparison.make(moved, MakeCall { row, length, space: size - 1 })?;
            let same = self.comparison.make(moved, MakeCall { row, length, space: size })?;
            assert_eq!(same.as_ref(), Some(list), "a moved sheet's list");
        }
        Ok(list)
    }

    fn foreign_list(&mut self) -> Result<(), Difference> {
        let (list, text) = lists::foreign(&mut self.s);
        self.comparison.tally.sort("foreign list");
        self.gates(&list, &text)?;
        let (list, text) = lists::past_limits(&mut self.s);
        let word = vec![b'a'; list[list.len() - 12] as usize];
        self.comparison.gate(GateCall { list: &list, text: &text, word: &word, work: WORK })
    }

    /// The gate on a well-formed list, and on what is left of it when it is damaged.
    fn gates(&mut self, bytes: &[u8], text: &[u8]) -> Result<(), Difference> {
        let list = CutList::check(bytes, text.len()).expect("a maker's or a foreign list");
        for _ in 0..4 {
            let word = lists::likely_word(&mut self.s, &list, text);
            let work = WORK + self.s.below(3);
            self.comparison.gate(GateCall { list: bytes, text, word: &word, work })?;
            let word = self.other_word(&word);
            self.comparison.gate(GateCall { list: bytes, text, word: &word, work })?;
        }
        let word = lists::likely_word(&mut self.s, &list, text);
        for work in [0, WORK - 1, WORK] {
            self.comparison.gate(GateCall { list: bytes, text, word: &word, work })?;
        }
        for length in [0, word.len().saturating_sub(1), word.len() + 1, 300] {
            let work = self.s.pick(&[0, WORK]);
            let word = vec![b'a'; length];
            self.comparison.gate(GateCall { list: bytes, text, word: &word, work })?;
        }
        self.other_texts(bytes, text, &word)?;
        self.damaged_lists(bytes, text, &word)
    }

    /// The word with a byte of it changed, or another of its length.
    fn other_word(&mut self, word: &[u8]) -> Vec<u8> {
        let mut word = word.to_vec();
        let whole = self.s.once_in(2);
        let at = self.s.below(word.len().max(1));
        for (i, byte) in word.iter_mut().enumerate() {
            if whole || i == at {
                *byte = self.s.pick(b"abcdx<>AZ\0\xff");
            }
        }
        word
    }

    /// Less text can make a list badly formed, other text can change what it accepts.
    fn other_texts(&mut self, list: &[u8], text: &[u8], word: &[u8]) -> Result<(), Difference> {
        let mut longer = text.to_vec();
        longer.extend([b'a'; 70]);
        let shorter = &text[..text.len().saturating_sub(1)];
        let changed: Vec<u8> = text.iter().map(|_| self.s.pick(b"ab")).collect();
        for text in [&longer, shorter, &[], &changed] {
            self.comparison.gate(GateCall { list, text, word, work: WORK })?;
        }
        Ok(())
    }

    fn damaged_lists(&mut self, list: &[u8], text: &[u8], word: &[u8]) -> Result<(), Difference> {
        let every = list.len() <= SMALL_LIST && self.s.once_in(4);
        let tries = if every { list.len() } else { 6 };
        for i in 0..tries {
            let at = if every { i } else { self.s.below(list.len()) };
            let damaged = with_byte_changed(&mut self.s, list, at);
            let work = self.s.pick(&[WORK, WORK, WORK + 1, WORK - 1]);
            self.comparison.gate(GateCall { list: &damaged, text, word, work })?;
        }
        for _ in 0..4 {
            let damaged = lists::damaged(&mut self.s, list);
            let work = self.s.pick(&[WORK, WORK - 1]);
            self.comparison.gate(GateCall { list: &damaged, text, word, work })?;
        }
        Ok(())
    }

    fn deep_alike(&mut self) -> Result<(), Difference> {
        let bytes = gen::alike::deep_alike(&mut self.s).bytes();
        let sheet = Sheet::check(&bytes).expect("a valid sheet");
        let Some(counted) = count(&sheet, 2_000) else {
            self.comparison.tally.sort("too long to count");
            return Ok(());
        };
        self.comparison.tally.sort("counted");
        self.comparison.tally.sheet(&bytes, &sheet);
        let answer = |_: &Sheet, budget: u64| {
            let trials = u64::try_from(counted.trials).ok().filter(|&trials| trials <= budget)?;
            Some(Walked { trials, found: counted.found.clone() })
        };
        let mut budgets = vec![1_000_000, 1 << 32, 1 << 63, u64::MAX - 1, u64::MAX];
        if let Ok(count) = u64::try_from(counted.trials) {
            budgets.extend([count - 1, count, count.saturating_add(1)]);
        }
        if !counted.passed.is_empty() {
            for _ in 0..3 {
                budgets.extend(budgets_inside(self.s.pick(&counted.passed)));
            }
        }
        for budget in budgets {
            let (work, out) = (WORK, sheet.longest);
            self.comparison.solve(&bytes, SolveCall { budget, work, out }, answer)?;
        }
        Ok(())
    }
}

/// Budgets that are spent before, within and after the prefixes passed over.
fn budgets_inside(Passed { before, trials }: Passed) -> impl Iterator<Item = u64> {
    let within = [0, 1, trials / 2, trials.saturating_sub(1), trials];
    within.into_iter().filter_map(move |more| u64::try_from(before.saturating_add(more)).ok())
}

/// How many trials of the sheet are cheap enough to be walked a dozen times by both programs.
fn affordable(sheet: &Sheet) -> u64 {
    let cost = |assertion: &Assertion| {
        let length = sheet.term_length(assertion.term) as u64 + 1;
        match assertion.claim {
            Claim::Derived { .. } => sheet.rows.len() as u64 * length.pow(3) / 6,
            Claim::Contains(stretch) => length * stretch.bytes as u64,
            Claim::Equals(_) => length,
            Claim::ContainsTerm(second) => length * sheet.term_length(second) as u64,
        }
    };
    let trial: u64 = 100 + sheet.assertions.iter().map(cost).sum::<u64>();
    (30_000_000 / trial).clamp(3, 70_000)
}
