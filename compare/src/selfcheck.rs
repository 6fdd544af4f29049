//! The second program against brute force, without the proved library.

use std::fmt::{Debug, Display};

use crate::gen::{contained, cuts, filters, lists, small};
use crate::program::hex;
use crate::second::derive::derives_word;
use crate::second::gate::{gate, CutList};
use crate::second::make::{make, Plan};
use crate::second::sheet::{Row, Sheet};
use crate::second::solve::{solve, walk, Solved, Walked, WORK};
use crate::seed::Seeded;
use crate::{brute, count};

const BUDGET: u64 = 5_000;
/// Words of the longest length that brute force tries at most.
const WORDS: usize = 250;
/// Fillings of one assertion that brute force tries at most.
const FILLINGS: usize = 64;
/// Prefixes that brute force judges at most.
const BRUTE_TRIALS: u64 = 300;

/// How many answers brute force could judge.
#[derive(Default, Debug)]
pub struct Agreed {
    pub cases: u64,
    pub words: u64,
    pub walks: u64,
    pub found: u64,
    pub counted: u64,
    pub derived: u64,
    pub not_derived: u64,
    pub lists: u64,
}

impl Display for Agreed {
    fn fmt(&self, f: &mut std::fmt::Formatter<'_>) -> std::fmt::Result {
        writeln!(f, "first words by every word tried: {}, found {}", self.words, self.found)?;
        writeln!(f, "walks by every filling tried: {}", self.walks)?;
        writeln!(f, "walks counted: {}", self.counted)?;
        writeln!(f, "words derived: {}, not derived: {}", self.derived, self.not_derived)?;
        writeln!(f, "words at foreign lists: {}", self.lists)
    }
}

/// What was agreed on, or the first difference.
pub fn selfcheck(seed: u64, count: u64) -> Result<Agreed, String> {
    let mut agreed = Agreed::default();
    for case in 0..count {
        let mut s = Seeded::new(seed, case);
        let draft = match s.below(6) {
            0..=1 => filters::filters(&mut s, 3),
            2..=3 => small::small(&mut s, 1),
            4 => cuts::cuts(&mut s, 3),
            _ => contained::contained(&mut s, 3),
        };
        let bytes = draft.bytes();
        let sheet = Sheet::check(&bytes).map_err(|fault| fault.to_string());
        let result = sheet.and_then(|sheet| {
            walks(&bytes, &sheet, &mut agreed)?;
            for row in 0..sheet.rows.len() {
                makes(&mut s, &bytes, &sheet, row, &mut agreed)?;
            }
            foreign(&mut s, &mut agreed)
        });
        result.map_err(|text| format!("case {case}\nsheet {}\n{text}", hex(&bytes)))?;
        agreed.cases += 1;
    }
    Ok(agreed)
}

fn same<T: PartialEq + Debug>(what: &str, one: &T, other: &T) -> Result<(), String> {
    if one == other {
        return Ok(());
    }
    Err(format!("{what}: {one:?} and {other:?}"))
}

fn walks(bytes: &[u8], sheet: &Sheet, agreed: &mut Agreed) -> Result<(), String> {
    let Some(walked) = walk(sheet, BUDGET) else {
        return Ok(());
    };
    budgets(bytes, &walked)?;
    if sheet.letters.len().pow(sheet.longest as u32) <= WORDS {
        same("first word", &walked.found, &brute::first_word(sheet))?;
        agreed.words += 1;
        agreed.found += walked.found.is_some() as u64;
    }
    if walked.trials <= BRUTE_TRIALS {
        if let Some(brute) = brute::walk(sheet, BRUTE_TRIALS, FILLINGS) {
            same("walk", &walked, &brute)?;
            agreed.walks += 1;
        }
    }
    if let Some(counted) = count::count(sheet, BUDGET) {
        same("counted trials", &counted.trials, &(walked.trials as u128))?;
        same("counted word", &counted.found, &walked.found)?;
        agreed.counted += 1;
    }
    Ok(())
}

/// The solver's call around the walk's full count.
fn budgets(bytes: &[u8], walked: &Walked) -> Result<(), String> {
    let count = walked.trials;
    for budget in [0, count - 1, count, u64::MAX] {
        let (mut work, mut out) = (vec![7; WORK + 1], vec![9; 60]);
        let solved = solve(bytes, budget, &mut work, &mut out);
        let word = walked.found.clone().unwrap_or_default();
        let expected = if budget < count {
            Solved::walked(2, 0, budget)
        } else {
            Solved::walked(walked.found.is_none() as u32, word.len(), count)
        };
        same("solved", &solved, &expected)?;
        same("last workspace word", &work[WORK], &7)?;
        same("workspace", &work[..WORK].iter().any(|&word| word != 0), &false)?;
        let written = if expected.number == 0 { word } else { Vec::new() };
        let kept = vec![9; 60 - written.len()];
        same("output", &out, &[written, kept].concat())?;
    }
    Ok(())
}

/// A few bytes worth trying in words: what rows, text and letters hold.
fn alphabet(sheet: &Sheet) -> Vec<u8> {
    let low = |row: &Row| match *row {
        Row::Byte { low, .. } => Some(low),
        _ => None,
    };
    let mut bytes: Vec<u8> = sheet.rows.iter().filter_map(low).take(2).collect();
    bytes.extend(sheet.text.iter().take(2));
    bytes.extend(sheet.letters.iter().take(1));
    bytes.sort_unstable();
    bytes.dedup();
    bytes
}

/// Maker and gate together against derivation and brute force, on every short word.
fn makes(
    s: &mut Seeded,
    bytes: &[u8],
    sheet: &Sheet,
    row: usize,
    agreed: &mut Agreed,
) -> Result<(), String> {
    let n = s.between(0, 3);
    let size = Plan::check(bytes, row as u64, n as u64).map(|plan| plan.size());
    let mut list = vec![0; size.map_err(|fault| fault.to_string())?];
    let made = make(bytes, row as u64, n as u64, &mut list);
    same("list length", &(made.number, made.length as usize), &(0, list.len()))?;
    let parsed = CutList::check(&list, sheet.text.len()).ok_or("the maker's list is refused")?;
    let mut words: Vec<Vec<u8>> = brute::words(&alphabet(sheet), n).collect();
    words.extend((0..4).map(|_| lists::likely_word(s, &parsed, &sheet.text)));
    for word in words {
        let derived = derives_word(sheet, row, &word);
        same("derived", &derived, &brute::derived(sheet, row, &word))?;
        let answer = gate(&list, &sheet.text, &word, &mut vec![7; WORK]);
        same(&format!("gate on {}", hex(&word)), &(answer == 0), &derived)?;
        agreed.derived += derived as u64;
        agreed.not_derived += !derived as u64;
    }
    Ok(())
}

/// The gate on lists that no maker wrote, against their options read one by one.
fn foreign(s: &mut Seeded, agreed: &mut Agreed) -> Result<(), String> {
    let (bytes, text) = lists::foreign(s);
    let list = CutList::check(&bytes, text.len()).ok_or("a foreign list is not well formed")?;
    same("list written again", &lists::write(&list), &bytes)?;
    if list.n > 6 {
        return Ok(());
    }
    for _ in 0..5 {
        let word = lists::likely_word(s, &list, &text);
        let answer = gate(&bytes, &text, &word, &mut vec![7; WORK]);
        let accepted = brute::accepted(&list, list.root, &text, &word);
        let what = format!("list {} text {} word {}", hex(&bytes), hex(&text), hex(&word));
        same(&what, &(answer == 0), &accepted)?;
        agreed.lists += 1;
    }
    Ok(())
}
