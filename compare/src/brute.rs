//! Brute force for small cases, by the paper's meanings and nothing cleverer: every word tried,
//! every filling tried, every step of a derivation tried until none is new.

use std::collections::BTreeSet;

use crate::second::edition::CutRule;
use crate::second::gate::{Choice, CutList};
use crate::second::sheet::{Assertion, Claim, Part, Row, Run, Sheet};
use crate::second::solve::Walked;

/// The first word, in the walk's order, that meets every assertion.
pub fn first_word(sheet: &Sheet) -> Option<Vec<u8>> {
    (sheet.shortest..=sheet.longest)
        .flat_map(|n| words(&sheet.letters, n))
        .find(|word| satisfies(sheet, word))
}

/// Every word of n letters, in order.
pub fn words(letters: &[u8], n: usize) -> impl Iterator<Item = Vec<u8>> + '_ {
    (0..letters.len().pow(n as u32)).map(move |number| numbered_word(letters, n, number))
}

fn numbered_word(letters: &[u8], n: usize, mut number: usize) -> Vec<u8> {
    let mut word = vec![0; n];
    for byte in word.iter_mut().rev() {
        *byte = letters[number % letters.len()];
        number /= letters.len();
    }
    word
}

/// Whether the word meets every assertion.
pub fn satisfies(sheet: &Sheet, word: &[u8]) -> bool {
    let met = |a: &Assertion| {
        let terms = terms(sheet, a, word.len(), |position| word[position]);
        terms.is_some_and(|terms| holds(sheet, a.claim, &terms) != a.denied)
    };
    sheet.assertions.iter().all(met)
}

/// The assertion's terms at length n, or nothing if a cut reaches past the end and is not shortened.
/// The byte of v is asked for at each place anew.
fn terms(
    sheet: &Sheet,
    assertion: &Assertion,
    n: usize,
    mut v: impl FnMut(usize) -> u8,
) -> Option<Vec<Vec<u8>>> {
    assertion.terms().map(|run| term(sheet, run, n, &mut v)).collect()
}

fn term(sheet: &Sheet, run: Run, n: usize, v: &mut impl FnMut(usize) -> u8) -> Option<Vec<u8>> {
    let mut bytes = Vec::new();
    for part in sheet.run(run) {
        let (from, to) = match *part {
            Part::Text(stretch) => {
                bytes.extend(sheet.stretch(stretch));
                continue;
            }
            Part::Whole => (0, n),
            Part::Cut { position, bytes } => (position, position + bytes),
        };
        if to > n && sheet.cut_rule == CutRule::Strict {
            return None;
        }
        for position in (from..to).filter(|&position| position < n) {
            bytes.push(v(position));
        }
    }
    Some(bytes)
}

fn holds(sheet: &Sheet, claim: Claim, terms: &[Vec<u8>]) -> bool {
    let term = &terms[0];
    match claim {
        Claim::Derived { row } => derived(sheet, row, term),
        Claim::Contains(stretch) => contains(term, sheet.stretch(stretch)),
        Claim::Equals(_) => *term == terms[1],
        Claim::ContainsTerm(_) => contains(term, &terms[1]),
    }
}

fn contains(word: &[u8], other: &[u8]) -> bool {
    (0..=word.len()).any(|from| word[from..].starts_with(other))
}

/// Whether the row derives the word: facts (row, start, end) are collected until none is new.
pub fn derived(sheet: &Sheet, row: usize, word: &[u8]) -> bool {
    let mut facts = BTreeSet::new();
    loop {
        let before = facts.len();
        for row in 0..sheet.rows.len() {
            for start in 0..=word.len() {
                for end in start..=word.len() {
                    if step(sheet, row, word, start, end, &facts) {
                        facts.insert((row, start, end));
                    }
                }
            }
        }
        if facts.len() == before {
            return facts.contains(&(row, 0, word.len()));
        }
    }
}

/// Whether the row's own rule shows the fact from the facts already shown.
fn step(
    sheet: &Sheet,
    row: usize,
    word: &[u8],
    start: usize,
    end: usize,
    facts: &BTreeSet<(usize, usize, usize)>,
) -> bool {
    let bytes = &word[start..end];
    let shown = |row: usize, from: usize, to: usize| facts.contains(&(row, from, to));
    let mut middles = start..=end;
    match sheet.rows[row] {
        Row::Empty => bytes.is_empty(),
        Row::Byte { low, high } => bytes.len() == 1 && low <= bytes[0] && bytes[0] <= high,
        Row::Text(stretch) => bytes == sheet.stretch(stretch),
        Row::Or(a, b) => shown(a, start, end) || shown(b, start, end),
        Row::Then(a, b) => middles.any(|middle| shown(a, start, middle) && shown(b, middle, end)),
        Row::Star(a) => {
            bytes.is_empty()
                || middles.any(|middle| shown(a, start, middle) && shown(row, middle, end))
        }
    }
}

/// Whether the prefix is open at n, by trying every filling of the unknown places of each
/// assertion's terms; nothing if there are more fillings than the limit.
pub fn open(sheet: &Sheet, prefix: &[u8], n: usize, limit: usize) -> Option<bool> {
    for assertion in &sheet.assertions {
        if !possible(sheet, assertion, prefix, n, limit)? {
            return Some(false);
        }
    }
    Some(true)
}

fn possible(sheet: &Sheet, a: &Assertion, prefix: &[u8], n: usize, limit: usize) -> Option<bool> {
    let mut unknown = 0;
    let known = terms(sheet, a, n, |position| {
        unknown += (position >= prefix.len()) as usize;
        prefix.get(position).copied().unwrap_or(0)
    });
    if known.is_none() {
        return Some(false);
    }
    if a.denied && unknown > 0 {
        return Some(true);
    }
    sheet.letters.len().checked_pow(unknown as u32).filter(|&fillings| fillings <= limit)?;
    let held = words(&sheet.letters, unknown).any(|filling| {
        let mut filling = filling.into_iter();
        let byte = |p: usize| prefix.get(p).copied().or_else(|| filling.next()).expect("filled");
        terms(sheet, a, n, byte).is_some_and(|terms| holds(sheet, a.claim, &terms))
    });
    Some(held != a.denied)
}

/// The walk by brute openness, as one prefix moved forward; nothing if it is too long to try.
pub fn walk(sheet: &Sheet, budget: u64, limit: usize) -> Option<Walked> {
    let mut trials = 0;
    for n in sheet.shortest..=sheet.longest {
        let mut prefix = Some(Vec::new());
        while let Some(word) = prefix {
            if trials == budget {
                return None;
            }
            trials += 1;
            let open = open(sheet, &word, n, limit)?;
            if open && word.len() == n {
                return Some(Walked { trials, found: Some(word) });
            }
            prefix = next(&sheet.letters, word, open);
        }
    }
    Some(Walked { trials, found: None })
}

/// The first extension of an open prefix, or else the next prefix that does not extend it.
fn next(letters: &[u8], mut prefix: Vec<u8>, open: bool) -> Option<Vec<u8>> {
    if open {
        prefix.push(letters[0]);
        return Some(prefix);
    }
    while let Some(last) = prefix.pop() {
        if let Some(&letter) = letters.iter().find(|&&letter| letter > last) {
            prefix.push(letter);
            return Some(prefix);
        }
    }
    None
}

/// Whether a list's head accepts the word: some option of it holds.
pub fn accepted(list: &CutList, row: usize, text: &[u8], word: &[u8]) -> bool {
    let m = word.len();
    list.groups[m][row].iter().any(|&choice| match choice {
        Choice::Byte { low, high } => (low..=high).contains(&word[0]),
        Choice::Text { from } => text[from..].starts_with(word),
        Choice::Cut { k, a, b } => {
            accepted(list, a, text, &word[..k]) && accepted(list, b, text, &word[k..])
        }
        Choice::Empty => true,
    })
}
