//! Counts of what was met, so that a run shows that nothing was left out.

use std::collections::BTreeMap;
use std::fmt;

use crate::second::edition::{CutRule, Edition};
use crate::second::fault::Fault;
use crate::second::sheet::{Assertion, Claim, Sheet, NEW_BYTES};

const TO_FIRST: &str = "to_first";
const TO_SECOND: &str = "to_second";

/// Every number a call can answer, but for those of a sheet's fault.
const ANSWERS: [(&str, &[u32]); 5] = [
    ("solve", &[0, 1, 2, 18, 19]),
    ("make", &[0, 20, 21, 22]),
    ("gate", &[0, 1, 18, 30, 31]),
    (TO_FIRST, &[0, 40, 41]),
    (TO_SECOND, &[0, 41]),
];

/// The call that moves a sheet to the wanted edition.
pub fn mover(wanted: Edition) -> &'static str {
    match wanted {
        Edition::First => TO_FIRST,
        Edition::Second => TO_SECOND,
    }
}

/// Every number of a sheet's fault, the tables that it can name, and whether it names a record.
const FAULTS: [(u32, &[u32], bool); 10] = [
    (10, &[0], false),
    (11, &[0], false),
    (12, &[0], false),
    (13, &[0], false),
    (14, &[0, 1, 2, 3, 4], false),
    (141, &[0], false),
    (15, &[0], false),
    (16, &[5], false),
    (16, &[0, 2, 3, 4], true),
    (17, &[4], true),
];

/// Every edition, with each cut rule that it has.
const EDITIONS: [(Edition, CutRule); 3] = [
    (Edition::First, CutRule::Strict),
    (Edition::Second, CutRule::Strict),
    (Edition::Second, CutRule::Shortened),
];

/// Every kind of assertion.
const KINDS: [u8; 4] = [1, 2, 3, 4];

#[derive(Default)]
pub struct Tally {
    sorts: BTreeMap<&'static str, u64>,
    editions: BTreeMap<(Edition, CutRule), u64>,
    /// By kind, and whether it denies.
    assertions: BTreeMap<(u8, bool), u64>,
    /// Record 1 stands for every later one.
    answers: BTreeMap<(&'static str, Fault), u64>,
}

impl Tally {
    /// Counts a generated case of a sort.
    pub fn sort(&mut self, sort: &'static str) {
        *self.sorts.entry(sort).or_default() += 1;
    }

    /// Counts an accepted sheet by its edition and cut rule, and its assertions.
    pub fn sheet(&mut self, bytes: &[u8], sheet: &Sheet) {
        let edition = Edition::of(bytes).expect("an accepted sheet");
        *self.editions.entry((edition, sheet.cut_rule)).or_default() += 1;
        for assertion in &sheet.assertions {
            *self.assertions.entry((kind(assertion), assertion.denied)).or_default() += 1;
        }
    }

    /// The least number of sheets that there were of an edition and a cut rule.
    pub fn least_of_editions(&self) -> u64 {
        EDITIONS.iter().map(|edition| self.edition(edition)).min().unwrap_or(0)
    }

    fn edition(&self, edition: &(Edition, CutRule)) -> u64 {
        self.editions.get(edition).copied().unwrap_or(0)
    }

    /// How many assertions there were of the kind and sign.
    pub fn assertions(&self, kind: u8, denied: bool) -> u64 {
        self.assertions.get(&(kind, denied)).copied().unwrap_or(0)
    }

    /// Counts a call's answer: its number, and the table and record that it names.
    pub fn answer(&mut self, call: &'static str, answer: Fault) {
        let answer = Fault { record: answer.record.min(1), ..answer };
        *self.answers.entry((call, answer)).or_default() += 1;
    }

    /// How often the call gave the answer.
    pub fn answered(&self, call: &'static str, answer: Fault) -> u64 {
        self.answers.get(&(call, answer)).copied().unwrap_or(0)
    }

    /// How many calls were made.
    pub fn calls(&self) -> u64 {
        self.answers.values().sum()
    }

    /// The answers that were never met.
    pub fn unmet(&self) -> Vec<(&'static str, Fault)> {
        let mut unmet = Vec::new();
        for (call, numbers) in ANSWERS {
            unmet.extend(answers(call, numbers).map(|answer| (call, answer)));
        }
        unmet.retain(|&(call, answer)| self.answered(call, answer) == 0);
        unmet
    }
}

fn name((edition, cut_rule): (Edition, CutRule)) -> String {
    let mark = String::from_utf8_lossy(edition.mark());
    match cut_rule {
        CutRule::Strict => format!("{mark}, cut rule 0"),
        CutRule::Shortened => format!("{mark}, cut rule 1"),
    }
}

fn kind(assertion: &Assertion) -> u8 {
    match assertion.claim {
        Claim::Derived { .. } => 1,
        Claim::Contains(_) => 2,
        Claim::Equals(_) => 3,
        Claim::ContainsTerm(_) => 4,
    }
}

/// Every answer of a call.
fn answers(call: &'static str, numbers: &'static [u32]) -> impl Iterator<Item = Fault> {
    let faults = sheet_faults().filter(move |fault| match call {
        "gate" => false,
        // It reads sheets of the first edition alone.
        TO_SECOND => fault.table != NEW_BYTES as u32,
        _ => true,
    });
    numbers.iter().map(|&number| Fault::alone(number)).chain(faults)
}

fn sheet_faults() -> impl Iterator<Item = Fault> {
    FAULTS.into_iter().flat_map(|(number, tables, records)| {
        tables.iter().flat_map(move |&table| {
            (0..=u32::from(records)).map(move |record| Fault { number, table, record })
        })
    })
}

fn meaning(call: &str, answer: Fault) -> String {
    match (call, answer.number) {
        ("solve", 0) => "found".into(),
        ("solve", 1) => "none".into(),
        ("solve", 2) => "spent".into(),
        ("make" | TO_FIRST | TO_SECOND, 0) => "written".into(),
        ("gate", 0) => "yes".into(),
        ("gate", 1) => "no".into(),
        _ if answer.record > 0 => format!("{answer} or later"),
        _ => answer.to_string(),
    }
}

impl fmt::Display for Tally {
    fn fmt(&self, f: &mut fmt::Formatter<'_>) -> fmt::Result {
        for (sort, count) in &self.sorts {
            writeln!(f, "cases {sort}: {count}")?;
        }
        for edition in EDITIONS {
            writeln!(f, "sheets of {}: {}", name(edition), self.edition(&edition))?;
        }
        for kind in KINDS {
            let [asserted, denied] = [false, true].map(|denied| self.assertions(kind, denied));
            writeln!(f, "assertions of kind {kind}: {asserted} asserted, {denied} denied")?;
        }
        // A call that was made shows also what it never answered.
        let made = |call| self.answers.keys().any(|&(made, _)| made == call);
        for (call, numbers) in ANSWERS.into_iter().filter(|&(call, _)| made(call)) {
            for answer in answers(call, numbers) {
                writeln!(f, "{call} {}: {}", meaning(call, answer), self.answered(call, answer))?;
            }
        }
        Ok(())
    }
}
