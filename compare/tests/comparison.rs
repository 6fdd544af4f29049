//! The second program against brute force, and the comparison itself: it must pass a program that
//! answers the same and see each way of differing.

use compare::check::{check, check_alike};
use compare::count::count;
use compare::program::{Calls, Here, Second};
use compare::second::edition::{CutRule, Edition, FIELDS};
use compare::second::fault::Fault;
use compare::second::make::Made;
use compare::second::open::open;
use compare::second::sheet::{read_u16, Part, Run, Sheet, ASSERTIONS, NEW_BYTES, TABLES};
use compare::second::solve::{solve_by, walk, walk_by, Solved, Walked, WORK};
use compare::selfcheck::selfcheck;

#[test]
fn second_program_agrees_with_brute_force() {
    let agreed = selfcheck(7, 400).expect("no difference");
    assert!(agreed.words > 300 && agreed.walks > 300 && agreed.derived > 300);
}

#[test]
fn second_program_agrees_with_itself_and_meets_every_answer() {
    let report = check(&mut Here::new(Second), 7, 0..400, None).expect("no difference");
    assert_eq!(report.cases, 400);
    assert_eq!(report.tally.unmet(), []);
    assert!(report.tally.least_of_editions() > 50);
    for (kind, denied) in [1, 2, 3, 4].into_iter().flat_map(|kind| [(kind, false), (kind, true)]) {
        assert!(report.tally.assertions(kind, denied) > 50, "{kind} {denied}");
    }
}

/// A program that is right but for one thing.
#[derive(Clone, Copy, PartialEq)]
enum Wrong {
    Trials,
    Table,
    Record,
    TableOfNone,
    LengthsForCounts,
    OutputAfterTheWord,
    WordAfterTheWorkspace,
    WorkspaceNotCleared,
    RefusedWrites,
    ContainmentRefused,
    EqualForContained,
    TermsExchanged,
    ShortenedUnderRule0,
    StrictUnderRule1,
    OneByteTooMany,
    FirstEditionAlone,
    LimitOfTheFirstEdition,
    NoRoomForTheTrailer,
    NewByteIgnored,
    NewByteAfterRecords,
    TableOfNewByte,
    MakerTable,
    MakerRecord,
    ListByte,
    SpaceAfterTheList,
    GateAlwaysYes,
    GateWorkspace,
}

const BAD_NEW_BYTE: Fault = Fault::at(16, NEW_BYTES, 0);

/// Where the trailer begins.
fn trailer(sheet: &[u8]) -> usize {
    Edition::of(sheet).and_then(|edition| edition.trailer_start(sheet)).expect("a sheet's trailer")
}

/// Under rule 1 a byte behind the last one, which is never known, is one of a cut past the end.
fn one_byte_too_many(sheet: &Sheet, prefix: &[u8], n: usize) -> bool {
    let has_whole = |run: Run| sheet.run(run).contains(&Part::Whole);
    sheet.assertions.iter().all(|assertion| {
        let alone = Sheet { assertions: vec![*assertion], ..sheet.clone() };
        let more = sheet.cut_rule == CutRule::Shortened && !assertion.terms().any(has_whole);
        open(&alone, prefix, n + more as usize)
    })
}

impl Wrong {
    /// What is wrong with an assertion of kind 4.
    fn change(self, assertion: &mut [u8]) {
        match self {
            Wrong::ContainmentRefused => assertion[0] = 5,
            Wrong::EqualForContained => assertion[0] = 3,
            Wrong::TermsExchanged => assertion[2..10].rotate_left(4),
            _ => {}
        }
    }

    /// The sheet as this program reads it.
    fn read(self, sheet: &[u8]) -> Vec<u8> {
        let mut sheet = sheet.to_vec();
        let fault = Sheet::check(&sheet).err();
        if fault.is_none() {
            let [offset, count] = [20, 22].map(|at| read_u16(&sheet, trailer(&sheet) + at));
            for assertion in sheet[offset..].chunks_mut(TABLES[ASSERTIONS].record).take(count) {
                if assertion[0] == 4 {
                    self.change(assertion);
                }
            }
        }
        if fault == Some(BAD_NEW_BYTE) {
            let mut mended = sheet.clone();
            mended[trailer(&sheet) + FIELDS..][..4].fill(0);
            let bad_record = Sheet::check(&mended).is_err_and(|fault| fault.number == 16);
            match self {
                Wrong::NewByteIgnored => return mended,
                Wrong::NewByteAfterRecords if bad_record => return mended,
                _ => {}
            }
        }
        sheet
    }

    fn walk(self, sheet: &Sheet, budget: u64) -> Option<Walked> {
        let under = |cut_rule| walk(&Sheet { cut_rule, ..sheet.clone() }, budget);
        match self {
            Wrong::ShortenedUnderRule0 => under(CutRule::Shortened),
            Wrong::StrictUnderRule1 => under(CutRule::Strict),
            Wrong::OneByteTooMany => walk_by(one_byte_too_many, sheet, budget),
            _ => walk(sheet, budget),
        }
    }

    /// The number that this program gives to a sheet's edition or length.
    fn refusal(self, sheet: &[u8]) -> Option<u32> {
        let length = sheet.len();
        let second = Edition::of(sheet) == Some(Edition::Second);
        match self {
            Wrong::FirstEditionAlone if second && (32..=3_380).contains(&length) => Some(12),
            Wrong::LimitOfTheFirstEdition if length > 3_376 => Some(11),
            Wrong::NoRoomForTheTrailer if second && (32..36).contains(&length) => Some(10),
            _ => None,
        }
    }
}

impl Calls for Wrong {
    fn solve(&self, sheet: &[u8], budget: u64, work: &mut [u64], out: &mut [u8]) -> Solved {
        if let Some(number) = self.refusal(sheet) {
            return Solved::walked(number, 0, 0);
        }
        let walk = |sheet: &Sheet, budget| self.walk(sheet, budget);
        let mut solved = solve_by(walk, &self.read(sheet), budget, work, out);
        let after = solved.length as usize;
        match self {
            Wrong::Trials if solved.number == 1 => solved.trials += 1,
            Wrong::Table if solved.number == 14 => solved.table += 1,
            Wrong::Record if solved.number == 17 => solved.record += 1,
            Wrong::TableOfNone if solved.number == 1 => solved.table = 4,
            Wrong::LengthsForCounts if solved.number == 141 => solved.number = 14,
            Wrong::TableOfNewByte if solved.fault() == BAD_NEW_BYTE => solved.table = 0,
            Wrong::OutputAfterTheWord if solved.number == 0 && after < out.len() => out[after] = 0,
            Wrong::WordAfterTheWorkspace if work.len() > WORK => work[WORK] = 0,
            Wrong::WorkspaceNotCleared if solved.number < 10 => work[WORK - 1] = 1,
            Wrong::RefusedWrites if solved.number == 19 => work[0] = 0,
            _ => {}
        }
        solved
    }

    fn make(&self, sheet: &[u8], row: u64, length: u64, list: &mut [u8]) -> Made {
        let mut made = Second.make(sheet, row, length, list);
        let after = made.length as usize;
        match self {
            Wrong::MakerTable if made.number == 16 => made.table ^= 1,
            Wrong::MakerRecord if made.number == 16 => made.record += 1,
            Wrong::ListByte if made.number == 0 => list[after - 20] ^= 1,
            Wrong::SpaceAfterTheList if made.number == 0 && after < list.len() => list[after] = 0,
            _ => {}
        }
        made
    }

    fn gate(&self, list: &[u8], text: &[u8], word: &[u8], work: &mut [u64]) -> u32 {
        let number = Second.gate(list, text, word, work);
        match self {
            Wrong::GateAlwaysYes if number == 1 => 0,
            Wrong::GateWorkspace if number == 31 && !work.is_empty() => {
                work[0] = 0;
                number
            }
            _ => number,
        }
    }
}

#[test]
fn every_way_of_differing_is_seen() {
    let wrongs = [
        Wrong::Trials,
        Wrong::Table,
        Wrong::Record,
        Wrong::TableOfNone,
        Wrong::LengthsForCounts,
        Wrong::OutputAfterTheWord,
        Wrong::WordAfterTheWorkspace,
        Wrong::WorkspaceNotCleared,
        Wrong::RefusedWrites,
        Wrong::ContainmentRefused,
        Wrong::EqualForContained,
        Wrong::TermsExchanged,
        Wrong::ShortenedUnderRule0,
        Wrong::StrictUnderRule1,
        Wrong::OneByteTooMany,
        Wrong::FirstEditionAlone,
        Wrong::LimitOfTheFirstEdition,
        Wrong::NoRoomForTheTrailer,
        Wrong::NewByteIgnored,
        Wrong::NewByteAfterRecords,
        Wrong::TableOfNewByte,
        Wrong::MakerTable,
        Wrong::MakerRecord,
        Wrong::ListByte,
        Wrong::SpaceAfterTheList,
        Wrong::GateAlwaysYes,
        Wrong::GateWorkspace,
    ];
    for (i, wrong) in wrongs.iter().enumerate() {
        assert!(check(&mut Here::new(*wrong), 7, 0..200, None).is_err(), "wrong program {i}");
    }
}

/// Counts alike letters together, and so many trials of every count too few.
struct Counting(u64);

impl Calls for Counting {
    fn solve(&self, sheet: &[u8], budget: u64, work: &mut [u64], out: &mut [u8]) -> Solved {
        let walk = |sheet: &Sheet, budget: u64| {
            let counted = count(sheet, 2_000)?;
            let trials = u64::try_from(counted.trials).ok()?.saturating_sub(self.0);
            (trials <= budget).then_some(Walked { trials, found: counted.found })
        };
        solve_by(walk, sheet, budget, work, out)
    }
}

#[test]
fn counts_past_every_plain_walk() {
    let report = check_alike(&mut Here::new(Counting(0)), 7, 0..60, None).expect("no difference");
    let answered = |number| report.tally.answered("solve", Fault::alone(number));
    assert!(answered(0) > 20 && answered(2) > 20);
    assert!(check_alike(&mut Here::new(Counting(1)), 7, 0..60, None).is_err());
}
