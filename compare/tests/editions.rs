//! The two editions: their marks, trailers and sizes, each new byte, and a sheet of the second
//! edition under cut rule 0 against its form in the first.

use compare::draft::{Draft, CUT_RULE_0, CUT_RULE_1};
use compare::keys::{brackets, keys, over, star_of_a};
use compare::program::answer;
use compare::regions::regions;
use compare::second::fault::Fault;
use compare::second::make::{make, Made, Plan};
use compare::second::sheet::{Sheet, ASSERTIONS, LETTERS, NEW_BYTES, ROWS, TEXT};
use compare::second::solve::{solve, Solved, WORK};
use compare::seed::Seeded;

mod drafts;

use drafts::{any_sort, full};

const ACCEPTED: Fault = Fault::alone(0);
const BAD_NEW_BYTE: Fault = Fault::at(16, NEW_BYTES, 0);

fn fault(sheet: &[u8]) -> Fault {
    Sheet::check(sheet).map_or_else(|fault| fault, |_| ACCEPTED)
}

/// A sheet of the second edition, byte by byte: the letter a, the empty word, cut rule 1.
const SHEET: [&[u8]; 10] = [
    b"aa",
    &[0, 0, 0, 0],
    &[0, 0, 1, 0],
    &[2, 0, 0, 0],
    &[2, 0, 0, 0],
    &[2, 0, 0, 0],
    &[2, 0, 0, 0],
    &[1, 0, 0, 0],
    &[38, 0, 0, 0],
    b"PRM2",
];

#[test]
fn byte_by_byte() {
    let sheet = SHEET.concat();
    let draft = over(&[(b'a', b'a')], 0, 0).with_new_bytes(CUT_RULE_1);
    assert_eq!(draft.bytes(), sheet);
    assert_eq!(answer(&draft.bytes(), 9), "found 0 1 -");
    assert_eq!(brackets(4, 4).with_new_bytes(CUT_RULE_0).bytes().len(), 100);
}

/// The sheet's bytes with another mark.
fn marked(sheet: &[u8], mark: &[u8; 4]) -> Vec<u8> {
    [&sheet[..sheet.len() - 4], mark].concat()
}

#[test]
fn marks() {
    let sheet = SHEET.concat();
    for mark in [b"PRM0", b"PRM3", b"prm2", b"PRN2", b"QRM2", b"2PRM", b"CUT1"] {
        assert_eq!(fault(&marked(&sheet, mark)), Fault::alone(12));
    }
    // With the first edition's mark its trailer is read four bytes on, with no letters.
    assert_eq!(fault(&marked(&sheet, b"PRM1")), Fault::at(14, LETTERS, 0));
    // With the second one's there is no room for its trailer.
    let first = over(&[(b'a', b'a')], 0, 0).bytes();
    assert_eq!((first.len(), fault(&first)), (34, ACCEPTED));
    assert_eq!(fault(&marked(&first, b"PRM2")), Fault::alone(13));
    let mut total = sheet.clone();
    total[30] = 37;
    assert_eq!(fault(&total), Fault::alone(13));
    assert_eq!(fault(&marked(&total, b"PRM3")), Fault::alone(12));
}

/// Zeros, the total and the mark.
fn zeros(length: usize, mark: &[u8; 4]) -> Vec<u8> {
    [&vec![0; length - 8][..], &(length as u32).to_le_bytes(), mark].concat()
}

#[test]
fn shortest() {
    let no_letters = Fault::at(14, LETTERS, 0);
    for mark in [b"PRM1", b"PRM2", b"PRM3"] {
        assert_eq!(fault(&zeros(31, mark)), Fault::alone(10));
    }
    for length in 32..36 {
        assert_eq!(fault(&zeros(length, b"PRM1")), no_letters);
        assert_eq!(fault(&zeros(length, b"PRM2")), Fault::alone(13));
        assert_eq!(fault(&zeros(length, b"PRM3")), Fault::alone(12));
    }
    assert_eq!(fault(&zeros(36, b"PRM2")), no_letters);
}

#[test]
fn longest() {
    let (first, second) = (|text| full(text).bytes(), |text| full(text).with_new_bytes([0; 4]));
    for (text, length) in [(1_020, 3_376), (1_023, 3_379), (1_024, 3_380)] {
        let sheet = second(text);
        assert_eq!((sheet.bytes().len(), fault(&sheet.bytes())), (length, ACCEPTED));
        assert_eq!(answer(&sheet.bytes(), 9), "found 1 2 61");
    }
    assert_eq!(fault(&second(1_025).bytes()), Fault::alone(11));
    assert_eq!((first(1_024).len(), fault(&first(1_024))), (3_376, ACCEPTED));
    // Past its own longest a sheet of the first edition meets its later faults.
    for text in 1_025..=1_028 {
        assert_eq!(fault(&first(text)), Fault::at(14, TEXT, 0), "{text}");
        assert_eq!(fault(&with_gap(text - 1_024, 1)), Fault::alone(15), "{text}");
        assert_eq!(fault(&with_gap(text - 1_024, 61)), Fault::alone(141), "{text}");
        assert_eq!(fault(&marked(&first(text), b"PRM3")), Fault::alone(12), "{text}");
        assert_eq!(fault(&first(text)[1..]), Fault::alone(13), "{text}");
    }
    assert_eq!(fault(&first(1_029)), Fault::alone(11));
    for mark in [b"PRM1", b"PRM2", b"PRM3"] {
        assert_eq!(fault(&zeros(3_381, mark)), Fault::alone(11));
    }
}

/// A full sheet of the first edition with bytes between its tables and its trailer, every count and
/// offset right.
fn with_gap(bytes: usize, longest: u16) -> Vec<u8> {
    let draft = Draft { longest, ..full(1_024) };
    let sheet = draft.bytes();
    let (tables, trailer) = sheet.split_at(sheet.len() - 32);
    let length = (sheet.len() + bytes) as u32;
    [tables, &vec![0; bytes], &trailer[..24], &length.to_le_bytes(), b"PRM1"].concat()
}

#[test]
fn new_bytes() {
    let with = |new_bytes| fault(&brackets(4, 4).with_new_bytes(new_bytes).bytes());
    for new_bytes in [CUT_RULE_0, CUT_RULE_1] {
        assert_eq!(with(new_bytes), ACCEPTED);
    }
    for value in [1, 2, 128, 255] {
        assert_eq!(with([0, value, 0, 0]), BAD_NEW_BYTE);
        assert_eq!(with([1, value, 0, 0]), BAD_NEW_BYTE);
        assert_eq!(with([1, 0, value, 0]), BAD_NEW_BYTE);
        assert_eq!(with([0, 0, 0, value]), BAD_NEW_BYTE);
    }
    for value in [2, 3, 128, 129, 255] {
        assert_eq!(with([value, 0, 0, 0]), BAD_NEW_BYTE);
    }
    assert_eq!(with([255; 4]), BAD_NEW_BYTE);
}

/// Behind the trailer's faults, before every record's and every term's.
#[test]
fn new_byte_in_order() {
    for bad in [[2, 0, 0, 0], [0, 1, 0, 0], [0, 0, 1, 0], [0, 0, 0, 1]] {
        let with = |change: fn(&mut Draft)| {
            let mut draft = brackets(4, 4);
            change(&mut draft);
            [Some(CUT_RULE_0), Some(bad)].map(|new_bytes| {
                let sheet = Draft { new_bytes, ..draft.clone() }.bytes();
                let solved = solve(&sheet, 9, &mut [], &mut []);
                assert_eq!((solved.length, solved.trials), (0, 0));
                let made = make(&sheet, 9, 61, &mut []);
                let after = if solved.number == 18 { Fault::alone(20) } else { solved.fault() };
                assert_eq!((made.fault(), made.length), (after, 0));
                solved.fault()
            })
        };
        let long_term = |draft: &mut Draft| {
            draft.add_part(3, 0, 61);
            draft.assert((1, 0), (1, 1), (0, 0));
        };
        assert_eq!(with(|_| {}), [Fault::alone(18), BAD_NEW_BYTE]);
        assert_eq!(with(long_term), [Fault::at(17, ASSERTIONS, 1), BAD_NEW_BYTE]);
        assert_eq!(
            with(|draft| draft.letters[0] = (2, 1)),
            [Fault::at(16, LETTERS, 0), BAD_NEW_BYTE]
        );
        assert_eq!(with(|draft| draft.rows[6].0 = 7), [Fault::at(16, ROWS, 6), BAD_NEW_BYTE]);
        assert_eq!(with(|draft| draft.longest = 61), [Fault::alone(141); 2]);
        assert_eq!(with(|draft| draft.letters.clear()), [Fault::at(14, LETTERS, 0); 2]);
        let mut offset = brackets(4, 4).with_new_bytes(bad).bytes();
        let parts = offset.len() - 36 + 4 + 12;
        offset[parts] += 1;
        assert_eq!(fault(&offset), Fault::alone(15));
    }
    assert_eq!(answer(&brackets(4, 4).with_new_bytes([0, 0, 0, 1]).bytes(), 9), "refused 16 5 0");
}

/// K1 to K11 and the region sheets: only K8 has a cut that runs past the end.
#[test]
fn keys_of_the_second_edition() {
    for key in keys().into_iter().chain(regions()) {
        let with = |new_bytes| answer(&key.draft.with_new_bytes(new_bytes).bytes(), key.budget);
        assert_eq!(with(CUT_RULE_0), key.line, "{}", key.name);
        let shortened = if key.name == "k8" { "found 0 1 -" } else { key.line };
        assert_eq!(with(CUT_RULE_1), shortened, "{}", key.name);
    }
}

/// K12.
#[test]
fn list_of_the_second_edition() {
    let made = |draft: Draft| {
        let mut list = [9; 110];
        (make(&draft.bytes(), 1, 2, &mut list), list)
    };
    let first = made(star_of_a());
    assert_eq!(first.0, Made::written(108));
    assert_eq!(made(star_of_a().with_new_bytes(CUT_RULE_0)), first);
    assert_eq!(made(star_of_a().with_new_bytes(CUT_RULE_1)), first);
}

/// Sheets of every sort, without their new bytes.
fn sheet(s: &mut Seeded) -> Draft {
    Draft { new_bytes: None, ..any_sort(s) }
}

/// All that the solver says and leaves.
fn solved(draft: &Draft, budget: u64) -> (Solved, Vec<u64>, [u8; 60]) {
    let (mut work, mut out) = (vec![7; WORK + 1], [9; 60]);
    (solve(&draft.bytes(), budget, &mut work, &mut out), work, out)
}

/// The same answer, word and trials, with budgets up to the count and past it.
#[test]
fn rule_0_answers_as_the_first_edition() {
    let (mut answers, mut budgets) = ([0; 3], 0);
    for case in 0..1_000 {
        let first = sheet(&mut Seeded::new(29, case));
        let second = first.with_new_bytes(CUT_RULE_0);
        assert_eq!(Sheet::check(&first.bytes()), Sheet::check(&second.bytes()), "case {case}");
        for budget in (0..=60).chain([500]) {
            let one = solved(&first, budget);
            assert_eq!(one, solved(&second, budget), "case {case}");
            answers[one.0.number as usize] += 1;
            budgets += 1;
            if one.0.trials + 1 < budget {
                break;
            }
        }
    }
    assert!(answers.iter().all(|&count| count > 500) && budgets > 5_000, "{answers:?} {budgets}");
}

/// Rows know nothing of editions and cut rules.
#[test]
fn one_list_for_all() {
    let mut lists = 0;
    for case in 0..300 {
        let s = &mut Seeded::new(31, case);
        let first = sheet(s);
        for row in 0..first.rows.len().min(8) as u64 {
            let n = s.below(4) as u64;
            let size = Plan::check(&first.bytes(), row, n).map(|plan| plan.size()).expect("a row");
            let made = |draft: &Draft| {
                let mut list = vec![9; size];
                (make(&draft.bytes(), row, n, &mut list), list)
            };
            let list = made(&first);
            for new_bytes in [CUT_RULE_0, CUT_RULE_1] {
                assert_eq!(made(&first.with_new_bytes(new_bytes)), list, "case {case}");
            }
            lists += 1;
        }
    }
    assert!(lists > 500, "{lists}");
}
