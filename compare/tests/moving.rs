//! Sheets moved between the editions: worked by hand, the refusals in their order, the room, there
//! and back, and what solver and maker say of the moved sheet.

use compare::draft::{Draft, CUT_RULE_0, CUT_RULE_1};
use compare::gen::faults::{each_field, two_at_once, Faulty};
use compare::gen::sizes::sizes;
use compare::keys::{brackets, kept, over};
use compare::second::edition::{Edition, EDITIONS, FIELDS};
use compare::second::fault::Fault;
use compare::second::make::{make, Made};
use compare::second::moving::to_edition;
use compare::second::sheet::{Sheet, ASSERTIONS, LETTERS, NEW_BYTES, ROWS};
use compare::second::solve::{solve, WORK};
use compare::seed::Seeded;

mod drafts;

use drafts::{any_sort, full};

/// The moved sheet, or why there is none; what stands behind it in the room is held to be kept.
fn moved_within(wanted: Edition, sheet: &[u8], room: usize) -> Result<Vec<u8>, Fault> {
    let mut room = vec![9; room];
    let made = to_edition(wanted, sheet, &mut room);
    let kept = room.split_off(made.length as usize);
    assert!(kept.iter().all(|&byte| byte == 9));
    if made.number == 0 {
        assert_eq!(made, Made::written(room.len()));
        Ok(room)
    } else {
        assert_eq!(made.length, 0);
        Err(made.fault())
    }
}

/// With more room than any sheet needs.
fn moved(wanted: Edition, sheet: &[u8]) -> Result<Vec<u8>, Fault> {
    moved_within(wanted, sheet, 3_400)
}

fn other(edition: Edition) -> Edition {
    match edition {
        Edition::First => Edition::Second,
        Edition::Second => Edition::First,
    }
}

/// One sheet in both editions, byte by byte: the letter a, words of one or two bytes.
const FIRST: [&[u8]; 9] = [
    b"aa",
    &[1, 0, 2, 0],
    &[0, 0, 1, 0],
    &[2, 0, 0, 0],
    &[2, 0, 0, 0],
    &[2, 0, 0, 0],
    &[2, 0, 0, 0],
    &[34, 0, 0, 0],
    b"PRM1",
];
const SECOND: [&[u8]; 10] = [
    b"aa",
    &[1, 0, 2, 0],
    &[0, 0, 1, 0],
    &[2, 0, 0, 0],
    &[2, 0, 0, 0],
    &[2, 0, 0, 0],
    &[2, 0, 0, 0],
    &[0, 0, 0, 0],
    &[38, 0, 0, 0],
    b"PRM2",
];

#[test]
fn byte_by_byte() {
    assert_eq!(moved(Edition::Second, &FIRST.concat()), Ok(SECOND.concat()));
    assert_eq!(moved(Edition::First, &SECOND.concat()), Ok(FIRST.concat()));
    // K4: tables of 64 bytes, then 24 of the trailer's fields.
    let first = brackets(4, 4).bytes();
    let second = [&first[..88], &[0, 0, 0, 0, 100, 0, 0, 0], b"PRM2"].concat();
    assert_eq!(moved(Edition::Second, &first), Ok(second.clone()));
    assert_eq!(moved(Edition::First, &second), Ok(first));
}

#[test]
fn length_of_two_bytes() {
    for (text, length) in [(217, [255, 0]), (218, [0, 1]), (222, [4, 1]), (1_024, [38, 4])] {
        let first = Draft { text: vec![b'a'; text], ..over(&[(b'a', b'a')], 0, 0) }.bytes();
        let end = [0, 0, 0, 0, length[0], length[1], 0, 0, b'P', b'R', b'M', b'2'];
        let second = [&first[..2 + text + FIELDS], &end].concat();
        assert_eq!(moved(Edition::Second, &first), Ok(second.clone()), "{text}");
        assert_eq!(moved(Edition::First, &second), Ok(first), "{text}");
    }
}

/// Too short, too long, and then the mark.
#[test]
fn lengths_before_marks() {
    for wanted in EDITIONS {
        for mark in [b"PRM1", b"PRM2", b"PRM3"] {
            let refused = |zeros| {
                let sheet = [&vec![0; zeros], &mark[..]].concat();
                moved(wanted, &sheet).expect_err("no total")
            };
            assert_eq!([0, 27].map(refused), [Fault::alone(10); 2]);
            assert_eq!([3_377, 10_000].map(refused), [Fault::alone(11); 2]);
            let to_move = mark == other(wanted).mark();
            let number = if to_move { 13 } else { 12 };
            assert_eq!([28, 31, 32, 3_372, 3_376].map(refused), [Fault::alone(number); 5]);
        }
    }
}

/// K4 in that edition, with changes.
fn changed(edition: Edition, changes: &[fn(&mut Draft)]) -> Vec<u8> {
    let mut draft = brackets(4, 4);
    draft.new_bytes = (edition == Edition::Second).then_some(CUT_RULE_0);
    changes.iter().for_each(|change| change(&mut draft));
    draft.bytes()
}

fn no_letters(draft: &mut Draft) {
    draft.letters.clear();
}

fn bad_lengths(draft: &mut Draft) {
    draft.longest = 61;
}

fn bad_row(draft: &mut Draft) {
    draft.rows[6].0 = 7;
}

fn long_term(draft: &mut Draft) {
    let long = draft.add_part(3, 0, 61);
    draft.assert((2, 0), (long, 1), (0, 0));
}

/// The sheet with one more in that byte, counted from its end.
fn raised(mut sheet: Vec<u8>, from_end: usize) -> Vec<u8> {
    let at = sheet.len() - from_end;
    sheet[at] += 1;
    sheet
}

/// From a sheet's end to its total.
const TOTAL: usize = 8;

/// Each fault with later ones behind it, and with no room.
#[test]
fn faults_in_order() {
    for edition in EDITIONS {
        let refused = |sheet: &[u8]| moved_within(other(edition), sheet, 0).expect_err("no room");
        let sheet = |changes: &[fn(&mut Draft)]| changed(edition, changes);
        let offset_of_parts = edition.trailer() - 16;
        let with_offset = |changes| raised(sheet(changes), offset_of_parts);
        assert_eq!(refused(&raised(sheet(&[no_letters]), TOTAL)), Fault::alone(13));
        assert_eq!(refused(&sheet(&[no_letters, bad_lengths])), Fault::at(14, LETTERS, 0));
        assert_eq!(refused(&with_offset(&[bad_lengths])), Fault::alone(141));
        assert_eq!(refused(&with_offset(&[bad_row])), Fault::alone(15));
        assert_eq!(refused(&sheet(&[bad_row, long_term])), Fault::at(16, ROWS, 6));
        assert_eq!(refused(&sheet(&[long_term])), Fault::at(17, ASSERTIONS, 1));
        assert_eq!(refused(&sheet(&[])), Fault::alone(41));
    }
}

/// With the wanted mark a sheet is refused by 12, whatever else is wrong with it, or nothing.
#[test]
fn wanted_mark() {
    let changes: [&[fn(&mut Draft)]; 5] =
        [&[], &[no_letters], &[bad_lengths], &[bad_row], &[long_term]];
    for (wanted, changes) in EDITIONS.into_iter().flat_map(|e| changes.map(|c| (e, c))) {
        let sheet = changed(wanted, changes);
        let total = raised(sheet.clone(), TOTAL);
        for room in [0, sheet.len(), 3_380] {
            assert_eq!(moved_within(wanted, &sheet, room), Err(Fault::alone(12)));
            assert_eq!(moved_within(wanted, &total, room), Err(Fault::alone(12)));
        }
    }
}

/// A nonzero rule is told behind every fault and before the room; a bad new byte is a fault.
#[test]
fn rules() {
    let with = |new_bytes, changes| {
        let mut draft = brackets(4, 4).with_new_bytes(new_bytes);
        let changes: &[fn(&mut Draft)] = changes;
        changes.iter().for_each(|change| change(&mut draft));
        let sheet = draft.bytes();
        assert_eq!(moved(Edition::Second, &sheet), Err(Fault::alone(12)));
        [0, 95, 96, 3_380]
            .map(|room| moved_within(Edition::First, &sheet, room).expect_err("a nonzero rule"))
    };
    assert_eq!(with(CUT_RULE_1, &[]), [Fault::alone(40); 4]);
    assert_eq!(with(CUT_RULE_1, &[bad_lengths]), [Fault::alone(141); 4]);
    assert_eq!(with(CUT_RULE_1, &[bad_row]), [Fault::at(16, ROWS, 6); 4]);
    assert_eq!(with(CUT_RULE_1, &[long_term]), [Fault::at(17, ASSERTIONS, 1); 4]);
    for bad in [[2, 0, 0, 0], [0, 1, 0, 0], [1, 1, 0, 0], [0, 0, 1, 0], [1, 0, 0, 1], [255; 4]] {
        assert_eq!(with(bad, &[]), [Fault::at(16, NEW_BYTES, 0); 4], "{bad:?}");
    }
}

#[test]
fn rooms() {
    let (first, second) = (FIRST.concat(), SECOND.concat());
    for (wanted, sheet, size) in [(Edition::Second, &first, 38), (Edition::First, &second, 34)] {
        for room in 0..size {
            assert_eq!(moved_within(wanted, sheet, room), Err(Fault::alone(41)), "{room}");
        }
        for room in [size, size + 1, size + 4, 3_380, 100_000] {
            assert_eq!(moved_within(wanted, sheet, room).map(|sheet| sheet.len()), Ok(size));
        }
    }
}

/// The longest sheet of the first edition becomes the longest of the second.
#[test]
fn longest() {
    let first = full(1_024).bytes();
    let second = full(1_024).with_new_bytes(CUT_RULE_0).bytes();
    assert_eq!((first.len(), second.len()), (3_376, 3_380));
    assert_eq!(moved_within(Edition::Second, &first, 3_379), Err(Fault::alone(41)));
    assert_eq!(moved_within(Edition::Second, &first, 3_380), Ok(second.clone()));
    assert_eq!(moved_within(Edition::First, &second, 3_375), Err(Fault::alone(41)));
    assert_eq!(moved_within(Edition::First, &second, 3_376), Ok(first));
}

/// Moved, a sheet is what the writer of sheets writes in the other edition, and comes back as it
/// was; under cut rule 1 it stays.
#[test]
fn there_and_back() {
    let drafts = (0..2_000).map(|case| any_sort(&mut Seeded::new(37, case)));
    let kept = kept().into_iter().map(|key| key.draft);
    let mut moves = [0; 3];
    for draft in drafts.chain(kept.filter(|draft| Sheet::check(&draft.bytes()).is_ok())) {
        let sheet = draft.bytes();
        let (edition, result) = match draft.new_bytes {
            None => (Edition::First, Ok(draft.with_new_bytes(CUT_RULE_0).bytes())),
            Some(CUT_RULE_0) => {
                (Edition::Second, Ok(Draft { new_bytes: None, ..draft.clone() }.bytes()))
            }
            Some(_) => (Edition::Second, Err(Fault::alone(40))),
        };
        assert_eq!(moved(other(edition), &sheet), result);
        assert_eq!(moved(edition, &sheet), Err(Fault::alone(12)));
        if let Ok(there) = &result {
            assert_eq!(moved(edition, there), Ok(sheet));
        }
        moves[if result.is_ok() { edition as usize } else { 2 }] += 1;
    }
    assert!(moves.iter().all(|&count| count > 300), "{moves:?}");
}

/// The moved sheet is read as the same one, and solver and maker say and leave the same.
#[test]
fn answered_alike() {
    let solved = |sheet: &[u8], budget| {
        let (mut work, mut out) = (vec![7; WORK + 1], [9; 60]);
        (solve(sheet, budget, &mut work, &mut out), work, out)
    };
    let made = |sheet: &[u8], row, length| {
        let mut list = vec![9; 2_000];
        (make(sheet, row, length, &mut list), list)
    };
    let mut answers = [0; 3];
    for case in 0..600 {
        let sheet = any_sort(&mut Seeded::new(41, case)).bytes();
        let edition = Edition::of(&sheet).expect("a mark");
        let Ok(moved) = moved(other(edition), &sheet) else {
            continue;
        };
        assert_eq!(Sheet::check(&sheet), Sheet::check(&moved), "case {case}");
        for budget in (0..=40).chain([500]) {
            let answer = solved(&sheet, budget);
            assert_eq!(answer, solved(&moved, budget), "case {case}");
            answers[answer.0.number as usize] += 1;
        }
        for (row, length) in [(0, 0), (0, 3), (1, 2), (256, 2), (0, 61)] {
            assert_eq!(made(&sheet, row, length), made(&moved, row, length), "case {case}");
        }
    }
    assert!(answers.iter().all(|&count| count > 500), "{answers:?}");
}

/// Many sheets with faults in known places: the first is told, where the mark is not the wanted one.
#[test]
fn faults_in_known_places() {
    let sheets = |case| -> Vec<Faulty> {
        let s = &mut Seeded::new(43, case);
        [each_field(s), two_at_once(s), sizes(s)].concat()
    };
    for (sheet, first) in (0..60).flat_map(sheets) {
        for wanted in EDITIONS {
            let has_it = Edition::of(&sheet) == Some(wanted);
            let fault = if has_it && first.number > 11 { Fault::alone(12) } else { first };
            assert_eq!(moved_within(wanted, &sheet, 0), Err(fault), "{sheet:?}");
            assert_eq!(moved(wanted, &sheet), Err(fault), "{sheet:?}");
        }
    }
}
