//! Each refusal with the table and record that it names, each rule of a record or an option, and
//! the order of the checks.

use compare::draft::Draft;
use compare::gen::faults::{each_field, two_at_once, Faulty};
use compare::gen::sizes::sizes;
use compare::keys::{brackets, star_of_a};
use compare::second::fault::Fault;
use compare::second::gate::{gate, CutList};
use compare::second::make::make;
use compare::second::sheet::{Sheet, ASSERTIONS, LETTERS, PARTS, ROWS};
use compare::second::solve::{solve, WORK};
use compare::seed::Seeded;

/// Number, table and record.
type Told = (u32, usize, usize);

fn told(fault: Fault) -> Told {
    (fault.number, fault.table as usize, fault.record as usize)
}

fn fault(sheet: &[u8]) -> Told {
    Sheet::check(sheet).map_or_else(told, |_| ACCEPTED)
}

const ACCEPTED: Told = (0, 0, 0);

/// A number that names no table and no record.
fn alone(number: u32) -> Told {
    (number, 0, 0)
}

/// A sheet with a record of every kind.
fn every_kind() -> Draft {
    let mut draft = brackets(0, 4);
    draft.add_text(b"<<>>");
    draft.rows.extend([(3, 1, 3), (6, 3, 0)]);
    draft.parts.extend([(1, 2, 2), (3, 1, 2)]);
    draft.assert((2, 1), (0, 3), (0, 4));
    draft.assert((3, 0), (0, 1), (1, 2));
    draft.assert((4, 1), (1, 2), (0, 2));
    draft
}

/// Sets a u16 of the sheet, counted from its end if negative.
fn with(sheet: &[u8], at: isize, value: u16) -> Vec<u8> {
    let mut sheet = sheet.to_vec();
    let at = if at < 0 { sheet.len().wrapping_add_signed(at) } else { at as usize };
    sheet[at..at + 2].copy_from_slice(&value.to_le_bytes());
    sheet
}

#[test]
fn frame() {
    let sheet = every_kind().bytes();
    assert_eq!(fault(&sheet), ACCEPTED);
    assert_eq!(fault(&[]), alone(10));
    assert_eq!(fault(&sheet[sheet.len() - 31..]), alone(10));
    assert_eq!(fault(&[0; 3_381]), alone(11));
    assert_eq!(fault(&[0; 3_380]), alone(12));
    assert_eq!(fault(&with(&sheet, -2, 0)), alone(12));
    assert_eq!(fault(&with(&sheet, -8, 1)), alone(13));
    assert_eq!(fault(&with(&sheet, -6, 1)), alone(13));
    assert_eq!(fault(&[&[0], &sheet[..]].concat()), alone(13));
}

#[test]
fn counts_lengths_and_offsets() {
    let sheet = every_kind().bytes();
    let bad_pair = with(&sheet, -30, 61);
    for (table, limit) in [8, 1_024, 256, 64, 32].into_iter().enumerate() {
        let field = -28 + 4 * table as isize;
        let count = field + 2;
        assert_eq!(fault(&with(&sheet, count, limit + 1)), (14, table, 0));
        assert_eq!(fault(&with(&bad_pair, count, limit + 1)), (14, table, 0));
        // Within the limits the tables no longer meet.
        assert_eq!(fault(&with(&sheet, count, limit)), alone(15));
        assert_eq!(fault(&with(&bad_pair, count, limit)), alone(141));
        assert_eq!(fault(&with(&sheet, field, 1)), alone(15));
        assert_eq!(fault(&with(&bad_pair, field, 1)), alone(141));
        assert_eq!(fault(&with(&with(&sheet, field, 1), count, limit + 1)), (14, table, 0));
        assert_eq!(fault(&with(&with(&sheet, count, limit + 1), -10, 33)), (14, table, 0));
    }
    assert_eq!(fault(&with(&sheet, -26, 0)), (14, LETTERS, 0));
    assert_eq!(fault(&with(&sheet, -32, 5)), alone(141));
    let gap = [&[0], &with(&sheet, -8, sheet.len() as u16 + 1)[..]].concat();
    assert_eq!(fault(&gap), alone(15));
}

/// The refusal after one change to a sheet with a record of every kind.
fn changed(change: impl FnOnce(&mut Draft)) -> Told {
    let mut draft = every_kind();
    change(&mut draft);
    fault(&draft.bytes())
}

#[test]
fn letters_and_rows() {
    for at in [0, 1] {
        assert_eq!(changed(|draft| draft.letters[at] = (2, 1)), (16, LETTERS, at));
    }
    let broken = |row| {
        for at in [0, 4, 8] {
            assert_eq!(changed(|draft| draft.rows[at] = row), (16, ROWS, at), "{row:?}");
        }
    };
    for row in [(0, 0, 0), (7, 0, 0), (1, 1, 0), (1, 0, 1), (2, 2, 1), (2, 0, 256), (2, 256, 256)] {
        broken(row);
    }
    for row in [(3, 0, 5), (3, 5, 0), (3, 65_535, 65_535), (4, 9, 0), (4, 0, 9), (5, 9, 0)] {
        broken(row);
    }
    for row in [(5, 0, 9), (6, 9, 0), (6, 0, 1)] {
        broken(row);
    }
    for row in [(2, 0, 255), (3, 4, 0), (3, 0, 4), (4, 8, 0), (5, 0, 8), (6, 0, 0)] {
        assert_eq!(changed(|draft| draft.rows[0] = row), ACCEPTED, "{row:?}");
    }
}

#[test]
fn parts_and_assertions() {
    for part in [(0, 0, 0), (4, 0, 0), (1, 0, 5), (1, 5, 0), (2, 1, 0), (2, 0, 1)] {
        for at in [0, 1, 2] {
            assert_eq!(changed(|draft| draft.parts[at] = part), (16, PARTS, at), "{part:?}");
        }
    }
    assert_eq!(changed(|draft| draft.parts[1] = (3, 65_535, 0)), ACCEPTED);
    assert_eq!(changed(|draft| draft.parts[1] = (3, 0, 65_535)), (17, ASSERTIONS, 1));
    type Fields = ((u8, u8), (u16, u16), (u16, u16));
    let fields: [Fields; 16] = [
        ((0, 0), (0, 0), (0, 0)),
        ((5, 0), (0, 0), (0, 0)),
        ((1, 2), (0, 0), (0, 0)),
        ((1, 0), (3, 1), (0, 0)),
        ((1, 0), (4, 0), (0, 0)),
        ((1, 0), (0, 4), (0, 0)),
        ((1, 0), (0, 0), (9, 0)),
        ((1, 0), (0, 0), (0, 1)),
        ((2, 0), (0, 0), (0, 5)),
        ((2, 0), (0, 0), (5, 0)),
        ((3, 0), (0, 0), (0, 4)),
        ((3, 0), (0, 0), (4, 0)),
        ((3, 0), (65_535, 65_535), (0, 0)),
        ((4, 0), (0, 0), (1, 3)),
        ((4, 1), (0, 0), (4, 0)),
        ((4, 0), (2, 2), (0, 0)),
    ];
    for (kind_and_sign, term, about) in fields {
        let last = changed(|draft| draft.assert(kind_and_sign, term, about));
        assert_eq!(last, (16, ASSERTIONS, 4), "{kind_and_sign:?} {term:?} {about:?}");
        let first = changed(|draft| {
            draft.assert(kind_and_sign, term, about);
            draft.assertions.swap(0, 4);
        });
        assert_eq!(first, (16, ASSERTIONS, 0), "{kind_and_sign:?} {term:?} {about:?}");
    }
    for kind in [3, 4] {
        for run in [(3, 0), (0, 3), (2, 1)] {
            assert_eq!(changed(|draft| draft.assert((kind, 1), (3, 0), run)), ACCEPTED);
        }
    }
}

#[test]
fn zero_fields() {
    let draft = every_kind();
    let sheet = draft.bytes();
    let rows = 2 * draft.letters.len() + draft.text.len();
    let parts = rows + 6 * draft.rows.len();
    let assertions = parts + 6 * draft.parts.len();
    for (at, table, record) in [
        (rows + 1, ROWS, 0),
        (rows + 7, ROWS, 1),
        (parts + 1, PARTS, 0),
        (parts + 13, PARTS, 2),
        (assertions + 10, ASSERTIONS, 0),
        (assertions + 23, ASSERTIONS, 1),
    ] {
        let mut sheet = sheet.clone();
        sheet[at] = 1;
        assert_eq!(fault(&sheet), (16, table, record));
    }
}

/// A row before a part, whatever their numbers, and of two rows the first.
#[test]
fn first_in_table_order() {
    let broken = |row: usize, part: usize| {
        changed(|draft| {
            draft.rows[row].0 = 9;
            draft.parts[part].0 = 9;
        })
    };
    assert_eq!(broken(8, 0), (16, ROWS, 8));
    assert_eq!(broken(0, 2), (16, ROWS, 0));
    let two_rows = changed(|draft| {
        draft.rows[3].0 = 9;
        draft.rows[7].0 = 9;
    });
    assert_eq!(two_rows, (16, ROWS, 3));
}

/// A long term of the last assertion is told only where no record is broken.
#[test]
fn terms_after_records() {
    for kind in [3, 4] {
        let long = |draft: &mut Draft| {
            let long = draft.add_part(3, 0, 61);
            draft.assert((2, 0), (0, 0), (0, 0));
            draft.assert((kind, 0), (0, 0), (long, 1));
            draft.assert((1, 0), (long, 1), (0, 0));
        };
        assert_eq!(changed(long), (17, ASSERTIONS, 5));
        let broken_too = changed(|draft| {
            long(draft);
            draft.assertions[6].sign = 2;
        });
        assert_eq!(broken_too, (16, ASSERTIONS, 6));
    }
}

/// Many sheets with faults in known places: the first is told, by solver and maker alike.
#[test]
fn faults_in_known_places() {
    let sheets = |case| -> Vec<Faulty> {
        let s = &mut Seeded::new(11, case);
        [each_field(s), two_at_once(s), sizes(s)].concat()
    };
    for (sheet, first) in (0..60).flat_map(sheets) {
        let solved = solve(&sheet, 9, &mut [], &mut []);
        assert_eq!((solved.fault(), solved.length, solved.trials), (first, 0, 0), "{sheet:?}");
        let made = make(&sheet, 0, 61, &mut []);
        assert_eq!((made.fault(), made.length), (first, 0), "{sheet:?}");
    }
}

#[test]
fn maker_after_sheet() {
    let sheet = star_of_a().bytes();
    let refused = |sheet: &[u8], row, length, space: usize| {
        let mut list = vec![9; space];
        let made = make(sheet, row, length, &mut list);
        assert!(made.number == 0 || (made.length == 0 && list.iter().all(|&byte| byte == 9)));
        told(made.fault())
    };
    assert_eq!(refused(&sheet[1..], 2, 61, 0), alone(13));
    assert_eq!(refused(&with(&sheet, -18, 257), 2, 61, 0), (14, ROWS, 0));
    assert_eq!(refused(&with(&sheet, -30, 61), 2, 61, 0), alone(141));
    assert_eq!(refused(&with(&sheet, 8, 7), 2, 61, 0), (16, ROWS, 1));
    assert_eq!(refused(&sheet, 2, 61, 0), alone(20));
    assert_eq!(refused(&sheet, 65_537, 2, 200), alone(20));
    assert_eq!(refused(&sheet, 1, 61, 0), alone(21));
    assert_eq!(refused(&sheet, 1, 256, 0), alone(21));
    assert_eq!(refused(&sheet, 1, 2, 107), alone(22));
    assert_eq!(refused(&sheet, 1, 2, 108), ACCEPTED);
}

/// The list of K12.
fn list() -> Vec<u8> {
    let mut list = vec![0; 108];
    make(&star_of_a().bytes(), 1, 2, &mut list);
    list
}

#[test]
fn gate_order() {
    let list = list();
    let answers = |list: &[u8], word: &[u8], work: usize| {
        let mut work = vec![7; work];
        let number = gate(list, &[], word, &mut work);
        let left = if number < 10 { 0 } else { 7 };
        assert!(work.iter().take(WORK).all(|&word| word == left));
        assert!(work.iter().skip(WORK).all(|&word| word == 7));
        number
    };
    assert_eq!(answers(&list[1..], b"a", 0), 30);
    assert_eq!(answers(&list, b"a", 0), 31);
    assert_eq!(answers(&list, b"aa", WORK - 1), 18);
    assert_eq!(answers(&list, b"aa", WORK), 0);
    assert_eq!(answers(&list, b"ab", WORK + 3), 1);
}

#[test]
fn trailer_and_heads_of_a_list() {
    let list = list();
    let refused = |at: usize, value: u8| {
        let mut list = list.clone();
        list[at] = value;
        CutList::check(&list, 0).is_none()
    };
    assert!(!refused(92, 0));
    assert!(refused(92, 2) && refused(94, 0) && refused(94, 1) && refused(95, 1));
    assert!(refused(96, 1) && refused(96, 61) && refused(97, 1) && refused(99, 1));
    assert!(refused(100, 107) && refused(103, 1) && refused(104, b'c'));
    assert!(refused(80, 8) && refused(84, 16) && refused(88, 48));
    assert!(refused(0, 1) && refused(2, 1) && refused(3, 1) && refused(4, 1) && refused(7, 1));
}

#[test]
fn options_of_a_list() {
    // The only option at m = 0, 1 and 2.
    let fits = |at: usize, option: [u8; 8]| {
        let mut list = list();
        list[at..at + 8].copy_from_slice(&option);
        CutList::check(&list, 4).is_some()
    };
    let (zero, one, two) = (16, 32, 72);
    assert!(fits(zero, [4, 0, 0, 0, 0, 0, 0, 0]));
    for option in [[4, 1, 0, 0, 0, 0, 0, 0], [4, 0, 1, 0, 0, 0, 0, 0], [4, 0, 0, 0, 1, 0, 0, 0]] {
        assert!(!fits(zero, option));
    }
    assert!(!fits(zero, [1, 0, 0, 0, 0, 0, 0, 0]) && !fits(zero, [2, 0, 0, 0, 0, 0, 0, 0]));
    assert!(fits(one, [1, 0, 0, 0, 255, 0, 0, 0]) && fits(one, [2, 0, 3, 0, 1, 0, 0, 0]));
    for option in [[1, 1, 0, 0, 0, 0, 0, 0], [1, 0, 1, 0, 0, 0, 0, 0], [1, 0, 0, 0, 0, 1, 0, 0]] {
        assert!(!fits(one, option));
    }
    for option in [[2, 0, 4, 0, 1, 0, 0, 0], [2, 1, 0, 0, 1, 0, 0, 0], [2, 0, 0, 0, 2, 0, 0, 0]] {
        assert!(!fits(one, option));
    }
    assert!(!fits(one, [4, 0, 0, 0, 0, 0, 0, 0]) && !fits(one, [3, 1, 0, 0, 0, 0, 0, 0]));
    assert!(fits(two, [3, 1, 1, 0, 1, 0, 0, 0]) && fits(two, [2, 0, 2, 0, 2, 0, 0, 0]));
    for option in [[3, 0, 0, 0, 0, 0, 0, 0], [3, 2, 0, 0, 0, 0, 0, 0], [3, 1, 2, 0, 0, 0, 0, 0]] {
        assert!(!fits(two, option));
    }
    for option in [[3, 1, 0, 0, 2, 0, 0, 0], [3, 1, 0, 0, 0, 0, 1, 0], [0, 0, 0, 0, 0, 0, 0, 0]] {
        assert!(!fits(two, option));
    }
    assert!(!fits(two, [5, 0, 0, 0, 0, 0, 0, 0]) && !fits(two, [1, 0, 0, 0, 0, 0, 0, 0]));
}
