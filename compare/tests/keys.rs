//! The paper's keys K1 to K12 and the limits listed after them; faulty and everyday sheets.

use compare::draft::Draft;
use compare::keys::{brackets, kept, star_of_a};
use compare::program::answer;
use compare::second::fault::Fault;
use compare::second::gate::gate;
use compare::second::make::{make, Made};
use compare::second::solve::{solve, WORK};

#[test]
fn solver_keys() {
    for key in kept() {
        assert_eq!(answer(&key.draft.bytes(), key.budget), key.line, "{}", key.name);
    }
}

#[test]
fn k4_is_96_bytes() {
    assert_eq!(brackets(4, 4).bytes().len(), 96);
}

#[test]
fn k12() {
    let expected: [&[u8]; 12] = [
        &[0, 0, 0, 0, 0, 0, 0, 0],
        &[1, 0, 0, 0, 1, 0, 0, 0, 4, 0, 0, 0, 0, 0, 0, 0],
        &[0, 0, 1, 0, 1, 0, 0, 0, 1, 0, b'a', 0, b'a', 0, 0, 0],
        &[1, 0, 1, 0, 1, 0, 0, 0, 1, 0, b'a', 0, b'a', 0, 0, 0],
        &[0, 0, 2, 0, 0, 0, 0, 0],
        &[1, 0, 2, 0, 1, 0, 0, 0, 3, 1, 0, 0, 1, 0, 0, 0],
        &[0, 0, 0, 0, 24, 0, 0, 0, 56, 0, 0, 0],
        &[1, 0],
        &[2, 0],
        &[2, 0, 0, 0],
        &[108, 0, 0, 0],
        b"CUT1",
    ];
    let mut list = [9; 110];
    let made = make(&star_of_a().bytes(), 1, 2, &mut list);
    assert_eq!(made, Made::written(108));
    assert_eq!(list[..108], expected.concat());
    assert_eq!(list[108..], [9, 9]);
    let word = |word: &[u8]| gate(&list[..108], &[], word, &mut [7; WORK]);
    assert_eq!([word(b"aa"), word(b"ab"), word(b"a")], [0, 1, 31]);
}

fn one_letter(shortest: u16, longest: u16) -> Draft {
    Draft { letters: vec![(b'a', b'a')], shortest, longest, ..Draft::default() }
}

#[test]
fn longest_length() {
    assert_eq!(
        answer(&one_letter(60, 60).bytes(), 100),
        format!("found 60 61 {}", "61".repeat(60))
    );
    for (shortest, longest) in [(60, 61), (61, 61), (61, 60), (1, 0), (0, 65_535)] {
        assert_eq!(answer(&one_letter(shortest, longest).bytes(), 100), "refused 141");
    }
}

#[test]
fn longest_length_between_count_and_offset() {
    let mut sheet = one_letter(0, 61).bytes();
    let [longest, offset, rows] = [30, 28, 18].map(|from_end| sheet.len() - from_end);
    sheet[offset] = 1;
    assert_eq!(answer(&sheet, 100), "refused 141");
    sheet[rows + 1] = 2;
    assert_eq!(answer(&sheet, 100), "refused 14 2 0");
    sheet[rows + 1] = 0;
    sheet[longest] = 60;
    assert_eq!(answer(&sheet, 100), "refused 15");
}

#[test]
fn longest_term() {
    let term_of = |bytes: u16, kind: u8, second: bool| {
        let mut draft = one_letter(0, 0);
        draft.add_part(3, 0, bytes);
        let (none, long) = ((0, 0), (0, 1));
        let (first, other) = if second { (none, long) } else { (long, none) };
        draft.assert((kind, 1), first, other);
        answer(&draft.bytes(), 100)
    };
    for (kind, second) in [(3, false), (3, true), (4, false), (4, true)] {
        assert_eq!(term_of(60, kind, second), "none 1");
        assert_eq!(term_of(61, kind, second), "refused 17 4 0");
    }
}

/// A term with v in it is as long as at the longest length, whatever the length in hand.
#[test]
fn longest_second_term() {
    let text_and_v = |bytes: usize, kind: u8| {
        let mut draft = one_letter(0, 20);
        let (from, bytes) = draft.add_text(&vec![b'a'; bytes]);
        let term = draft.add_part(1, from, bytes);
        draft.add_part(2, 0, 0);
        draft.assert((kind, 1), (term, 0), (term, 2));
        answer(&draft.bytes(), 100)
    };
    for kind in [3, 4] {
        assert_eq!(text_and_v(40, kind), "found 0 1 -");
        assert_eq!(text_and_v(41, kind), "refused 17 4 0");
    }
}

#[test]
fn workspace_and_output() {
    let answers = |draft: Draft, work: usize, out: usize| {
        solve(&draft.bytes(), 100, &mut vec![7; work], &mut vec![9; out]).fault()
    };
    assert_eq!(answers(one_letter(0, 1), 7_563, 0), Fault::alone(18));
    assert_eq!(answers(one_letter(0, 1), 7_564, 0), Fault::alone(19));
    assert_eq!(answers(one_letter(0, 1), 7_564, 1), Fault::alone(0));
    assert_eq!(answers(one_letter(0, 0), 7_564, 0), Fault::alone(0));
}

#[test]
fn budget_0_is_spent() {
    assert_eq!(answer(&one_letter(0, 0).bytes(), 0), "spent 0");
    assert_eq!(answer(&one_letter(0, 0).bytes(), 1), "found 0 1 -");
}
