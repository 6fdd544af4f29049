//! A term claimed to contain another: worked by hand, against brute force, and against a constant of
//! the same bytes.

use compare::brute;
use compare::count::count;
use compare::draft::Draft;
use compare::gen::alike::{alike, deep_alike};
use compare::gen::contained::contained;
use compare::gen::filters::filters;
use compare::gen::limits::limits;
use compare::gen::small::{run, small, stretch};
use compare::program::answer;
use compare::second::sheet::{Sheet, LENGTH_LIMIT, TABLES};
use compare::second::solve::walk;
use compare::seed::Seeded;

mod terms;

use terms::Part::{self, Cut, Text, V};
use terms::{add_term, over, Words};

/// What is answered where the term is to contain the second one, and where it is not to.
fn answers(words: Words, term: &[Part], second: &[Part]) -> [String; 2] {
    [0, 1].map(|sign| {
        let mut draft = over(words);
        let (term, second) = (add_term(&mut draft, term), add_term(&mut draft, second));
        draft.assert((4, sign), term, second);
        answer(&draft.bytes(), 1_000)
    })
}

const A: u8 = b'a';
const B: u8 = b'b';

#[test]
fn constants() {
    assert_eq!(answers((B, 0, 2), &[V], &[Text(b"b")]), ["found 1 4 62", "found 0 1 -"]);
    assert_eq!(answers((B, 1, 2), &[V], &[Text(b"a")]), ["found 1 2 61", "found 1 3 62"]);
    // No letter is that byte, on either side.
    assert_eq!(answers((A, 0, 2), &[V], &[Text(b"x")]), ["none 3", "found 0 1 -"]);
    assert_eq!(answers((A, 1, 1), &[Text(b"xx")], &[V]), ["none 1", "found 1 2 61"]);
    // The first byte of the second term stands at the first term's second place.
    assert_eq!(answers((B, 2, 2), &[Text(b"xabx")], &[V]), ["found 2 4 6162", "found 2 3 6161"]);
    // Nothing is unknown: the claim holds at once, or not at all.
    let constants: &[Part] = &[Text(b"ab"), Text(b"cd")];
    assert_eq!(answers((A, 1, 1), constants, &[Text(b"bc")]), ["found 1 2 61", "none 1"]);
    assert_eq!(answers((A, 1, 1), constants, &[Text(b"cb")]), ["none 1", "found 1 2 61"]);
}

/// Each unknown place is filled separately, but the whole word stands for itself.
#[test]
fn v_in_both() {
    assert_eq!(answers((B, 0, 2), &[V], &[V]), ["found 0 1 -", "none 11"]);
    assert_eq!(
        answers((B, 3, 3), &[Cut(1, 2)], &[Cut(0, 1)]),
        ["found 3 4 616161", "found 3 8 616262"]
    );
    assert_eq!(answers((B, 1, 1), &[Text(b"ab")], &[V, V]), ["none 3", "found 1 2 61"]);
}

#[test]
fn joined_terms() {
    let around: &[Part] = &[V, Text(b"b"), V];
    assert_eq!(answers((B, 1, 1), around, &[Text(b"ab"), V]), ["found 1 2 61", "found 1 3 62"]);
    assert_eq!(
        answers((B, 1, 1), around, &[Text(b"b"), Text(b"b"), V]),
        ["found 1 3 62", "found 1 2 61"]
    );
}

#[test]
fn second_term_longer() {
    assert_eq!(answers((B, 0, 3), &[V], &[V, Text(b"a")]), ["none 4", "found 0 1 -"]);
    assert_eq!(answers((B, 0, 1), &[], &[Text(b"a")]), ["none 2", "found 0 1 -"]);
    assert_eq!(answers((A, 2, 2), &[Cut(0, 1)], &[V]), ["none 1", "found 2 3 6161"]);
}

#[test]
fn empty_terms() {
    assert_eq!(answers((A, 0, 2), &[], &[]), ["found 0 1 -", "none 3"]);
    assert_eq!(answers((A, 0, 2), &[V], &[]), ["found 0 1 -", "none 6"]);
    assert_eq!(answers((A, 0, 2), &[V], &[Text(b"")]), ["found 0 1 -", "none 6"]);
    // A cut of no bytes, at the end of v and past it.
    assert_eq!(answers((A, 0, 3), &[V], &[Cut(2, 0)]), ["found 2 5 6161", "none 9"]);
    assert_eq!(answers((A, 0, 2), &[V], &[Cut(3, 0)]), ["none 3", "none 3"]);
}

/// Not met, asserted or denied, whichever term has the cut.
#[test]
fn cut_past_the_end() {
    assert_eq!(answers((A, 0, 3), &[Cut(2, 1)], &[Text(b"x")]), ["none 4", "found 3 7 616161"]);
    assert_eq!(answers((A, 0, 3), &[Text(b"x")], &[Cut(2, 1)]), ["none 4", "found 3 7 616161"]);
    assert_eq!(answers((A, 0, 3), &[Text(b"a")], &[Cut(2, 1)]), ["found 3 7 616161", "none 7"]);
    assert_eq!(answers((A, 0, 2), &[Cut(2, 1)], &[]), ["none 3", "none 3"]);
    assert_eq!(answers((A, 0, 2), &[V, Cut(2, 1)], &[V]), ["none 3", "none 3"]);
}

/// The letters that no constant of either term holds are alike, and no walk reaches the count: no
/// word is without the empty term, so all that begin as is claimed are walked.
#[test]
fn alike_letters() {
    let trials = |term: Part, second: Part| {
        let mut draft = over((b'z', 6, 6));
        let v = add_term(&mut draft, &[V]);
        let (term, second) = (add_term(&mut draft, &[term]), add_term(&mut draft, &[second]));
        draft.assert((4, 0), term, second);
        draft.assert((4, 1), v, (0, 0));
        let sheet = Sheet::check(&draft.bytes()).expect("a valid sheet");
        count(&sheet, 2_000).expect("a count in reach").trials
    };
    let below = |places: u32| (1..=places).map(|places| 26_u128.pow(places)).sum::<u128>();
    assert_eq!(trials(Text(b"xy"), Cut(0, 1)), 1 + 26 + 2 * below(5));
    assert_eq!(trials(Cut(0, 2), Text(b"x")), 1 + 26 + 26 * 26 + 51 * below(4));
}

/// Sheets of every sort that has assertions about terms.
fn sheet(s: &mut Seeded) -> Draft {
    match s.below(20) {
        0..=5 => small(s, 2),
        6..=11 => filters(s, 5),
        12..=15 => alike(s),
        16..=18 => contained(s, 5),
        _ => limits(s),
    }
}

/// The sheet with each constant that a term is claimed to contain as a term of its own, and how many
/// there are.
fn with_terms_for_constants(draft: &Draft) -> (Draft, usize) {
    let mut changed = draft.clone();
    let mut count = 0;
    for i in 0..changed.assertions.len() {
        let statement = changed.assertions[i];
        let short = statement.b as usize <= LENGTH_LIMIT;
        if statement.kind == 2 && short && changed.parts.len() < TABLES[3].most {
            let part = changed.add_part(1, statement.a, statement.b);
            let statement = &mut changed.assertions[i];
            (statement.kind, statement.a, statement.b) = (4, part, 1);
            count += 1;
        }
    }
    (changed, count)
}

/// One more constant, about v or about any term.
fn add_constant(s: &mut Seeded, draft: &mut Draft) {
    let v = draft.parts.iter().position(|part| part.0 == 2);
    let term = match v {
        Some(v) if s.once_in(2) => (v as u16, 1),
        _ => run(s, draft, 2),
    };
    let text = stretch(s, draft.text.len(), 2);
    draft.assert((2, s.below(2) as u8), term, text);
}

/// The same answer, word and trials, where the budget suffices and where it does not.
#[test]
fn constant_as_a_term() {
    let mut agreed = 0;
    for case in 0..1_000 {
        let s = &mut Seeded::new(13, case);
        let mut draft = sheet(s);
        if draft.assertions.len() < TABLES[4].most {
            add_constant(s, &mut draft);
        }
        let (changed, count) = with_terms_for_constants(&draft);
        for budget in [20, 1_000] {
            assert_eq!(
                answer(&draft.bytes(), budget),
                answer(&changed.bytes(), budget),
                "case {case}"
            );
        }
        agreed += count;
    }
    assert!(agreed > 1_000, "{agreed}");
}

/// The same where letters are alike.
#[test]
fn constant_as_a_term_counted() {
    let counted = |draft: &Draft| {
        let sheet = Sheet::check(&draft.bytes()).expect("a valid sheet");
        count(&sheet, 500).map(|counted| (counted.trials, counted.found))
    };
    let mut agreed = 0;
    for case in 0..200 {
        let s = &mut Seeded::new(13, case);
        let mut draft = deep_alike(s);
        let text = stretch(s, draft.text.len(), 2);
        draft.assert((2, s.below(2) as u8), (0, 1), text);
        let (changed, count) = with_terms_for_constants(&draft);
        let (one, other) = (counted(&draft), counted(&changed));
        assert_eq!(one, other, "case {case}");
        agreed += if one.is_some() { count } else { 0 };
    }
    assert!(agreed > 100, "{agreed}");
}

/// A constant of any length can be one; a term cannot be longer than 60 bytes.
#[test]
fn longest_constant() {
    let of_bytes = |bytes: usize| {
        let mut draft = over((A, 60, 60));
        let v = draft.add_part(2, 0, 0);
        let text = draft.add_text(&vec![b'a'; bytes]);
        draft.assert((2, 0), (v, 1), text);
        let (changed, _) = with_terms_for_constants(&draft);
        let part = draft.add_part(1, text.0, text.1);
        draft.assert((4, 0), (v, 1), (part, 1));
        [answer(&changed.bytes(), 100), answer(&draft.bytes(), 100)]
    };
    let found = format!("found 60 61 {}", "61".repeat(60));
    assert_eq!(of_bytes(60), [&found[..], &found]);
    assert_eq!(of_bytes(61), ["none 1", "refused 17 4 1"]);
}

/// Every word and every filling tried, on sheets of nothing else.
#[test]
fn brute_force() {
    let (mut words, mut walks) = ([0, 0], 0);
    for case in 0..10_000 {
        let sheet = contained(&mut Seeded::new(17, case), 4).bytes();
        let sheet = Sheet::check(&sheet).expect("a valid sheet");
        let walked = walk(&sheet, 5_000).expect("a short walk");
        assert_eq!(walked.found, brute::first_word(&sheet), "case {case}");
        words[walked.found.is_some() as usize] += 1;
        if let Some(brute) = brute::walk(&sheet, 300, 256) {
            assert_eq!(walked, brute, "case {case}");
            walks += 1;
        }
    }
    assert!(words[0] > 2_000 && words[1] > 2_000 && walks > 5_000, "{words:?} {walks}");
}
