//! Cuts at the end of v and past it, under both cut rules: worked by hand, against brute force, and
//! each rule against the other.

use compare::brute;
use compare::count::count;
use compare::draft::{CUT_RULE_0, CUT_RULE_1};
use compare::gen::alike::alike;
use compare::gen::cuts::cuts;
use compare::program::answer;
use compare::second::edition::CutRule;
use compare::second::open::open;
use compare::second::sheet::{Assertion, Part as SheetPart, Sheet};
use compare::second::solve::walk;
use compare::seed::Seeded;

mod terms;

use terms::Part::{self, Cut, Text, V};
use terms::{add_term, over, Words};

enum Claim {
    /// Any number of that byte.
    StarOf(u8),
    Contains(&'static [u8]),
    Equals(&'static [Part]),
    ContainsTerm(&'static [Part]),
}

use Claim::{Contains, ContainsTerm, Equals, StarOf};

/// What is answered under cut rule 0 and under rule 1: where the claim is asserted, and where it is
/// denied.
fn answers(words: Words, term: &[Part], claim: Claim) -> [[String; 2]; 2] {
    [CUT_RULE_0, CUT_RULE_1].map(|new_bytes| {
        [0, 1].map(|sign| {
            let mut draft = over(words).with_new_bytes(new_bytes);
            let term = add_term(&mut draft, term);
            let (kind, about) = match claim {
                StarOf(byte) => {
                    let byte = draft.add_row(2, byte.into(), byte.into());
                    (1, (draft.add_row(6, byte, 0), 0))
                }
                Contains(text) => (2, draft.add_text(text)),
                Equals(second) => (3, add_term(&mut draft, second)),
                ContainsTerm(second) => (4, add_term(&mut draft, second)),
            };
            draft.assert((kind, sign), term, about);
            answer(&draft.bytes(), 1_000)
        })
    })
}

const A: u8 = b'a';
const B: u8 = b'b';

/// K8 and its other sign. A word of no bytes has no third byte, so that is not `x`.
#[test]
fn from_past_the_end() {
    assert_eq!(
        answers((A, 0, 3), &[Cut(2, 1)], Equals(&[Text(b"x")])),
        [["none 4", "found 3 7 616161"], ["none 4", "found 0 1 -"]]
    );
}

/// Two bytes from the second are `a` in a word of two bytes, where one is left of them.
#[test]
fn over_the_end() {
    assert_eq!(
        answers((B, 0, 3), &[Cut(1, 2)], Equals(&[Text(b"a")])),
        [["none 4", "found 3 7 616161"], ["found 2 5 6161", "found 0 1 -"]]
    );
}

/// A cut that ends where v does is the same under both rules.
#[test]
fn up_to_the_end() {
    let claim = || Equals(&[Text(b"ab")]);
    assert_eq!(
        answers((B, 3, 3), &[Cut(1, 2)], claim()),
        [["found 3 5 616162", "found 3 4 616161"]; 2]
    );
    assert_eq!(
        answers((B, 0, 3), &[Cut(1, 2)], claim()),
        [["found 3 8 616162", "found 3 7 616161"], ["found 3 8 616162", "found 0 1 -"]]
    );
}

/// A cut of no bytes, at the end of v and past it.
#[test]
fn no_bytes() {
    assert_eq!(
        answers((A, 0, 3), &[V], ContainsTerm(&[Cut(2, 0)])),
        [["found 2 5 6161", "none 9"], ["found 0 1 -", "none 10"]]
    );
    assert_eq!(
        answers((A, 0, 2), &[V], ContainsTerm(&[Cut(3, 0)])),
        [["none 3", "none 3"], ["found 0 1 -", "none 6"]]
    );
}

/// Nothing is unknown in a cut that begins past the end, so a claim about it is judged at once.
#[test]
fn far_past_the_end() {
    assert_eq!(
        answers((A, 0, 2), &[Cut(65_535, 60)], Equals(&[])),
        [["none 3", "none 3"], ["found 0 1 -", "none 3"]]
    );
    assert_eq!(
        answers((B, 0, 2), &[V], Equals(&[Cut(0, 60)])),
        [["none 3", "none 3"], ["found 0 1 -", "none 11"]]
    );
}

#[test]
fn derived() {
    assert_eq!(
        answers((B, 1, 3), &[Cut(1, 2)], StarOf(B)),
        [["found 3 8 616262", "found 3 6 616161"], ["found 1 2 61", "found 2 4 6161"]]
    );
}

#[test]
fn contained() {
    assert_eq!(
        answers((B, 0, 2), &[Cut(1, 3)], Contains(b"b")),
        [["none 3", "none 3"], ["found 2 6 6162", "found 0 1 -"]]
    );
    assert_eq!(
        answers((B, 2, 2), &[Text(b"xab")], ContainsTerm(&[Cut(1, 2)])),
        [["none 1", "none 1"], ["found 2 3 6161", "none 7"]]
    );
}

#[test]
fn joined() {
    assert_eq!(
        answers((B, 0, 4), &[Cut(0, 2), Text(b"-"), Cut(2, 2)], Equals(&[Text(b"ab-a")])),
        [["none 5", "found 4 9 61616161"], ["found 3 8 616261", "found 0 1 -"]]
    );
}

/// A term counts each cut's full bytes, whatever the rule leaves of them.
#[test]
fn longest_term() {
    let lengths = |bytes: u16| answers((A, 0, 0), &[Cut(7, bytes)], Equals(&[]));
    assert_eq!(lengths(60), [["none 1", "none 1"], ["found 0 1 -", "none 1"]]);
    assert_eq!(lengths(61), [["refused 17 4 0"; 2]; 2]);
}

/// Letters that the constant does not hold are alike, and no walk reaches the count: no word is
/// without the empty term, so all that end as is claimed are walked.
#[test]
fn alike_letters() {
    let trials = |new_bytes: [u8; 4]| {
        let mut draft = over((b'z', 6, 6)).with_new_bytes(new_bytes);
        let (cut, v) = (add_term(&mut draft, &[Cut(4, 9)]), add_term(&mut draft, &[V]));
        let constant = add_term(&mut draft, &[Text(b"xx")]);
        draft.assert((3, 0), cut, constant);
        draft.assert((4, 1), v, (0, 0));
        let sheet = Sheet::check(&draft.bytes()).expect("a valid sheet");
        count(&sheet, 2_000).expect("a count in reach").trials
    };
    assert_eq!(trials(CUT_RULE_0), 1);
    let prefixes: u128 = (0..=5).map(|places| 26_u128.pow(places)).sum();
    assert_eq!(trials(CUT_RULE_1), prefixes + 26_u128.pow(5));
}

/// The count of alike letters is that of the walk, where a walk can reach it.
#[test]
fn counted() {
    let (mut agreed, mut passed) = (0, 0);
    for case in 0..300 {
        let draft = alike(&mut Seeded::new(37, case)).with_new_bytes(CUT_RULE_1);
        let sheet = Sheet::check(&draft.bytes()).expect("accepted");
        let (Some(walked), Some(counted)) = (walk(&sheet, 4_000), count(&sheet, 4_000)) else {
            continue;
        };
        assert_eq!(counted.trials, u128::from(walked.trials), "case {case}");
        assert_eq!(counted.found, walked.found, "case {case}");
        agreed += 1;
        passed += counted.passed.len();
    }
    assert!(agreed > 200 && passed > 1_000, "{agreed} {passed}");
}

/// Every word and every filling tried, on sheets of nothing else.
#[test]
fn brute_force() {
    let (mut words, mut walks) = ([0, 0], 0);
    for case in 0..10_000 {
        let sheet = Sheet::check(&cuts(&mut Seeded::new(17, case), 3).bytes()).expect("accepted");
        let walked = walk(&sheet, 5_000).expect("a short walk");
        assert_eq!(walked.found, brute::first_word(&sheet), "case {case}");
        words[walked.found.is_some() as usize] += 1;
        if let Some(brute) = brute::walk(&sheet, 300, 256) {
            assert_eq!(walked, brute, "case {case}");
            walks += 1;
        }
    }
    assert!(words[0] > 2_000 && words[1] > 2_000 && walks > 5_000, "{words:?} {walks}");
}

/// The last place that a cut of the assertion's terms asks for.
fn reach(sheet: &Sheet, assertion: &Assertion) -> usize {
    let end = |part: &SheetPart| match *part {
        SheetPart::Cut { position, bytes } => position + bytes,
        _ => 0,
    };
    assertion.terms().flat_map(|run| sheet.run(run)).map(end).max().unwrap_or(0)
}

/// Under rule 1 every word meets an assertion or its denial. Under rule 0 it meets neither exactly
/// where a cut reaches past the end.
#[test]
fn no_cut_fails_by_itself() {
    let mut past = 0;
    for case in 0..2_000 {
        let sheet = Sheet::check(&cuts(&mut Seeded::new(19, case), 3).bytes()).expect("accepted");
        for assertion in &sheet.assertions {
            let met = |cut_rule: CutRule, word: &[u8]| {
                [false, true].map(|denied| {
                    let assertions = vec![Assertion { denied, ..*assertion }];
                    open(&Sheet { assertions, cut_rule, ..sheet.clone() }, word, word.len())
                })
            };
            for word in (0..=sheet.longest).flat_map(|n| brute::words(&sheet.letters, n)) {
                let shortened = met(CutRule::Shortened, &word);
                assert_ne!(shortened[0], shortened[1], "case {case}");
                let is_past = reach(&sheet, assertion) > word.len();
                let strict = if is_past { [false; 2] } else { shortened };
                assert_eq!(met(CutRule::Strict, &word), strict, "case {case}");
                past += is_past as usize;
            }
        }
    }
    assert!(past > 10_000, "{past}");
}

/// Where every cut ends within the shortest word, the rules answer alike.
#[test]
fn rules_agree_within() {
    let mut agreed = 0;
    for case in 0..2_000 {
        let draft = cuts(&mut Seeded::new(23, case), 4);
        let sheet = Sheet::check(&draft.bytes()).expect("accepted");
        if sheet.assertions.iter().all(|assertion| reach(&sheet, assertion) <= sheet.shortest) {
            let [one, other] = [CUT_RULE_0, CUT_RULE_1].map(|rule| draft.with_new_bytes(rule));
            assert_eq!(answer(&one.bytes(), 1_000), answer(&other.bytes(), 1_000), "case {case}");
            agreed += 1;
        }
    }
    assert!(agreed > 100, "{agreed}");
}
