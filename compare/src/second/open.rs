//! The judgement of one trial: is a prefix open at a length?

use super::derive::{can_read, derives, Place};
use super::edition::CutRule;
use super::sheet::{Assertion, Claim, Part, Run, Sheet};

/// Whether each assertion, taken alone, is possible for words of n bytes with this prefix.
pub fn open(sheet: &Sheet, prefix: &[u8], n: usize) -> bool {
    sheet.assertions.iter().all(|assertion| possible(sheet, assertion, prefix, n))
}

fn possible(sheet: &Sheet, assertion: &Assertion, prefix: &[u8], n: usize) -> bool {
    let terms: Option<Vec<Vec<Place>>> =
        assertion.terms().map(|run| term(sheet, run, prefix, n)).collect();
    let Some(terms) = terms else {
        return false;
    };
    if assertion.denied && terms.concat().contains(&Place::Unknown) {
        return true;
    }
    // With every place known there is one filling, so "can hold" is "holds".
    can_hold(sheet, assertion.claim, &terms) != assertion.denied
}

/// The places of a term, or nothing if a cut reaches past n and may not.
fn term(sheet: &Sheet, run: Run, prefix: &[u8], n: usize) -> Option<Vec<Place>> {
    let mut places = Vec::new();
    let v = |position: usize| prefix.get(position).map_or(Place::Unknown, |&b| Place::Known(b));
    for part in sheet.run(run) {
        match *part {
            Part::Text(stretch) => {
                places.extend(sheet.stretch(stretch).iter().map(|&b| Place::Known(b)));
            }
            Part::Whole => places.extend((0..n).map(v)),
            Part::Cut { position, bytes } => {
                if position + bytes > n && sheet.cut_rule == CutRule::Strict {
                    return None;
                }
                places.extend((position..n.min(position + bytes)).map(v));
            }
        }
    }
    Some(places)
}

/// Whether some filling of the unknown places makes the claim hold.
fn can_hold(sheet: &Sheet, claim: Claim, terms: &[Vec<Place>]) -> bool {
    let term = &terms[0];
    match claim {
        Claim::Derived { row } => derives(sheet, row, term),
        Claim::Contains(stretch) => {
            let text = sheet.stretch(stretch);
            text.is_empty() || term.windows(text.len()).any(|w| can_read(sheet, w, text))
        }
        Claim::Equals(_) => can_equal(sheet, term, &terms[1]),
        Claim::ContainsTerm(_) => {
            let second = &terms[1];
            second.is_empty() || term.windows(second.len()).any(|w| can_equal(sheet, w, second))
        }
    }
}

fn can_equal(sheet: &Sheet, one: &[Place], other: &[Place]) -> bool {
    let agree = |pair: (&Place, &Place)| match pair {
        (&Place::Known(byte), &place) | (&place, &Place::Known(byte)) => place.can_be(byte, sheet),
        // There is always a letter that both can be.
        (Place::Unknown, Place::Unknown) => true,
    };
    one.len() == other.len() && one.iter().zip(other).all(agree)
}
