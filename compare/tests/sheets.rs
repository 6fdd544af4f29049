//! The known answers of the everyday sheets, and the keys as they are kept.

use std::fs;
use std::path::PathBuf;

use compare::count::count;
use compare::everyday;
use compare::keys::{kept, BUDGET};
use compare::program::answer;
use compare::second::gate::gate;
use compare::second::sheet::{read_u16, Sheet, TABLES};
use compare::second::solve::WORK;

fn file(name: &str) -> Vec<u8> {
    let folder = PathBuf::from(env!("CARGO_MANIFEST_DIR")).join("../sheets");
    fs::read(folder.join(name)).expect("a file of the folder")
}

fn sheet(name: &str) -> Vec<u8> {
    file(&format!("{name}.sheet"))
}

/// The lines that the proved program is held to.
#[test]
fn answers() {
    let lines = String::from_utf8(file("answers")).expect("text");
    assert!(lines.lines().count() > 20);
    for line in lines.lines() {
        let (name, line) = line.split_once(' ').expect("a name and a line");
        assert_eq!(answer(&sheet(name), BUDGET), line, "{name}");
    }
}

/// More trials than any plain walk can reach.
#[test]
fn ten_digits() {
    for name in ["digits10-none", "digits10-none-back"] {
        let sheet = Sheet::check(&sheet(name)).expect("an accepted sheet");
        let counted = count(&sheet, 2_000).expect("a count in reach");
        assert_eq!((counted.trials, counted.found), (41_111_111_232, None), "{name}");
    }
}

/// The filter that maker and gate are measured on.
#[test]
fn everyday_filter() {
    let (draft, _) = everyday::filter();
    assert_eq!(draft.rows.len(), 32);
    let says = |word: &[u8]| gate(&everyday::list(), &draft.text, word, &mut [0; WORK]);
    assert_eq!(says(everyday::KEY), 0);
    assert_eq!(says(b"LDN_AB12-C3D4-E5F6-7"), 1);
}

/// The question asked the other way: the same sheet with every sign turned.
#[test]
fn asked_back() {
    for name in ["digits10-none", "list8-found"] {
        let mut turned = sheet(name);
        let end = turned.len();
        let (offset, count) = (read_u16(&turned, end - 12), read_u16(&turned, end - 10));
        for record in turned[offset..].chunks_mut(TABLES[4].record).take(count) {
            record[1] ^= 1;
        }
        assert_eq!(sheet(&format!("{name}-back")), turned, "{name}");
    }
}

#[test]
fn kept_keys() {
    for key in kept() {
        assert_eq!(sheet(key.name), key.draft.bytes(), "{}", key.name);
    }
}
