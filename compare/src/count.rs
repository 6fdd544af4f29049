//! The walk's answer where it is too long for any walk.
//!
//! What can still come of a prefix depends on no more than what its bytes have shown: at each place,
//! where the stretches begin that a row derives up to there, where a text has begun to stand, and
//! where the byte agrees with a constant.
//! That is worked out behind every letter by deriving, and letters that show the same have equal
//! counts below them: one of them is walked, and its count is taken for the others. Assertions over
//! joined terms and over v on both sides show the byte itself, so there each letter is walked.
//!
//! Letters that some range or the text tells apart are walked apart even where nothing comes of it.
//! That is never wrong, and the library, which is asked for the same count, can reach it too.

use std::collections::HashMap;

use crate::second::open::open;
use crate::second::sheet::{Assertion, Claim, Part, Row, Run, Sheet, Stretch};

/// A whole walk whose count may be past every budget.
#[derive(Clone, PartialEq, Eq, Debug)]
pub struct Counted {
    /// Held at the largest number when it would be above it.
    pub trials: u128,
    pub found: Option<Vec<u8>>,
    /// The first subtrees that were passed over.
    pub passed: Vec<Passed>,
}

/// The prefixes that begin with a letter that shows what an earlier one did, after the same prefix.
#[derive(Clone, Copy, PartialEq, Eq, Debug)]
pub struct Passed {
    /// The walk's trials before them.
    pub before: u128,
    /// Their trials.
    pub trials: u128,
}

/// So many subtrees are kept.
const KEPT: usize = 1_000;

/// The whole walk, or nothing if more than `limit` prefixes would have to be judged.
pub fn count(sheet: &Sheet, limit: u64) -> Option<Counted> {
    let shown = Shown::new(sheet);
    let mut walk = Count {
        sheet,
        shown,
        left: limit,
        prefix: vec![],
        path: vec![0],
        trials: 0,
        passed: vec![],
    };
    for n in sheet.shortest..=sheet.longest {
        if walk.visit(n)? {
            let found = Some(walk.prefix);
            return Some(Counted { trials: walk.trials, found, passed: walk.passed });
        }
    }
    Some(Counted { trials: walk.trials, found: None, passed: walk.passed })
}

struct Count<'a> {
    sheet: &'a Sheet,
    shown: Shown<'a>,
    left: u64,
    prefix: Vec<u8>,
    /// The nodes of the prefix's places, that of the empty one first.
    path: Vec<usize>,
    trials: u128,
    passed: Vec<Passed>,
}

impl Count<'_> {
    /// Walks the prefix in hand and its extensions; whether a word was found.
    fn visit(&mut self, n: usize) -> Option<bool> {
        self.left = self.left.checked_sub(1)?;
        self.trials = self.trials.saturating_add(1);
        if !open(self.sheet, &self.prefix, n) {
            return Some(false);
        }
        if self.prefix.len() == n {
            return Some(true);
        }
        let mut counts: HashMap<usize, u128> = HashMap::new();
        for (i, node) in self.shown.children(&self.path).into_iter().enumerate() {
            if let Some(&trials) = counts.get(&node) {
                self.pass_over(trials);
                continue;
            }
            let before = self.trials;
            self.prefix.push(self.sheet.letters[i]);
            self.path.push(node);
            if self.visit(n)? {
                return Some(true);
            }
            self.prefix.pop();
            self.path.pop();
            counts.insert(node, self.trials - before);
        }
        Some(false)
    }

    /// Adds the trials of prefixes that need not be judged.
    fn pass_over(&mut self, trials: u128) {
        if self.passed.len() < KEPT {
            self.passed.push(Passed { before: self.trials, trials });
        }
        self.trials = self.trials.saturating_add(trials);
    }
}

/// What prefixes have shown, as a tree: two prefixes share a node when all their places showed the
/// same. It holds at every length, as v stands alone or against constants in what it follows.
struct Shown<'a> {
    sheet: &'a Sheet,
    /// The rows that some claim on v leads to.
    rows: Vec<usize>,
    /// The place of each of them in that list, by the row's number.
    slots: Vec<Option<usize>>,
    /// The texts of those rows, and those that v, or a cut of it, is claimed to contain.
    texts: Vec<Vec<u8>>,
    /// The constants that stretches of v are compared with.
    constants: Vec<Constant>,
    /// Whether each byte counts as it stands.
    whole: bool,
    /// For each letter, the number of the first one that ranges and text do not tell from it.
    looks: Vec<usize>,
    nodes: Vec<Node>,
}

/// A constant that a stretch of v is claimed to equal, or to be contained in.
struct Constant {
    /// Where the stretch begins in v.
    start: usize,
    bytes: Vec<u8>,
    /// The last of the places in it where the stretch may stand.
    last: usize,
}

impl Constant {
    /// The places from which the stretch agrees with it in this byte, one bit each.
    fn agreed(&self, position: usize, byte: u8) -> u64 {
        let Some(at) = position.checked_sub(self.start) else { return 0 };
        (0..=self.last).filter(|from| self.bytes.get(from + at) == Some(&byte)).fold(0, with)
    }
}

#[derive(Default)]
struct Node {
    /// For each row, the starts of the stretches that it derives up to this place, one bit each.
    derived: Vec<u64>,
    /// For each text, the starts from which the bytes up to this place are its first ones.
    begun: Vec<u64>,
    /// For each constant, where the byte before this place agrees with it.
    agreed: Vec<u64>,
    /// The byte itself where it counts as it stands, and what it looks like.
    byte: (Option<u8>, usize),
    /// The node behind each letter, once asked for.
    children: Vec<usize>,
}

impl<'a> Shown<'a> {
    fn new(sheet: &'a Sheet) -> Shown<'a> {
        let mut shown = Shown {
            sheet,
            rows: vec![],
            slots: vec![None; sheet.rows.len()],
            texts: vec![],
            constants: vec![],
            whole: false,
            looks: looks(sheet),
            nodes: vec![],
        };
        sheet.assertions.iter().for_each(|assertion| shown.follow(assertion));
        let begun = vec![1; shown.texts.len()];
        let mut empty = Node { begun, ..Node::default() };
        shown.derive(&[], None, &mut empty);
        shown.nodes.push(empty);
        shown
    }

    fn follow(&mut self, assertion: &Assertion) {
        let has_v = |run: Run| self.sheet.run(run).iter().any(|p| !matches!(p, Part::Text(_)));
        if !assertion.terms().any(has_v) {
            return;
        }
        let term = assertion.term;
        let alone = self.sheet.run(term) == [Part::Whole];
        match assertion.claim {
            Claim::Derived { row } if alone => self.follow_row(row),
            Claim::Contains(stretch) if self.start(term).is_some() => self.follow_text(stretch),
            Claim::Equals(second) => match (self.start(term), self.constant(second)) {
                (Some(start), Some(bytes)) => {
                    self.constants.push(Constant { start, bytes, last: 0 });
                }
                _ => self.whole = true,
            },
            Claim::ContainsTerm(second) => self.follow_contained(term, second),
            Claim::Derived { .. } | Claim::Contains(_) => self.whole = true,
        }
    }

    fn follow_contained(&mut self, term: Run, second: Run) {
        if let (Some(_), Some(bytes)) = (self.start(term), self.constant(second)) {
            self.texts.push(bytes);
        } else if let (Some(bytes), Some(start)) = (self.constant(term), self.start(second)) {
            let last = bytes.len();
            self.constants.push(Constant { start, bytes, last });
        } else {
            self.whole = true;
        }
    }

    fn follow_text(&mut self, stretch: Stretch) {
        self.texts.push(self.sheet.stretch(stretch).to_vec());
    }

    fn follow_row(&mut self, row: usize) {
        if self.slots[row].is_some() {
            return;
        }
        self.slots[row] = Some(self.rows.len());
        self.rows.push(row);
        match self.sheet.rows[row] {
            Row::Or(a, b) | Row::Then(a, b) => {
                self.follow_row(a);
                self.follow_row(b);
            }
            Row::Star(a) => self.follow_row(a),
            Row::Text(stretch) => self.follow_text(stretch),
            Row::Empty | Row::Byte { .. } => {}
        }
    }

    /// Where the stretch of v begins that the term is.
    fn start(&self, term: Run) -> Option<usize> {
        match self.sheet.run(term) {
            [Part::Whole] => Some(0),
            [Part::Cut { position, .. }] => Some(*position),
            _ => None,
        }
    }

    /// The bytes that the term is at every length.
    fn constant(&self, term: Run) -> Option<Vec<u8>> {
        let mut bytes = Vec::new();
        for part in self.sheet.run(term) {
            let Part::Text(stretch) = part else { return None };
            bytes.extend(self.sheet.stretch(*stretch));
        }
        Some(bytes)
    }

    /// The node behind each letter after the path's prefix.
    fn children(&mut self, path: &[usize]) -> Vec<usize> {
        let last = path[path.len() - 1];
        if self.nodes[last].children.is_empty() {
            let first = self.nodes.len();
            let mut children = Vec::new();
            for (&letter, &looks) in self.sheet.letters.iter().zip(&self.looks) {
                let node = self.node(path, letter, looks);
                let same = |other: &Node| {
                    node.derived == other.derived
                        && node.begun == other.begun
                        && node.agreed == other.agreed
                        && node.byte == other.byte
                };
                let known = self.nodes[first..].iter().position(same);
                children.push(first + known.unwrap_or(self.nodes.len() - first));
                if known.is_none() {
                    self.nodes.push(node);
                }
            }
            self.nodes[last].children = children;
        }
        self.nodes[last].children.clone()
    }

    fn node(&self, path: &[usize], letter: u8, looks: usize) -> Node {
        let end = path.len();
        let before = &self.nodes[path[end - 1]];
        let stands = |text: &[u8], starts: u64| {
            bits(starts).filter(|start| text.get(end - 1 - start) == Some(&letter)).fold(0, with)
        };
        let begun = self.texts.iter().zip(&before.begun);
        let begun = begun.map(|(text, &starts)| with(stands(text, starts), end)).collect();
        let agreed = self.constants.iter().map(|c| c.agreed(end - 1, letter)).collect();
        let byte = (self.whole.then_some(letter), looks);
        let mut node = Node { begun, agreed, byte, ..Node::default() };
        self.derive(path, Some(letter), &mut node);
        node
    }

    /// The starts of each row, from no knowledge until nothing is new.
    fn derive(&self, path: &[usize], letter: Option<u8>, node: &mut Node) {
        let end = path.len();
        let at = |row: usize| self.slots[row].expect("a child of a row that is followed");
        node.derived = vec![0; self.rows.len()];
        loop {
            let mut grown = false;
            for (i, &row) in self.rows.iter().enumerate() {
                // Starts of the first row, up to a start of the second one.
                let join = |first: usize, second: usize| {
                    bits(node.derived[at(second)]).fold(0, |starts, middle| {
                        let before = path.get(middle).map(|&n| &self.nodes[n].derived);
                        starts | before.unwrap_or(&node.derived)[at(first)]
                    })
                };
                let starts = match self.sheet.rows[row] {
                    Row::Empty => with(0, end),
                    Row::Byte { low, high } => {
                        let lies = letter.is_some_and(|letter| low <= letter && letter <= high);
                        if lies {
                            with(0, end - 1)
                        } else {
                            0
                        }
                    }
                    Row::Text(stretch) => {
                        let text = self.sheet.stretch(stretch);
                        let text = self.texts.iter().position(|followed| followed == text);
                        let begun = node.begun[text.expect("followed")];
                        end.checked_sub(stretch.bytes).map_or(0, |start| begun & with(0, start))
                    }
                    Row::Or(a, b) => node.derived[at(a)] | node.derived[at(b)],
                    Row::Then(a, b) => join(a, b),
                    Row::Star(a) => with(join(row, a), end),
                };
                grown |= starts | node.derived[i] != node.derived[i];
                node.derived[i] |= starts;
            }
            if !grown {
                return;
            }
        }
    }
}

fn looks(sheet: &Sheet) -> Vec<usize> {
    let look = |&letter: &u8| {
        let holds =
            |row: &Row| matches!(*row, Row::Byte { low, high } if low <= letter && letter <= high);
        let held: Vec<bool> = sheet.rows.iter().map(holds).collect();
        (held, sheet.text.contains(&letter).then_some(letter))
    };
    let looks: Vec<_> = sheet.letters.iter().map(look).collect();
    let first = |look| looks.iter().position(|other| other == look).expect("its own, if no other");
    looks.iter().map(first).collect()
}

/// A set with one bit more: a prefix has at most 60 bytes.
fn with(set: u64, bit: usize) -> u64 {
    set | 1 << bit
}

fn bits(mut set: u64) -> impl Iterator<Item = usize> {
    std::iter::from_fn(move || {
        let bit = (set != 0).then(|| set.trailing_zeros() as usize)?;
        set &= set - 1;
        Some(bit)
    })
}
