//! Cut lists that no maker wrote, damaged lists, and words to try at them.

use crate::second::gate::{Choice, CutList, LIST_MARK};
use crate::seed::Seeded;

/// A well-formed list with chance options, and its text.
pub fn foreign(s: &mut Seeded) -> (Vec<u8>, Vec<u8>) {
    let (rows, n, most) = match s.below(40) {
        0 => (256, 60, 1),
        1 => (256, s.between(0, 3), 3),
        2 => (s.between(1, 4), 60, 4),
        _ => (s.between(1, 6), s.between(0, 6), 4),
    };
    chance_list(s, rows, n, most)
}

/// A list that is well formed but for its row count or its n, and its text.
pub fn past_limits(s: &mut Seeded) -> (Vec<u8>, Vec<u8>) {
    let (rows, n) = s.pick(&[(257, 0), (257, 2), (300, 1), (1, 61), (2, 61), (1, 63), (1, 255)]);
    chance_list(s, rows, n, 2)
}

fn chance_list(s: &mut Seeded, rows: usize, n: usize, most: usize) -> (Vec<u8>, Vec<u8>) {
    let text: Vec<u8> = (0..s.between(0, 10)).map(|_| s.pick(b"abc")).collect();
    let mut groups = Vec::new();
    for m in 0..=n {
        let mut heads = Vec::new();
        for _ in 0..rows {
            let count = s.between(0, most);
            heads.push((0..count).filter_map(|_| choice(s, m, rows, text.len())).collect());
        }
        groups.push(heads);
    }
    (write(&CutList { root: s.below(rows), n, groups }), text)
}

/// An option that obeys its rule at m; nothing where the kind drawn has none.
fn choice(s: &mut Seeded, m: usize, rows: usize, text: usize) -> Option<Choice> {
    if m == 0 {
        return Some(Choice::Empty);
    }
    match s.below(4) {
        0 if m == 1 => {
            let low = s.pick(b"abc\0\xff");
            let high = low.saturating_add(s.below(3) as u8);
            Some(Choice::Byte { low, high })
        }
        1 if m <= text => Some(Choice::Text { from: s.below(text - m + 1) }),
        _ if m >= 2 => {
            Some(Choice::Cut { k: s.between(1, m - 1), a: s.below(rows), b: s.below(rows) })
        }
        _ => None,
    }
}

/// The bytes of a list.
pub fn write(list: &CutList) -> Vec<u8> {
    let mut bytes = Vec::new();
    let mut offsets = Vec::new();
    for (m, heads) in list.groups.iter().enumerate() {
        offsets.push(bytes.len() as u32);
        for (row, options) in heads.iter().enumerate() {
            bytes.extend((row as u16).to_le_bytes());
            bytes.extend([m as u8, 0]);
            bytes.extend((options.len() as u32).to_le_bytes());
            options.iter().for_each(|&choice| write_choice(&mut bytes, choice, m));
        }
    }
    offsets.iter().for_each(|offset| bytes.extend(offset.to_le_bytes()));
    bytes.extend((list.root as u16).to_le_bytes());
    bytes.extend((list.groups[0].len() as u16).to_le_bytes());
    bytes.extend([list.n as u8, 0, 0, 0]);
    let total = bytes.len() as u32 + 8;
    bytes.extend(total.to_le_bytes());
    bytes.extend(LIST_MARK);
    bytes
}

fn write_choice(bytes: &mut Vec<u8>, choice: Choice, m: usize) {
    let (kind, k, a, b) = match choice {
        Choice::Byte { low, high } => (1, 0, low as usize, high as usize),
        Choice::Text { from } => (2, 0, from, m),
        Choice::Cut { k, a, b } => (3, k, a, b),
        Choice::Empty => (4, 0, 0, 0),
    };
    bytes.extend([kind, k as u8]);
    bytes.extend((a as u16).to_le_bytes());
    bytes.extend((b as u16).to_le_bytes());
    bytes.extend([0, 0]);
}

/// A word of the list's length: read off the options, so that many are accepted.
pub fn likely_word(s: &mut Seeded, list: &CutList, text: &[u8]) -> Vec<u8> {
    let mut word = Vec::new();
    read_off(s, list, (list.root, list.n), text, &mut word);
    word
}

fn read_off(
    s: &mut Seeded,
    list: &CutList,
    (row, m): (usize, usize),
    text: &[u8],
    word: &mut Vec<u8>,
) {
    let options = &list.groups[m][row];
    if options.is_empty() {
        word.extend((0..m).map(|_| s.pick(b"abcx")));
        return;
    }
    match s.pick(options) {
        Choice::Byte { low, high } => word.push(s.between(low as usize, high as usize) as u8),
        Choice::Text { from } => word.extend(&text[from..from + m]),
        Choice::Cut { k, a, b } => {
            read_off(s, list, (a, k), text, word);
            read_off(s, list, (b, m - k), text, word);
        }
        Choice::Empty => {}
    }
}

/// The list cut, grown, or with a field of its trailer changed.
pub fn damaged(s: &mut Seeded, list: &[u8]) -> Vec<u8> {
    let mut list = list.to_vec();
    match s.below(8) {
        0 => list.truncate(s.below(list.len())),
        1 => {
            let at = s.below(list.len() / 4) * 4;
            list.drain(at..(at + s.pick(&[4, 8, 16])).min(list.len()));
            restore_total(&mut list);
        }
        2 => {
            let at = s.below(list.len() / 8 + 1) * 8;
            let record = list[at..(at + 8).min(list.len())].to_vec();
            list.splice(at..at, record);
            restore_total(&mut list);
        }
        3 => list.extend([0; 8]),
        4 => list.splice(0..0, [0; 8]).for_each(drop),
        5 => list.clear(),
        _ => change_trailer(s, &mut list),
    }
    list
}

fn restore_total(list: &mut [u8]) {
    if let Some(at) = list.len().checked_sub(8) {
        let total = list.len() as u32;
        list[at..at + 4].copy_from_slice(&total.to_le_bytes());
    }
}

/// Root, row count, n or an offset, set to a value at the edge of its rule.
fn change_trailer(s: &mut Seeded, list: &mut [u8]) {
    let end = list.len();
    let value: u16 = s.pick(&[0, 1, 8, 60, 61, 255, 256, 257, 65_535]);
    match s.below(4) {
        0 => list[end - 16..end - 14].copy_from_slice(&value.to_le_bytes()),
        1 => list[end - 14..end - 12].copy_from_slice(&value.to_le_bytes()),
        2 => list[end - 12] = value as u8,
        _ => list[end - 20..end - 18].copy_from_slice(&value.to_le_bytes()),
    }
}
