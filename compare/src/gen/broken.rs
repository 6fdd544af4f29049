//! Records at the edge of their rules, on either side of it.

use crate::draft::{Draft, Record, Statement};
use crate::second::sheet::TABLES;
use crate::seed::Seeded;

/// Puts one such record into a table.
pub fn break_record(s: &mut Seeded, draft: &mut Draft) {
    match s.below(7) {
        0 => break_letters(s, draft),
        1..=2 => {
            let at = place(s, &mut draft.rows, (1, 0, 0), TABLES[2].most);
            draft.rows[at] = row(s, draft);
        }
        3..=4 => {
            let at = place(s, &mut draft.parts, (2, 0, 0), TABLES[3].most);
            draft.parts[at] = part(s, draft);
        }
        _ => {
            let plain = Statement { kind: 2, sign: 0, first: 0, count: 0, a: 0, b: 0 };
            let at = place(s, &mut draft.assertions, plain, TABLES[4].most);
            draft.assertions[at] = statement(s, draft);
        }
    }
}

fn break_letters(s: &mut Seeded, draft: &mut Draft) {
    let at = s.below(draft.letters.len().max(1));
    if let Some(range) = draft.letters.get_mut(at) {
        *range = s.pick(&[(1, 0), (255, 254), (255, 0), (255, 255), (0, 0), (b'b', b'a')]);
    }
}

/// A record to be overwritten: a new one, or an old one where the table is full.
fn place<T>(s: &mut Seeded, table: &mut Vec<T>, new: T, most: usize) -> usize {
    if table.is_empty() || (table.len() < most && s.once_in(2)) {
        table.push(new);
        return table.len() - 1;
    }
    s.below(table.len())
}

/// Stretches or runs at the end of a table of so many, and just past it.
fn past(s: &mut Seeded, count: u16) -> (u16, u16) {
    let pairs = [(count, 0), (0, count), (count + 1, 0), (0, count + 1), (count, 1), (1, count)];
    if s.once_in(8) {
        return s.pick(&[(65_535, 0), (0, 65_535), (65_535, 65_535), (65_535, 1), (1, 65_535)]);
    }
    s.pick(&pairs)
}

/// Two references, one of them perhaps to the first row past the table.
fn references(s: &mut Seeded, rows: u16) -> (u16, u16) {
    s.pick(&[(rows, 0), (0, rows), (rows - 1, rows - 1), (65_535, 0), (0, 65_535)])
}

fn row(s: &mut Seeded, draft: &Draft) -> Record {
    let [_, text, rows, _, _] = draft.counts().map(|count| count as u16);
    let kind = s.pick(&[0, 1, 2, 3, 3, 4, 5, 6, 7, 255]);
    let (a, b) = match kind {
        1 | 7 => s.pick(&[(0, 0), (1, 0), (0, 1), (256, 0), (0, 256)]),
        2 => s.pick(&[(1, 0), (255, 255), (0, 255), (0, 256), (256, 256), (1, 256), (98, 97)]),
        3 => past(s, text),
        4 | 5 => references(s, rows),
        6 => s.pick(&[(rows, 0), (rows - 1, 0), (0, 1), (0, 256), (65_535, 0)]),
        _ => (0, 0),
    };
    (kind, a, b)
}

fn part(s: &mut Seeded, draft: &Draft) -> Record {
    let kind = s.pick(&[0, 1, 1, 1, 2, 2, 3, 4]);
    let (a, b) = match kind {
        1 => past(s, draft.text.len() as u16),
        2 => s.pick(&[(0, 0), (1, 0), (0, 1), (256, 0), (0, 256)]),
        3 => s.pick(&[(65_535, 0), (65_535, 1), (0, 60), (60, 0), (61, 0)]),
        _ => (0, 0),
    };
    (kind, a, b)
}

fn statement(s: &mut Seeded, draft: &Draft) -> Statement {
    let [_, text, rows, parts, _] = draft.counts().map(|count| count as u16);
    let kind = s.pick(&[0, 1, 1, 2, 2, 3, 3, 4, 4, 5]);
    let sign = s.pick(&[0, 0, 0, 1, 1, 1, 2, 255]);
    let (first, count) = if s.once_in(3) { past(s, parts) } else { (0, 0) };
    let (a, b) = match kind {
        1 => s.pick(&[(rows, 0), (rows.saturating_sub(1), 0), (0, 1), (0, 256), (65_535, 0)]),
        2 => past(s, text),
        3 | 4 => past(s, parts),
        _ => (0, 0),
    };
    Statement { kind, sign, first, count, a, b }
}
