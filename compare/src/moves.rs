//! The part of a case that moves its sheet between the editions.

use crate::compare::{Comparison, Difference};
use crate::second::edition::{Edition, EDITIONS};
use crate::seed::Seeded;

/// A sheet, accepted or not, moved to each edition with every interesting room, and back; the moved
/// sheet, if there is one.
pub fn moves(
    s: &mut Seeded,
    comparison: &mut Comparison,
    sheet: &[u8],
) -> Result<Option<Vec<u8>>, Difference> {
    let mut moved = None;
    for wanted in EDITIONS {
        for room in rooms(s, wanted, sheet.len()) {
            moved = comparison.to_edition(wanted, sheet, room)?.or(moved);
        }
    }
    if let (Some(moved), Some(edition)) = (&moved, Edition::of(sheet)) {
        comparison.tally.sort("moved");
        comparison.to_edition(edition, moved, sheet.len() - 1)?;
        let back = comparison.to_edition(edition, moved, sheet.len())?;
        assert_eq!(back.as_deref(), Some(sheet), "a sheet there and back");
    }
    Ok(moved)
}

/// Too little room for what a sheet of that length becomes, just enough, and more.
fn rooms(s: &mut Seeded, wanted: Edition, length: usize) -> [usize; 6] {
    let size = match wanted {
        Edition::First => length.saturating_sub(4),
        Edition::Second => length + 4,
    };
    [0, s.below(size + 1), size.saturating_sub(1), size, size + 1, size + s.between(2, 50)]
}
