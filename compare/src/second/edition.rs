//! The two editions of a sheet: the mark and the trailer of each, and what the second one's new
//! bytes say.

/// Bytes of a trailer before the new ones: the lengths, then an offset and a count for each table.
pub const FIELDS: usize = 24;
/// Bytes of a trailer behind the new ones: the total and the mark.
pub const TOTAL_AND_MARK: usize = 8;

#[derive(Clone, Copy, PartialEq, Eq, PartialOrd, Ord, Debug)]
pub enum Edition {
    First,
    Second,
}

pub const EDITIONS: [Edition; 2] = [Edition::First, Edition::Second];

impl Edition {
    /// The edition that the last four bytes name.
    pub fn of(bytes: &[u8]) -> Option<Edition> {
        EDITIONS.into_iter().find(|edition| bytes.ends_with(edition.mark()))
    }

    pub const fn mark(self) -> &'static [u8; 4] {
        match self {
            Edition::First => b"PRM1",
            Edition::Second => b"PRM2",
        }
    }

    /// How many new bytes the trailer has.
    pub const fn new_bytes(self) -> usize {
        match self {
            Edition::First => 0,
            Edition::Second => 4,
        }
    }

    /// Bytes of the whole trailer.
    pub const fn trailer(self) -> usize {
        FIELDS + self.new_bytes() + TOTAL_AND_MARK
    }

    /// Where the trailer begins, or nothing if the sheet is too short for it.
    pub fn trailer_start(self, bytes: &[u8]) -> Option<usize> {
        bytes.len().checked_sub(self.trailer())
    }
}

/// What a cut gives that reaches past the end of v.
#[derive(Clone, Copy, PartialEq, Eq, PartialOrd, Ord, Debug)]
pub enum CutRule {
    /// Rule 0: nothing, and its assertion is not met.
    Strict,
    /// Rule 1: the bytes up to the end.
    Shortened,
}

/// The rule that a trailer's new bytes give, or nothing if one of them is bad. The first edition,
/// which has none, has rule 0.
pub fn cut_rule(new_bytes: &[u8]) -> Option<CutRule> {
    match new_bytes {
        // Cut rule, comparison rule, two zeros.
        [] | [0, 0, 0, 0] => Some(CutRule::Strict),
        [1, 0, 0, 0] => Some(CutRule::Shortened),
        _ => None,
    }
}
