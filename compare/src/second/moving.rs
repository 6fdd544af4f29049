//! A sheet moved to the other edition: refusals 10 to 17, 40 and 41, and the moved sheet's bytes.

use super::edition::{CutRule, Edition, FIELDS, TOTAL_AND_MARK};
use super::fault::Fault;
use super::make::Made;
use super::sheet::Sheet;

pub fn to_edition(wanted: Edition, bytes: &[u8], out: &mut [u8]) -> Made {
    match moved(wanted, bytes) {
        Err(fault) => Made::refused(fault),
        Ok(moved) if moved.len() > out.len() => Made::refused(Fault::alone(41)),
        Ok(moved) => {
            out[..moved.len()].copy_from_slice(&moved);
            Made::written(moved.len())
        }
    }
}

/// The sheet in the wanted edition, with every new byte zero; refusals 10 to 17 and 40.
fn moved(wanted: Edition, bytes: &[u8]) -> Result<Vec<u8>, Fault> {
    let from = match wanted {
        Edition::First => Edition::Second,
        Edition::Second => Edition::First,
    };
    let sheet = Sheet::check_of(&[from], bytes)?;
    // The first edition, which has no rules, is read under rule 0.
    if sheet.cut_rule != CutRule::Strict {
        return Err(Fault::alone(40));
    }
    let tables = bytes.len() - from.trailer();
    let mut moved = bytes[..tables + FIELDS].to_vec();
    moved.extend(std::iter::repeat_n(0, wanted.new_bytes()));
    let total = moved.len() + TOTAL_AND_MARK;
    moved.extend((total as u32).to_le_bytes());
    moved.extend(wanted.mark());
    Ok(moved)
}
