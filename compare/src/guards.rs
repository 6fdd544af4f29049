//! Whether a touch beside a buffer is seen, and blamed on the call that made it: among calls of the
//! library, one is put that touches a byte where it is told to.

use crate::call::{Buffer, Call, Name, Place, Reply};
use crate::compare::{Comparison, Difference, GateCall};
use crate::proved::Proved;

/// Longer than a page of any processor, and no multiple of one.
const LENGTH: i64 = 70_001;

/// How many touches were seen, or the one that was not.
pub fn guards() -> Result<usize, String> {
    let behind = [LENGTH, LENGTH + 1, LENGTH + 60_000];
    let before = [-1, -2, -60_000];
    let mut touches: Vec<(Place, i64, bool)> = Vec::new();
    for place in [Place::Last, Place::WordBefore, Place::First] {
        touches.extend([0, 1, LENGTH - 1].map(|at| (place, at, false)));
    }
    touches.extend(behind.map(|at| (Place::Last, at, true)));
    touches.extend(before.map(|at| (Place::First, at, true)));
    touches.extend([LENGTH, LENGTH + 7, LENGTH + 8].map(|at| (Place::WordBefore, at, true)));
    touches.extend([(Place::Last, -1, true), (Place::First, LENGTH, true)]);
    for &(place, at, seen) in &touches {
        let text = match touch(place, at) {
            Ok(()) => String::new(),
            Err(Difference(text)) => text,
        };
        let blamed = text.contains("case 1\nTouch") && text.contains("\ncalls: ");
        if blamed != seen || text.is_empty() == seen {
            return Err(format!("a touch of byte {at} of {LENGTH}, placed {place:?}: {text}"));
        }
    }
    Ok(touches.len())
}

/// A touch, with calls of the library before and behind it.
fn touch(place: Place, at: i64) -> Result<(), Difference> {
    let mut proved = Proved::start().map_err(Difference)?;
    let mut comparison = Comparison::new(&mut proved);
    let gate = GateCall { list: &[1; 40], text: &[], word: b"aa", work: 10 };
    for _ in 0..20 {
        comparison.gate(gate)?;
    }
    comparison.begin(1);
    let buffer = Buffer { place, ..Buffer::lent("buffer", LENGTH as usize) };
    let mut after = buffer.bytes.clone();
    if let Some(byte) = usize::try_from(at).ok().and_then(|at| after.get_mut(at)) {
        *byte = byte.wrapping_add(1);
    }
    let call = Call::new(Name::Touch, &[("at", at as u64)], vec![buffer]);
    comparison.put(call, Reply { answer: vec![], buffers: vec![after] })?;
    comparison.begin(2);
    for _ in 0..20 {
        comparison.gate(gate)?;
    }
    comparison.settle()
}
