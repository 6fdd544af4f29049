//! The second program: the calls, written from the papers alone.

pub mod derive;
pub mod edition;
pub mod fault;
pub mod gate;
pub mod make;
pub mod moving;
pub mod open;
pub mod sheet;
pub mod solve;
