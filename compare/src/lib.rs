//! The second program, written from the paper alone, and its comparison with the proved library.

pub mod second;

pub mod bench;
pub mod brute;
pub mod call;
pub mod check;
pub mod compare;
pub mod count;
pub mod cut_rules;
pub mod draft;
pub mod everyday;
pub mod gen;
pub mod guards;
pub mod keys;
mod moves;
pub mod program;
pub mod proved;
pub mod regions;
pub mod seed;
pub mod selfcheck;
pub mod tally;
