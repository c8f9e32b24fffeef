// Oracles from changed copies of the Rust. There are none here: mutants.py puts its own file in this place, in a copy of this folder.

use crate::types::{Answer, Call};

pub const NAMES: [&str; 0] = [];

pub fn answer(_: usize, call: &Call) -> Answer {
    crate::expected::expected(call)
}
