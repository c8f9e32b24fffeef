// What documents 01 and 02 say outright of single calls: "Points at the border", "Also run"; "Border cases b, d and f become undecided". The
// oracle itself is held to it before it judges the port.

use crate::expected::expected;
use crate::parts;
use crate::say;
use crate::sums;
use crate::types::*;
use crate::verdict::{UNDECIDED, YES};

const HALF: f64 = 0.5;

// The papers' rows name no rule: they have that of release 1.
const RULE: u32 = 1;

fn cone(kind: u32) -> Scaling {
    let mut record = Scaling { cone: Cone { kind, rule: RULE, ..Cone::ZERO }, ..Scaling::ZERO };
    if kind == 2 {
        record.cone.exps[0] = HALF;
    }
    record
}

fn call(entry: u32, kind: u32, slices: &[[f64; 3]]) -> Call {
    let mut call = Call { entry, record: cone(kind), ..Call::ZERO };
    for (slice, numbers) in call.slices.iter_mut().zip(slices) {
        *slice = Slice::of(numbers);
    }
    call
}

fn search(q: [f64; 3], dq: [f64; 3], settings: [f64; 3]) -> Call {
    Call { option: 1, numbers: settings, ..call(BACKTRACK_SEARCH, 1, &[dq, q, [9.0; 3]]) }
}

pub const ROWS: usize = 17;

pub fn row(i: usize) -> (&'static str, Call) {
    match i {
        0 => ("a", call(IS_PRIMAL_FEASIBLE, 1, &[[-1.0, 1.0, 1.0]])),
        1 => ("b", call(IS_PRIMAL_FEASIBLE, 1, &[[0.0, 1.0, 1.0]])),
        2 => ("c", call(IS_DUAL_FEASIBLE, 1, &[[-1.0, 0.0, 1.0]])),
        3 => ("d", call(IS_DUAL_FEASIBLE, 1, &[[-1.0, -1.0, 1.0]])),
        4 => ("e", call(IS_PRIMAL_FEASIBLE, 2, &[[1.0, 1.0, 0.0]])),
        5 => ("f", call(IS_PRIMAL_FEASIBLE, 2, &[[1.0, 1.0, 1.0]])),
        // omega of 1 is not public: at (0,1,1) its argument is 1, and omega 1 makes the first component 1/((1-1)·1)
        6 => ("g", call(GRADIENT_PRIMAL, 1, &[[9.0; 3], [0.0, 1.0, 1.0]])),
        7 => ("h", call(GRADIENT_PRIMAL, 1, &[[9.0; 3], [2.0, 1.0, 1.0]])),
        8 => ("i", call(DUAL_GRAD_H, 1, &[[-1.0, 0.0, 1.0]])),
        9 => ("j", search([0.0, -1.0, 1.0], [0.0; 3], [1.0, 0.5, 0.25])),
        10 => ("k", search([-1.0, 1.0, 1.0], [0.0; 3], [0.1, 0.5, 0.25])),
        11 => ("l", search([-1.0, 1.0, 1.0], [0.0, -4.0, 0.0], [1.0, 0.5, 0.125])),
        12 => ("power block", call(DUAL_GRAD_H, 2, &[[HALF, HALF, 0.0]])),
        13 => ("42 tests", search([0.0, -1.0, 1.0], [0.0; 3], [1.0, 0.8, 0.0001])),
        // a finite point whose margin is infinite
        14 => ("infinite margin", call(IS_PRIMAL_FEASIBLE, 2, &[[1.0, 1.0, 1e200]])),
        // undecided does not pass: row b's point, tried three times
        15 => ("undecided trials", search([0.0, 1.0, 1.0], [0.0; 3], [1.0, 0.5, 0.25])),
        _ => ("14 tests", search([0.0, -1.0, 1.0], [0.0; 3], [1.0, 0.5, 0.0001])),
    }
}

fn bits<const N: usize>(given: &[f64], wanted: [f64; N]) -> bool {
    given.len() == N && given.iter().zip(&wanted).all(|(x, y)| x.to_bits() == y.to_bits())
}

fn found(answer: &Answer, step: f64, count: u32, point: [f64; 3]) -> bool {
    answer.reply.code == 0
        && answer.reply.counts[0] == count
        && bits(&answer.reply.values[..1], [step])
        && bits(answer.slices[2].numbers(), point)
}

fn keeps(i: usize, answer: &Answer) -> bool {
    let reply = &answer.reply;
    match i {
        0 | 2 | 4 => reply.code == 0 && reply.answer == YES,
        1 | 3 | 5 | 14 => reply.code == 0 && reply.answer == UNDECIDED,
        6 => reply.code == 7,
        7 => reply.code == 6,
        8 => reply.code == 0 && bits(&reply.three.grad, [1.0, -1.0, -2.0]) && bits(&reply.three.h_dual, [2.0, -0.0, 1.0, 1.0, 1.0, 3.0]),
        9 => found(answer, 0.0, 3, [0.0, -1.0, 1.0]),
        10 => found(answer, 0.1, 1, [-1.0, 1.0, 1.0]),
        11 => found(answer, 0.125, 4, [-1.0, 0.5, 1.0]),
        12 => reply.code == 0 && bits(&reply.three.grad, [-3.0, -3.0, 0.0]) && bits(&reply.three.h_dual, [6.0, 0.0, 6.0, -0.0, -0.0, 2.0]),
        13 => found(answer, 0.0, 42, [0.0, -1.0, 1.0]),
        15 => found(answer, 0.0, 3, [0.0, 1.0, 1.0]),
        _ => found(answer, 0.0, 14, [0.0, -1.0, 1.0]),
    }
}

// Whether the oracle gives each row's answer; says which it does not.
pub fn holds() -> bool {
    let mut all = true;
    for i in 0..ROWS {
        let (name, call) = row(i);
        if !keeps(i, &expected(&call)) {
            say::text("the oracle does not give the documents' answer: ");
            say::line(name);
            all = false;
        }
    }
    if !sums::holds() {
        say::line("the oracle does not judge rules and exponent sums as document 02's Order 9 says");
        all = false;
    }
    if !parts::holds() {
        say::line("the oracle does not refuse a NaN in a record's part with 3");
        all = false;
    }
    // omega of 1, in the text itself
    if crate::cones::expcone::wright_omega(1.0) != 1.0 {
        say::line("omega of 1 is not 1");
        all = false;
    }
    all
}
