// Document 02, Order 9, call by call: exponent sums at the limits of both rules, sums that depend on their order, and rules that are none, for every
// entry that takes a cone or a record. Nothing else is wrong with these calls.

use crate::expected::{expected, length_of};
use crate::random::{nudged, size};
use crate::types::*;
use alloc::vec::Vec;

// "a computed sum within 2^-50 of 1. Release 1 cones keep 2^-40."
pub const TOLERANCES: [f64; 2] = [1.0 / 1099511627776.0, 1.0 / 1125899906842624.0];

// What is no rule; 0 has a cone that was made before there were any.
pub const NO_RULES: [u32; 6] = [0, 3, 256, 257, 1 << 16, u32::MAX];

// Each limit, and the next double beyond it: 1 - 2^-40, 1 + 2^-40, 1 - 2^-50, 1 + 2^-50.
pub const SUMS: usize = 8;
pub const NAMES: [&str; SUMS] =
    ["1 - 2^-40", "the next below", "1 + 2^-40", "the next above", "1 - 2^-50", "the next below", "1 + 2^-50", "the next above"];

pub fn sum(i: usize) -> f64 {
    let tolerance = TOLERANCES[i / 4];
    let (limit, beyond) = if i / 2 % 2 == 0 { (1.0 - tolerance, -1) } else { (1.0 + tolerance, 1) };
    nudged(limit, if i % 2 == 0 { 0 } else { beyond })
}

// Which of these sums the exponents of a cone have.
pub fn at(cone: &Cone) -> Option<usize> {
    if cone.kind != 3 || !(1..=32).contains(&cone.dim1) {
        return None;
    }
    let total = cone.exps[..cone.dim1 as usize].iter().fold(0.0, |total, &a| total + a);
    (0..SUMS).find(|&i| total == sum(i))
}

// Two exponents of this sum, and crumbs of less than half a unit in its last place: behind the two they are lost one by one, before them they are not.
pub fn crumbled(exps: &mut [f64], sum: f64, before: bool) {
    let crumb = if sum < 1.0 { f64::EPSILON / 8.0 } else { f64::EPSILON / 4.0 };
    let from = if before { exps.len() - 2 } else { 0 };
    exps.fill(crumb);
    exps[from] = 0.5;
    exps[from + 1] = sum - 0.5;
}

pub fn generalized(exps: &[f64], rule: u32) -> Cone {
    let mut cone = Cone { kind: 3, dim1: exps.len() as u32, dim2: 1, rule, ..Cone::ZERO };
    cone.exps[..exps.len()].copy_from_slice(exps);
    cone
}

fn plain(kind: u32, rule: u32) -> Cone {
    match kind {
        1 => Cone { kind, rule, ..Cone::ZERO },
        2 => {
            let mut cone = Cone { kind, rule, ..Cone::ZERO };
            cone.exps[0] = 0.5;
            cone
        }
        _ => generalized(&[0.25, 0.75], rule),
    }
}

// A point inside both cones.
fn inside(cone: &Cone) -> [f64; MOST] {
    let mut x = [1.0; MOST];
    if cone.kind == 1 {
        x[..3].copy_from_slice(&[-1.0, 0.5, 1.0]);
    } else {
        let tail = if cone.kind == 3 { cone.dim1 as usize } else { 2 };
        x[tail..length_of(cone)].fill(0.25);
    }
    x
}

// A call of the entry with this cone, or with a record of it that was scaled under a cone that both rules take.
pub fn call(entry: u32, cone: Cone) -> Call {
    let n = length_of(&cone);
    let x = inside(&cone);
    let mut call = Call { entry, record: Scaling { cone, ..Scaling::ZERO }, numbers: [1.0, 0.5, 0.0001], ..Call::ZERO };
    let entry = entry_of(&call);
    if entry.takes_record {
        let mut scaled = Cone { rule: 1, ..cone };
        if cone.kind == 3 {
            scaled.exps[..cone.dim1 as usize].fill(1.0 / cone.dim1 as f64);
        }
        let mut update = Call { entry: UPDATE_SCALING, option: 2, record: Scaling { cone: scaled, ..Scaling::ZERO }, ..Call::ZERO };
        update.slices[0] = Slice::of(&x[..n]);
        update.slices[1] = Slice::of(&x[..n]);
        update.numbers[0] = 1.0;
        call.record = Scaling { cone, ..expected(&update).reply.record };
    }
    for (slice, &(_, lent)) in call.slices.iter_mut().zip(entry.slices) {
        *slice = Slice::of(if lent == Lent::Block && cone.kind != 3 { &[9.0; 6] } else { &x[..n] });
    }
    call.option = if names_serial(call.entry) { call.record.serial } else { 2 };
    if call.entry == BACKTRACK_SEARCH {
        call.option = 1;
    }
    for i in entry.numbers.len()..3 {
        call.numbers[i] = 0.0;
    }
    call
}

pub fn rows() -> Vec<Call> {
    let mut rows = Vec::new();
    for entry in (0..SQRT).filter(|&entry| !is_plain(entry)) {
        for rule in [1, 2] {
            for i in 0..SUMS {
                rows.push(call(entry, generalized(&[0.5, sum(i) - 0.5], rule)));
            }
            // the limit and the next double beyond, by the first two alone and with the crumbs before them
            for i in 0..SUMS {
                let mut exps = [0.0; 10];
                for before in [false, true] {
                    crumbled(&mut exps, sum(i), before);
                    rows.push(call(entry, generalized(&exps, rule)));
                }
            }
        }
        for kind in 1..=3 {
            for rule in [1, 2].iter().chain(&NO_RULES) {
                rows.push(call(entry, plain(kind, *rule)));
            }
        }
    }
    rows
}

// Those of them that the fixed list has room for: each sum by two exponents, and each kind under the rules 0, 3 and 2^32 - 1.
pub fn listed(call: &Call) -> bool {
    let cone = &call.record.cone;
    cone.dim1 < 10 && (at(cone).is_some() || [0, 3, u32::MAX].contains(&cone.rule))
}

// What documents 01 and 02 say of the rows, in other words than expected.rs has: a row is refused with 1 exactly if its rule is none, its sum is beyond
// the rule's limit, or the entry does not take kind 3; else it is done.
pub fn holds() -> bool {
    let taken = |i: usize, rule: u32| i % 2 == 0 && (i >= 4 || rule == 1) || i >= 4 && rule == 1;
    rows().iter().all(|call| {
        let cone = &call.record.cone;
        let three_refused = cone.kind == 3 && matches!(call.entry, HIGHER_CORRECTION | COMBINED_DS_SHIFT);
        let good = match at(cone) {
            _ if three_refused || NO_RULES.contains(&cone.rule) => false,
            Some(i) => taken(i, cone.rule),
            // crumbs before: below 1 they bring a sum nearer to 1, above 1 farther from it
            None if cone.dim1 == 10 => {
                let first = cone.exps[8] + cone.exps[9];
                let inner = size(first - 1.0) < TOLERANCES[0] / 2.0;
                first < 1.0 && (inner || cone.rule == 1) || first > 1.0 && inner && cone.rule == 1
            }
            None => true,
        };
        expected(call).reply.code == !good as u32
    })
}
