// Document 02, Order 5: a test of feasibility answers yes, no or undecided. The Rust knows yes and no alone: it asks whether the residue is
// above 0. So signs, residue and margin stand here in the harness's own words, and every test asks the Rust, too: its yes has to be a residue
// above 0 here (cones.rs, expected.rs).

use crate::algebra::{FloatT, VectorMath};
use crate::types::Cone;

pub const NO: u32 = 0;
pub const YES: u32 = 1;
pub const UNDECIDED: u32 = 2;
// The Rust finds another sign of the residue: no port can give this.
pub const CONTRADICTED: u32 = 9;

// The residue of a point and its margin, or none where a sign test fails.
pub fn measured<T: FloatT>(cone: &Cone, primal: bool, x: &[T]) -> Option<(T, T)> {
    let number = T::from_f64;
    let (zero, one, two) = (number(0.0), number(1.0), number(2.0));
    // "2^-40·(s2·(1+|l|)+|s1|), dual 2^-40·(|z2|+|z1|·(1+|l|)), counting coordinates from 1", l the log of the residue
    if cone.kind == 1 {
        let unit = number(1.0 / 1099511627776.0);
        let (x1, x2, x3) = (x[0], x[1], x[2]);
        return if primal && x3 > zero && x2 > zero {
            let l = (x3 / x2).logsafe();
            Some((x2 * l - x1, unit * (x2 * (one + l.abs()) + x1.abs())))
        } else if !primal && x3 > zero && x1 < zero {
            let l = (-x3 / x1).logsafe();
            Some((x2 - x1 - x1 * l, unit * (x2.abs() + x1.abs() * (one + l.abs()))))
        } else {
            None
        };
    }
    // "For both power cones it is 2^-30·(the exponential plus the sumsq)."
    let heads = if cone.kind == 3 { cone.dim1 as usize } else { 2 };
    if x[..heads].iter().any(|&head| !(head > zero)) {
        return None;
    }
    let a = |i: usize| number(cone.exps[i]);
    let sum = match (cone.kind, primal) {
        (2, true) => two * a(0) * x[0].logsafe() + two * (one - a(0)) * x[1].logsafe(),
        (2, false) => a(0) * two * (x[0] / a(0)).logsafe() + (one - a(0)) * (x[1] / (one - a(0))).logsafe() * two,
        (_, true) => (0..heads).fold(zero, |sum, i| sum + two * a(i) * x[i].logsafe()),
        _ => (0..heads).fold(zero, |sum, i| sum + two * a(i) * (x[i] / a(i)).logsafe()),
    };
    let (exponential, sumsq) = (sum.exp(), if cone.kind == 2 { x[2] * x[2] } else { x[heads..].sumsq() });
    Some((exponential - sumsq, number(1.0 / 1073741824.0) * (exponential + sumsq)))
}

// "Yes if the residue is above the margin, no if it is below minus the margin or a sign test fails, else undecided, NaN and infinite margins
// included."
pub fn told<T: FloatT>(measured: Option<(T, T)>) -> u32 {
    match measured {
        None => NO,
        Some((residue, margin)) if residue > margin => YES,
        Some((residue, margin)) if residue < -margin => NO,
        Some(_) => UNDECIDED,
    }
}

// The answer at a point of which the Rust says `rust`.
pub fn answer<T: FloatT>(cone: &Cone, primal: bool, x: &[T], rust: bool) -> u32 {
    let measured = measured(cone, primal, x);
    if rust != measured.is_some_and(|(residue, _)| residue > T::zero()) {
        return CONTRADICTED;
    }
    told(measured)
}
