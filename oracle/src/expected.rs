// The one answer that document 01 allows to a call: its table of refusals around the Rust of 000 to 003.

use super::cones::nonsymmetric_common::{backtrack_search, SEEN, TESTED};
use super::cones::{CoreSettings, Oracle, ScalingStrategy};
use crate::algebra::VectorMath;
use crate::types::*;
use crate::verdict;

extern "C" {
    // Runs f(arg); 1 if the text panicked in it, else 0.
    fn oracle_guard(f: extern "C" fn(*mut u8), arg: *mut u8) -> u32;
}

// Whether the Rust panics in f.
fn panics(f: &mut dyn FnMut()) -> bool {
    extern "C" fn run(arg: *mut u8) {
        let f = arg as *mut &mut dyn FnMut();
        unsafe { (*f)() }
    }
    let mut f: &mut dyn FnMut() = f;
    unsafe { oracle_guard(run, &mut f as *mut &mut dyn FnMut() as *mut u8) != 0 }
}

// 3, 6 for a packed block, or dim1+dim2; the cone is good.
pub fn length_of(cone: &Cone) -> usize {
    if cone.kind == 3 {
        (cone.dim1 + cone.dim2) as usize
    } else {
        3
    }
}

fn needed(cone: &Cone, lent: Lent) -> usize {
    if lent == Lent::Block && cone.kind != 3 {
        6
    } else {
        length_of(cone)
    }
}

// Row 1 of the table.
pub fn cone_is_bad(cone: &Cone, entry: u32) -> bool {
    // 02, Order 9: "another rule number gives 1", of every kind
    if cone.rule == 0 || cone.rule > 2 {
        return true;
    }
    match cone.kind {
        1 => false,
        2 => !(cone.exps[0] > 0.0 && cone.exps[0] < 1.0),
        3 => {
            if entry == HIGHER_CORRECTION || entry == COMBINED_DS_SHIFT {
                return true;
            }
            let dims = 1..=32;
            if !dims.contains(&cone.dim1) || !dims.contains(&cone.dim2) {
                return true;
            }
            let exps = &cone.exps[..cone.dim1 as usize];
            if !exps.iter().all(|&a| a > 0.0 && a <= 1.0) {
                return true;
            }
            // near 1 the difference is exact, so the computed distance is the distance of the computed sum
            let sum = exps.sum();
            let distance = if sum < 1.0 { 1.0 - sum } else { sum - 1.0 };
            // "within 2^-50 of 1. Release 1 cones keep 2^-40"
            distance > if cone.rule == 1 { 1.0 / 1099511627776.0 } else { 1.0 / 1125899906842624.0 }
        }
        _ => true,
    }
}

pub fn finite(x: f64) -> bool {
    x.to_bits() >> 52 & 2047 != 2047
}

fn all_finite(numbers: &[f64]) -> bool {
    numbers.iter().all(|&x| finite(x))
}

// The record's numbers that its kind uses are finite.
pub fn record_is_finite(record: &Scaling) -> bool {
    if record.cone.kind == 3 {
        let (dim1, dim2) = (record.cone.dim1 as usize, record.cone.dim2 as usize);
        let wide = &record.wide;
        all_finite(&wide.z[..dim1 + dim2])
            && finite(wide.mu)
            && all_finite(&wide.grad[..dim1 + dim2])
            && all_finite(&wide.p[..dim1 + dim2])
            && all_finite(&wide.q[..dim1])
            && all_finite(&wide.r[..dim2])
            && all_finite(&wide.d1[..dim1])
            && finite(wide.d2)
    } else {
        let three = &record.three;
        all_finite(&three.z) && all_finite(&three.grad) && all_finite(&three.h_dual) && all_finite(&three.hs)
    }
}

// Rows 1 to 5, and 11 and 10 at their places: judged before anything is computed. 0 where none is met.
pub fn judged(call: &Call) -> u32 {
    let entry = entry_of(call);
    let cone = &call.record.cone;
    if cone_is_bad(cone, call.entry) {
        return 1;
    }
    for (slice, &(_, lent)) in call.slices.iter().zip(entry.slices) {
        if slice.len as usize != needed(cone, lent) {
            return 2;
        }
    }
    for (slice, &(_, lent)) in call.slices.iter().zip(entry.slices) {
        if lent == Lent::Read && !all_finite(slice.numbers()) {
            return 3;
        }
    }
    if !all_finite(&call.numbers[..entry.numbers.len()]) {
        return 3;
    }
    if entry.takes_record && !record_is_finite(&call.record) {
        return 3;
    }
    if call.entry == BACKTRACK_SEARCH || call.entry == STEP_LENGTH {
        let [start, step, smallest] = call.numbers;
        if !(start > 0.0) || !(step > 0.0) || step > 0.99 || !(smallest >= f64::MIN_POSITIVE) {
            return 4;
        }
    }
    if call.entry == UPDATE_SCALING && call.option != 1 && call.option != 2 {
        return 4;
    }
    // "11 for an update at serial 4,294,967,295, after 4 and before 6"
    if call.entry == UPDATE_SCALING && call.record.serial == u32::MAX {
        return 11;
    }
    if names_serial(call.entry) && call.record.scaled == 0 {
        return 5;
    }
    // "10 if the serial differs, after 5"
    if names_serial(call.entry) && call.option != call.record.serial {
        return 10;
    }
    0
}

// "A refusal returns zeros for all numbers and no for a yes or no, changes no lent buffer, and returns the scaling record bit for bit."
fn refusal(call: &Call, code: u32) -> Answer {
    let mut reply = Reply { code, ..Reply::ZERO };
    if call.entry == UPDATE_SCALING {
        reply.record = call.record;
    }
    Answer { reply, record: call.record, slices: call.slices }
}

pub fn expected(call: &Call) -> Answer {
    if is_plain(call.entry) {
        return plain(call);
    }
    let code = judged(call);
    if code != 0 {
        return refusal(call, code);
    }
    let mut answer = Answer { reply: Reply::ZERO, record: call.record, slices: call.slices };
    let mut oracle = Oracle::of(&call.record.cone, &call.record);
    if panics(&mut || run(call, &mut oracle, &mut answer)) {
        return refusal(call, 6);
    }
    if !finished(call, &answer) {
        return refusal(call, 7);
    }
    answer
}

// "the finished answer holds a NaN or an infinity"; feasibility and searches never give it.
fn finished(call: &Call, answer: &Answer) -> bool {
    let reply = &answer.reply;
    match call.entry {
        IS_PRIMAL_FEASIBLE | IS_DUAL_FEASIBLE | BACKTRACK_SEARCH | STEP_LENGTH => true,
        BARRIER_DUAL | BARRIER_PRIMAL | COMPUTE_BARRIER => finite(reply.values[0]),
        DUAL_GRAD_H => record_is_finite(&Scaling { cone: call.record.cone, three: reply.three, wide: reply.wide, ..Scaling::ZERO }),
        FRESH | UPDATE_SCALING => record_is_finite(&reply.record),
        _ => entry_of(call).slices.iter().zip(&answer.slices).all(|(&(_, lent), slice)| lent == Lent::Read || all_finite(slice.numbers())),
    }
}

// Searches pass as before Order 5: where the Rust says yes (margins.rs).
pub static mut BY_THE_RUST: bool = false;

// The searches to come pass by the three answers, on these sides of the cone.
fn by_verdict(cone: &Cone, primal: [bool; 2]) {
    unsafe {
        TESTED = if BY_THE_RUST { None } else { Some((*cone, primal)) };
        SEEN.searches = 0;
        SEEN.turned = [0; 2];
        SEEN.contradicted = 0;
    }
}

// A search has no answer of its own: 0, unless the Rust and verdict.rs were not of one mind at a trial.
fn contradicted() -> u32 {
    if unsafe { SEEN.contradicted } == 0 {
        0
    } else {
        verdict::CONTRADICTED
    }
}

// A call that these rows let through, by the Rust.
fn run(call: &Call, oracle: &mut Oracle, answer: &mut Answer) {
    let cone = call.record.cone;
    let n = length_of(&cone);
    let lent = |place: usize| call.slices[place].numbers();
    let reply = &mut answer.reply;
    let slices = &mut answer.slices;
    match call.entry {
        FRESH => {
            // "It also holds the cone it was made for, as given, and whether it was ever scaled (fresh: no, and all its numbers +0)"
            reply.record.cone = cone;
        }
        IS_PRIMAL_FEASIBLE => reply.answer = verdict::answer(&cone, true, lent(0), oracle.nonsymmetric().is_primal_feasible(lent(0))),
        IS_DUAL_FEASIBLE => reply.answer = verdict::answer(&cone, false, lent(0), oracle.nonsymmetric().is_dual_feasible(lent(0))),
        BARRIER_DUAL => reply.values[0] = oracle.nonsymmetric().barrier_dual(lent(0)),
        DUAL_GRAD_H => {
            // from a fresh record: the answer is this call's
            *oracle = Oracle::of(&cone, &Scaling::ZERO);
            oracle.nonsymmetric().update_dual_grad_H(lent(0));
            let mut record = Scaling::ZERO;
            oracle.store(&mut record);
            reply.three = record.three;
            reply.wide = record.wide;
        }
        BACKTRACK_SEARCH => {
            let [start, step, smallest] = call.numbers;
            let mut work = [0.0; MOST];
            by_verdict(&cone, [call.option == 1; 2]);
            let cone = oracle.nonsymmetric();
            let is_in_cone = |q: &[f64]| if call.option == 1 { cone.is_primal_feasible(q) } else { cone.is_dual_feasible(q) };
            reply.values[0] = backtrack_search(lent(0), lent(1), start, smallest, step, is_in_cone, &mut work[..n]);
            reply.counts[0] = unsafe { SEEN.tests[0] };
            reply.answer = contradicted();
            slices[2].numbers_mut().copy_from_slice(unsafe { &SEEN.points[0][..n] });
        }
        STEP_LENGTH => {
            let [start, step, smallest] = call.numbers;
            let settings = CoreSettings { linesearch_backtrack_step: step, min_terminate_step_length: smallest };
            by_verdict(&cone, [false, true]);
            let (dual, primal) = oracle.cone().step_length(lent(0), lent(1), lent(2), lent(3), &settings, start);
            reply.values[0] = dual;
            reply.values[1] = primal;
            reply.counts = unsafe { SEEN.tests };
            reply.answer = contradicted();
            for side in 0..2 {
                slices[4 + side].numbers_mut().copy_from_slice(unsafe { &SEEN.points[side][..n] });
            }
        }
        UNIT_INITIALIZATION => {
            let (mut z, mut s) = ([0.0; MOST], [0.0; MOST]);
            oracle.cone().unit_initialization(&mut z[..n], &mut s[..n]);
            slices[0].numbers_mut().copy_from_slice(&z[..n]);
            slices[1].numbers_mut().copy_from_slice(&s[..n]);
        }
        RECTIFY_EQUILIBRATION => reply.answer = oracle.cone().rectify_equilibration(slices[0].numbers_mut(), lent(1)) as u32,
        AFFINE_DS => oracle.cone().affine_ds(slices[0].numbers_mut(), lent(1)),
        DS_FROM_DZ_OFFSET => oracle.cone().Δs_from_Δz_offset(slices[0].numbers_mut(), lent(1), &mut [], lent(2)),
        UPDATE_SCALING => {
            let strategy = if call.option == 1 { ScalingStrategy::Dual } else { ScalingStrategy::PrimalDual };
            oracle.cone().update_scaling(lent(0), lent(1), call.numbers[0], strategy);
            reply.record.cone = cone;
            reply.record.scaled = 1;
            reply.record.serial = call.record.serial + 1;
            oracle.store(&mut reply.record);
        }
        GRADIENT_PRIMAL => {
            unsafe { SEEN.rounds = 0 };
            oracle.gradient_primal(slices[0].numbers_mut(), lent(1));
            reply.counts[0] = unsafe { SEEN.rounds };
        }
        BARRIER_PRIMAL => reply.values[0] = oracle.nonsymmetric().barrier_primal(lent(0)),
        COMPUTE_BARRIER => reply.values[0] = oracle.cone().compute_barrier(lent(0), lent(1), lent(2), lent(3), call.numbers[0]),
        GET_HS => oracle.cone().get_Hs(slices[0].numbers_mut()),
        MUL_HS => oracle.cone().mul_Hs(slices[0].numbers_mut(), lent(1), &mut []),
        HIGHER_CORRECTION => oracle.nonsymmetric().higher_correction(slices[0].numbers_mut(), lent(1), lent(2)),
        COMBINED_DS_SHIFT => {
            let (mut step_z, mut step_s) = ([0.0; 3], [0.0; 3]);
            step_z.copy_from(lent(1));
            step_s.copy_from(lent(2));
            oracle.cone().combined_ds_shift(slices[0].numbers_mut(), &mut step_z, &mut step_s, call.numbers[0]);
        }
        _ => {}
    }
}

// House settings and the kernels refuse nothing. A kernel is held to document 01's rules by rules.rs, its bits are its own.
fn plain(call: &Call) -> Answer {
    let mut answer = Answer { reply: Reply::ZERO, record: call.record, slices: call.slices };
    if call.entry == HOUSE_SETTINGS {
        answer.reply.values = [call.numbers[0], 0.5, 0.0001];
    }
    answer
}
