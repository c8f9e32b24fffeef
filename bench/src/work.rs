// One entry of a round over all cones of a plan, by the Rust text. `Inputs` and `Outputs` are laid out as in bench.c.

use crate::algebra::FloatT;
use crate::cones::nonsymmetric_common::{backtrack_search, SEEN, TESTED};
use crate::cones::{
    expcone::ExponentialCone, genpowcone::GenPowerCone, long_search, powcone::PowerCone, Cone, CoreSettings, NonsymmetricCone,
    NonsymmetricNDCone, ScalingStrategy,
};
use crate::numbers::{Counted, Own};
use crate::types::{Cone as ConeData, Scaling, MOST};
use alloc::{boxed::Box, vec::Vec};
use core::cell::Cell;
use core::slice::{from_raw_parts, from_raw_parts_mut};

#[repr(C)]
pub struct Inputs {
    cones: usize,
    cone: *const ConeData,
    // where a cone's numbers begin in each vector, and in the vector of blocks
    at: *const usize,
    block_at: *const usize,
    z: *const f64,
    s: *const f64,
    dz: *const f64,
    ds: *const f64,
    x: [*const f64; 2],
    mu: f64,
    sigma_mu: f64,
    settings: [f64; 3],
}

#[repr(C)]
pub struct Outputs {
    block: *mut f64,
    y: [*mut f64; 2],
    shift: *mut f64,
    dual_point: *mut f64,
    primal_point: *mut f64,
    dual_step: *mut f64,
    primal_step: *mut f64,
    barrier: *mut f64,
    dual_count: *mut u32,
    primal_count: *mut u32,
}

enum Any<T: FloatT> {
    Exponential(ExponentialCone<T>),
    Power(PowerCone<T>),
    Generalized(GenPowerCone<T>),
}

macro_rules! each {
    ($any:expr, $cone:ident => $do:expr) => {
        match $any {
            Any::Exponential($cone) => $do,
            Any::Power($cone) => $do,
            Any::Generalized($cone) => $do,
        }
    };
}

fn made<T: FloatT>(data: &ConeData) -> Any<T> {
    match data.kind {
        1 => Any::Exponential(ExponentialCone::new()),
        2 => Any::Power(PowerCone::new(T::from_f64(data.exps[0]))),
        _ => {
            let exponents: Vec<T> = data.exps[..data.dim1 as usize].iter().map(|&a| T::from_f64(a)).collect();
            Any::Generalized(GenPowerCone::new(exponents, data.dim2 as usize))
        }
    }
}

unsafe fn all_made<T: FloatT>(inputs: *const Inputs) -> *mut u8 {
    let data = from_raw_parts((*inputs).cone, (*inputs).cones);
    let cones: Vec<Any<T>> = data.iter().map(made).collect();
    Box::into_raw(Box::new(cones)) as *mut u8
}

// The plan's cones, on f64 (0), `Own` (1) or `Counted` (2) numbers.
#[no_mangle]
pub unsafe extern "C" fn rust_made(numbers: u32, inputs: *const Inputs) -> *mut u8 {
    match numbers {
        0 => all_made::<f64>(inputs),
        1 => all_made::<Own>(inputs),
        _ => all_made::<Counted>(inputs),
    }
}

#[no_mangle]
pub unsafe extern "C" fn rust_entry(numbers: u32, cones: *mut u8, entry: u32, inputs: *const Inputs, outputs: *mut Outputs) {
    match numbers {
        0 => all::<f64>(cones, entry, &*inputs, &mut *outputs),
        1 => all::<Own>(cones, entry, &*inputs, &mut *outputs),
        _ => all::<Counted>(cones, entry, &*inputs, &mut *outputs),
    }
}

// A cone's part of a vector.
unsafe fn part<'a, T>(vector: *const f64, at: usize, n: usize) -> &'a [T] {
    from_raw_parts(vector.add(at) as *const T, n)
}

unsafe fn part_mut<'a, T>(vector: *mut f64, at: usize, n: usize) -> &'a mut [T] {
    from_raw_parts_mut(vector.add(at) as *mut T, n)
}

unsafe fn all<T: FloatT>(cones: *mut u8, entry: u32, inputs: &Inputs, outputs: &mut Outputs) {
    let cones = &mut *(cones as *mut Vec<Any<T>>);
    match entry {
        0 => whole::<T, 0>(cones, inputs, outputs),
        1 => whole::<T, 1>(cones, inputs, outputs),
        2 => whole::<T, 2>(cones, inputs, outputs),
        3 => whole::<T, 3>(cones, inputs, outputs),
        4 => whole::<T, 4>(cones, inputs, outputs),
        5 => whole::<T, 5>(cones, inputs, outputs),
        _ => whole::<T, 6>(cones, inputs, outputs),
    }
}

unsafe fn whole<T: FloatT, const ENTRY: u32>(cones: &mut [Any<T>], inputs: &Inputs, outputs: &mut Outputs) {
    let number = T::from_f64;
    for (i, cone) in cones.iter_mut().enumerate() {
        let at = *inputs.at.add(i);
        let n = *inputs.at.add(i + 1) - at;
        let lent = |vector: *const f64| part::<T>(vector, at, n);
        match ENTRY {
            0 => {
                let (s, z) = (lent(inputs.s), lent(inputs.z));
                each!(cone, c => c.update_scaling(s, z, number(inputs.mu), ScalingStrategy::PrimalDual));
            }
            1 => {
                let block_at = *inputs.block_at.add(i);
                let block = part_mut::<T>(outputs.block, block_at, *inputs.block_at.add(i + 1) - block_at);
                each!(cone, c => c.get_Hs(block));
            }
            2 => {
                for product in 0..2 {
                    let y = part_mut::<T>(outputs.y[product], at, n);
                    let x = lent(inputs.x[product]);
                    each!(cone, c => c.mul_Hs(y, x, &mut []));
                }
            }
            3 => {
                if !matches!(cone, Any::Generalized(_)) {
                    let shift = part_mut::<T>(outputs.shift, at, n);
                    let (dz, ds) = (lent(inputs.dz), lent(inputs.ds));
                    let (mut step_z, mut step_s) = ([dz[0], dz[1], dz[2]], [ds[0], ds[1], ds[2]]);
                    each!(cone, c => c.combined_ds_shift(shift, &mut step_z, &mut step_s, number(inputs.sigma_mu)));
                }
            }
            4 => {
                if let Any::Generalized(c) = cone {
                    c.gradient_primal(part_mut::<T>(outputs.shift, at, n), lent(inputs.s));
                }
            }
            5 => {
                let [start, step, smallest] = inputs.settings;
                let settings = CoreSettings { linesearch_backtrack_step: number(step), min_terminate_step_length: number(smallest) };
                let (dz, ds, z, s) = (lent(inputs.dz), lent(inputs.ds), lent(inputs.z), lent(inputs.s));
                SEEN.searches = 0;
                let (dual, primal) = each!(cone, c => c.step_length(dz, ds, z, s, &settings, number(start)));
                *outputs.dual_step.add(i) = dual.to_f64();
                *outputs.primal_step.add(i) = primal.to_f64();
                *outputs.dual_count.add(i) = SEEN.tests[0];
                *outputs.primal_count.add(i) = SEEN.tests[1];
                part_mut::<f64>(outputs.dual_point, at, n).copy_from_slice(&SEEN.points[0][..n]);
                part_mut::<f64>(outputs.primal_point, at, n).copy_from_slice(&SEEN.points[1][..n]);
            }
            _ => {
                let (dual, primal) = (*outputs.dual_step.add(i), *outputs.primal_step.add(i));
                let alpha = 0.5 * if dual < primal { dual } else { primal };
                let (z, s, dz, ds) = (lent(inputs.z), lent(inputs.s), lent(inputs.dz), lent(inputs.ds));
                *outputs.barrier.add(i) = each!(cone, c => c.compute_barrier(z, s, dz, ds, number(alpha))).to_f64();
            }
        }
    }
}

// What document 02's Order 5 changes.
#[repr(C)]
pub struct Changed {
    searches: u64,
    tests: u64,
    // tests that the text says yes to, and no, and that are undecided now
    turned: [u64; 2],
    steps: u64,
}

// Adds a round's searches to the counts: each by the three answers of oracle/src/verdict.rs, and by the text's own yes or no.
#[no_mangle]
pub unsafe extern "C" fn rust_changed(cones: *mut u8, inputs: *const Inputs, counts: *mut Changed) {
    let cones = &mut *(cones as *mut Vec<Any<f64>>);
    let (inputs, counts) = (&*inputs, &mut *counts);
    let [start, step, smallest] = inputs.settings;
    let settings = CoreSettings { linesearch_backtrack_step: step, min_terminate_step_length: smallest };
    for (i, cone) in cones.iter_mut().enumerate() {
        let at = *inputs.at.add(i);
        let n = *inputs.at.add(i + 1) - at;
        let lent = |vector: *const f64| part::<f64>(vector, at, n);
        let (dz, ds, z, s) = (lent(inputs.dz), lent(inputs.ds), lent(inputs.z), lent(inputs.s));
        TESTED = Some((*inputs.cone.add(i), [false, true]));
        SEEN.searches = 0;
        SEEN.turned = [0; 2];
        SEEN.contradicted = 0;
        let now = each!(cone, c => c.step_length(dz, ds, z, s, &settings, start));
        if SEEN.contradicted != 0 {
            panic!("the residue of oracle/src/verdict.rs has another sign than the text's");
        }
        counts.searches += 2;
        counts.tests += (SEEN.tests[0] + SEEN.tests[1]) as u64;
        counts.turned[0] += SEEN.turned[0] as u64;
        counts.turned[1] += SEEN.turned[1] as u64;
        TESTED = None;
        SEEN.searches = 0;
        let before = each!(cone, c => c.step_length(dz, ds, z, s, &settings, start));
        counts.steps += (now.0.to_bits() != before.0.to_bits()) as u64 + (now.1.to_bits() != before.1.to_bits()) as u64;
    }
}

// The record of cone i, on f64 numbers; its cone is left as it is.
#[no_mangle]
pub unsafe extern "C" fn rust_record(cones: *mut u8, i: usize, record: *mut Scaling) {
    let cones = &*(cones as *const Vec<Any<f64>>);
    (*record).scaled = 1;
    match &cones[i] {
        Any::Exponential(c) => (*record).three = c.three(),
        Any::Power(c) => (*record).three = c.three(),
        Any::Generalized(c) => (*record).wide = c.wide(),
    }
}

unsafe fn searched<T: FloatT>(cones: *mut u8, i: usize, dq: *const f64, q: *const f64, point: *mut f64, settings: *const f64) -> u32 {
    let cone = &(&*(cones as *const Vec<Any<T>>))[i];
    let n = each!(cone, c => c.numel());
    let [start, step, smallest] = [*settings, *settings.add(1), *settings.add(2)].map(T::from_f64);
    let mut work = [T::zero(); MOST];
    SEEN.searches = 0;
    let (dq, q) = (part::<T>(dq, 0, n), part::<T>(q, 0, n));
    each!(cone, c => backtrack_search(dq, q, start, smallest, step, |s: &[T]| c.is_primal_feasible(s), &mut work[..n]));
    part_mut::<f64>(point, 0, n).copy_from_slice(&SEEN.points[0][..n]);
    SEEN.tests[0]
}

// A search on the primal side; its tests.
#[no_mangle]
pub unsafe extern "C" fn rust_search(
    numbers: u32, cones: *mut u8, i: usize, dq: *const f64, q: *const f64, point: *mut f64, settings: *const f64,
) -> u32 {
    match numbers {
        0 => searched::<f64>(cones, i, dq, q, point, settings),
        _ => searched::<Own>(cones, i, dq, q, point, settings),
    }
}

// One step for the first `count` cones of a plan, on the primal side, by 003's search over their own tests: a trial ends at the first that fails. How many
// cones were tested. The text has no such loop.
#[no_mangle]
pub unsafe extern "C" fn rust_common(
    cones: *mut u8, count: usize, inputs: *const Inputs, dq: *const f64, q: *const f64, point: *mut f64,
) -> u32 {
    let cones = &(&*(cones as *const Vec<Any<f64>>))[..count];
    let at = from_raw_parts((*inputs).at, count + 1);
    let n = at[count];
    let tests = Cell::new(0);
    let every_cone = |x: &[f64]| {
        cones.iter().zip(at.windows(2)).all(|(cone, place)| {
            tests.set(tests.get() + 1);
            let part = &x[place[0]..place[1]];
            each!(cone, c => c.is_primal_feasible(part))
        })
    };
    let (dq, q) = (part::<f64>(dq, 0, n), part::<f64>(q, 0, n));
    let point = part_mut::<f64>(point, 0, n);
    if long_search(dq, q, &(*inputs).settings, every_cone, point) == 0.0 {
        point.copy_from_slice(q);
    }
    tests.get()
}
