// Calls that random numbers hardly make: exactly at a limit of the Rust, or one unit beside it.

use crate::cases::{coordinate, exponent, good_cone, multiplier, point, record, scaled, Where};
use crate::expected::{expected, finite, length_of};
use crate::random::*;
use crate::types::*;
use crate::verdict;

pub fn case(random: &mut Random, entry: u32) -> Option<Call> {
    match entry {
        UPDATE_SCALING => match random.below(3) {
            0 => omega_limit(random, entry),
            _ => scaling_limit(random),
        },
        GRADIENT_PRIMAL | BARRIER_PRIMAL => match random.below(3) {
            0 => omega_limit(random, entry),
            1 => tail_limit(random, entry),
            _ => small_tail(random, entry),
        },
        IS_PRIMAL_FEASIBLE | IS_DUAL_FEASIBLE => Some(match random.below(8) {
            0 => on_the_wall(random, entry),
            1 => vast_point(random, entry),
            _ => at_a_margin(random, entry),
        }),
        BACKTRACK_SEARCH => Some(if random.chance(25) { counted_search(random) } else { search_at_a_margin(random, entry) }),
        STEP_LENGTH => Some(search_at_a_margin(random, entry)),
        HIGHER_CORRECTION | COMBINED_DS_SHIFT => Some(flat_block(random, entry)),
        DUAL_GRAD_H => Some(zeta_limit(random)),
        _ => None,
    }
}

fn call_of(entry: u32, record: Scaling, slices: &[&[f64]]) -> Call {
    let mut call = Call { entry, record, ..Call::ZERO };
    for (slice, numbers) in call.slices.iter_mut().zip(slices) {
        *slice = Slice::of(numbers);
    }
    call
}

// Omega's argument at 0, at the rounded 1+π, and beside them: with s1 = s2 it is 1 - s0/s1.
fn omega_limit(random: &mut Random, entry: u32) -> Option<Call> {
    let limit = random.pick(&[0.0, 1.0 + core::f64::consts::PI, 1.0 + core::f64::consts::PI, 1.0, 2.0]);
    let argument = match random.below(4) {
        0 | 1 => nudged(limit, random.whole(-2, 2)),
        // where the first guess is worst, so that the refinements matter most
        2 => random.unit() * 6.0,
        _ => 3.5 + random.unit() * 4.0,
    };
    let mut s = [1.0 - argument, 1.0, 1.0];
    if random.chance(30) {
        s[0] = random.beside(s[0]);
    }
    let by = random.whole(-40, 40);
    crate::cases::scaled(&mut s, by);
    let cone = good_cone(random, 1);
    let record = record(random, cone);
    Some(match entry {
        GRADIENT_PRIMAL => call_of(entry, record, &[&[0.0; 3], &s]),
        BARRIER_PRIMAL => call_of(entry, record, &[&s]),
        _ => {
            let mut z = [0.0; 3];
            point(random, &cone, true, Where::Inside, &mut z);
            Call { option: 2, numbers: [1.0, 0.0, 0.0], ..call_of(entry, record, &[&s, &z]) }
        }
    })
}

// |s3|, or the norm of the tail, at ε and beside it; heads of such a size that the answer is finite.
fn tail_limit(random: &mut Random, entry: u32) -> Option<Call> {
    let kind = 2 + random.below(2) as u32;
    let mut cone = good_cone(random, kind);
    if kind == 3 && random.chance(50) {
        cone.dim2 = 1;
    }
    let n = length_of(&cone);
    let heads = if kind == 3 { cone.dim1 as usize } else { 2 };
    let mut s = [0.0; MOST];
    let size = random.spread(-56, 2);
    for x in s[..heads].iter_mut() {
        *x = size * (0.5 + random.unit());
    }
    let beside = random.whole(-1, 1);
    s[n - 1] = nudged(f64::EPSILON, beside) * random.sign();
    Some(gradient_or_barrier(random, entry, cone, &s[..n]))
}

// Newton entered with a small tail.
fn small_tail(random: &mut Random, entry: u32) -> Option<Call> {
    let mut cone = good_cone(random, 2);
    if random.chance(30) {
        cone.exps[0] = 0.5;
    }
    let mut s = [random.spread(-30, 30), random.spread(-30, 30), random.spread(-51, 2) * random.sign()];
    if random.chance(20) {
        s[random.below(2)] *= -1.0;
    }
    Some(gradient_or_barrier(random, entry, cone, &s))
}

fn gradient_or_barrier(random: &mut Random, entry: u32, cone: Cone, s: &[f64]) -> Call {
    let mut record = record(random, cone);
    record.scaled = 1;
    if entry == GRADIENT_PRIMAL {
        call_of(entry, record, &[&[0.0; MOST][..s.len()], s])
    } else {
        call_of(entry, record, &[s])
    }
}

// A residue that is computed as zero, or as near to it as can be had.
fn on_the_wall(random: &mut Random, entry: u32) -> Call {
    let dual = entry == IS_DUAL_FEASIBLE;
    let kind = 1 + random.below(3) as u32;
    let mut cone = good_cone(random, kind);
    if random.chance(60) {
        // exact numbers: the logarithm of 1 is 0 and the exponential of 0 is 1
        let mut x = [0.0; MOST];
        let n = length_of(&cone);
        let heads = if kind == 3 { cone.dim1 as usize } else { 2 };
        let size = random.spread(-3, 3);
        if kind == 1 {
            let y = if random.chance(50) { 0.0 } else { random.beside(0.0) };
            x = [0.0; MOST];
            x[..3].copy_from_slice(&if dual { [-size, random.beside(-size), size] } else { [y, size, size] });
        } else {
            if kind == 2 && random.chance(50) {
                cone.exps[0] = 0.5;
            }
            for i in 0..heads {
                let a = if kind == 3 {
                    cone.exps[i]
                } else if i == 0 {
                    cone.exps[0]
                } else {
                    1.0 - cone.exps[0]
                };
                x[i] = if dual { a } else { 1.0 };
            }
            x[n - 1] = random.beside(1.0) * random.sign();
        }
        return call_of(entry, Scaling { cone, ..Scaling::ZERO }, &[&x[..n]]);
    }
    let n = length_of(&cone);
    let mut x = [0.0; MOST];
    point(random, &cone, dual, Where::Wall, &mut x[..n]);
    if kind != 1 && random.chance(20) {
        // a head at zero
        let zero = 0.0 * random.sign();
        x[0] = zero;
        x[n - 1] = 0.0;
    }
    call_of(entry, Scaling { cone, ..Scaling::ZERO }, &[&x[..n]])
}

// ---- the margins of document 02, Order 5

// Writes a point whose residue is at its margin or at minus its margin, or a few units in the last place beside; hands back the coordinate
// that was moved there.
fn margin_point(random: &mut Random, cone: &Cone, dual: bool, out: &mut [f64]) -> usize {
    let style = random.below(9);
    let above = random.chance(50);
    if cone.kind == 1 {
        let (x, mut y) = (coordinate(random, style), coordinate(random, style));
        if random.chance(20) {
            y = x;
        }
        let unit = 1.0 / 1099511627776.0;
        let product = x * ln(y / x);
        let wall = if dual { -x - product } else { product };
        let margin = unit * (x * (1.0 + size(ln(y / x))) + size(wall));
        let at = if above == dual { wall + margin } else { wall - margin };
        out.copy_from_slice(&if dual { [-x, at, y] } else { [at, x, y] });
        if !dual && random.chance(10) {
            // exactly the margin: with l = 0 and s2 = 1 it is 2^-40·(1 + 2^-40) at |s1| of that size
            out.copy_from_slice(&[if above { -unit * (1.0 + unit) } else { unit * (1.0 + unit) }, 1.0, 1.0]);
            let by = random.whole(-400, 400);
            scaled(out, by);
            return 0;
        }
        let moved = dual as usize;
        out[moved] = random.beside(out[moved]);
        return moved;
    }
    let heads = if cone.kind == 3 { cone.dim1 as usize } else { 2 };
    for x in out.iter_mut() {
        *x = 0.0;
    }
    for x in out[..heads].iter_mut() {
        *x = coordinate(random, style);
    }
    // with a tail of 0 the residue is the exponential itself
    let exponential = verdict::measured(cone, !dual, out).map_or(1.0, |(residue, _)| residue);
    let unit = 1.0 / 1073741824.0;
    let norm = root(if above { exponential * ((1.0 - unit) / (1.0 + unit)) } else { exponential * ((1.0 + unit) / (1.0 - unit)) });
    let tail = &mut out[heads..];
    if tail.len() > 1 && random.chance(60) {
        for x in tail.iter_mut() {
            *x = random.unit() * 2.0 - 1.0;
        }
    } else {
        let at = random.below(tail.len());
        tail[at] = random.sign();
    }
    let long = root(tail.iter().fold(0.0, |sum, &x| sum + x * x));
    for x in tail.iter_mut() {
        *x = *x / long * norm;
    }
    let moved = (heads..out.len()).fold(heads, |best, i| if size(out[i]) > size(out[best]) { i } else { best });
    out[moved] = random.beside(out[moved]);
    for x in out.iter_mut() {
        if !finite(*x) {
            *x = 1.0;
        }
    }
    moved
}

fn at_a_margin(random: &mut Random, entry: u32) -> Call {
    let kind = 1 + random.below(3) as u32;
    let cone = good_cone(random, kind);
    let n = length_of(&cone);
    let mut x = [0.0; MOST];
    margin_point(random, &cone, entry == IS_DUAL_FEASIBLE, &mut x[..n]);
    call_of(entry, Scaling { cone, ..Scaling::ZERO }, &[&x[..n]])
}

// A finite point whose residue or margin overflows, or nearly: heads, tails, or both.
fn vast_point(random: &mut Random, entry: u32) -> Call {
    let kind = 1 + random.below(3) as u32;
    let cone = good_cone(random, kind);
    let n = length_of(&cone);
    let heads = if kind == 3 { cone.dim1 as usize } else { 2 };
    let vast = random.below(3);
    let mut x = [0.0; MOST];
    for (i, x) in x[..n].iter_mut().enumerate() {
        let high = if vast == 2 { random.chance(50) } else { (i < heads) == (vast == 0) };
        *x = if high { random.spread(505, 1023) } else { random.spread(-4, 4) };
        if i >= heads {
            *x *= random.sign();
        }
    }
    if kind == 1 {
        let high = random.below(3);
        for (i, x) in x[..3].iter_mut().enumerate() {
            *x = if i == high || random.chance(30) { random.spread(1000, 1023) } else { random.spread(-4, 4) };
        }
        x[if entry == IS_DUAL_FEASIBLE { 0 } else { 1 }] *= if entry == IS_DUAL_FEASIBLE { -1.0 } else { 1.0 };
        x[if entry == IS_DUAL_FEASIBLE { 1 } else { 0 }] *= random.sign();
    }
    call_of(entry, Scaling { cone, ..Scaling::ZERO }, &[&x[..n]])
}

// Searches of which a trial has its residue at a margin, or of which the first trials overflow.
fn search_at_a_margin(random: &mut Random, entry: u32) -> Call {
    let kind = 1 + random.below(3) as u32;
    let cone = good_cone(random, kind);
    let n = length_of(&cone);
    let overflows = random.chance(20);
    let exponent = if overflows { random.whole(20, 120) } else { random.whole(-3, 3) };
    let start = f64::from_bits(((exponent + 1023) as u64) << 52);
    let step = random.pick(&[0.5, 0.5, 0.8, 0.25, 0.99]);
    let smallest = if overflows { start * random.pick(&[0.25, 0.001, 1e-30]) } else { start * random.pick(&[0.5, 0.05, 0.0001]) };
    let option = random.below(2) as u32;
    let mut sides = [([0.0; MOST], [0.0; MOST]); 2];
    for (side, (dq, q)) in sides.iter_mut().enumerate() {
        // step_length: the dual side first
        let dual = if entry == STEP_LENGTH { side == 0 } else { option == 0 };
        if overflows {
            point(random, &cone, dual, Where::Inside, &mut q[..n]);
            for x in dq[..n].iter_mut() {
                *x = if random.chance(50) { 0.0 } else { random.spread(880, 1023) * random.sign() };
            }
            continue;
        }
        let moved = margin_point(random, &cone, dual, &mut q[..n]);
        if random.chance(60) {
            let mut trial = start;
            for _ in 0..random.below(4) {
                trial *= step;
            }
            let by = random.spread(-45, 0) * random.sign();
            dq[moved] = q[moved] * by;
            q[moved] -= trial * dq[moved];
        }
    }
    let record = Scaling { cone, ..Scaling::ZERO };
    let [(dz, z), (ds, s)] = &sides;
    let untouched = [1.0; MOST];
    let mut call = if entry == STEP_LENGTH {
        call_of(entry, record, &[&dz[..n], &ds[..n], &z[..n], &s[..n], &untouched[..n], &untouched[..n]])
    } else {
        call_of(entry, record, &[&dz[..n], &z[..n], &untouched[..n]])
    };
    call.option = if entry == STEP_LENGTH { 0 } else { option };
    call.numbers = [start, step, smallest];
    call
}

// Searches whose number of tests is known: none passes, or the last one does.
fn counted_search(random: &mut Random) -> Call {
    let cone = good_cone(random, 1);
    let binary = |n: i64| f64::from_bits(((n + 1023) as u64) << 52);
    let exponent = random.whole(-900, 900);
    let settings = match random.below(5) {
        0 => [1.0, 0.8, 0.0001],
        1 => [binary(exponent), 0.99, binary(exponent - 1)],
        2 => [binary(exponent), 0.5, binary(exponent - random.whole(0, 60))],
        3 => [binary(exponent), 0.99, binary(exponent - random.whole(0, 8))],
        _ => [size(random.subnormal()), 0.99, f64::MIN_POSITIVE],
    };
    let primal = random.below(2) as u32;
    let (mut q, mut dq) = ([0.0; 3], [0.0; 3]);
    point(random, &cone, primal == 0, Where::Outside, &mut q);
    if random.chance(50) {
        // leaves the cone at about the smallest step
        point(random, &cone, primal == 0, Where::Inside, &mut q);
        let by = -q[1] / settings[2] * (0.25 + random.unit());
        dq[if primal == 1 { 1 } else { 2 }] = if finite(by) { by } else { -1.0 };
    }
    let mut call = call_of(BACKTRACK_SEARCH, Scaling { cone, ..Scaling::ZERO }, &[&dq, &q, &[1.0; 3]]);
    call.option = primal;
    call.numbers = settings;
    call
}

// A block with a pivot that is zero, or as near to it as can be had, or NaN.
fn flat_block(random: &mut Random, entry: u32) -> Call {
    let kind = 1 + random.below(2) as u32;
    let cone = good_cone(random, kind);
    let mut record = record(random, cone);
    record.scaled = 1;
    let mut l = [0.0; 6];
    for x in l.iter_mut() {
        *x = random.simple();
    }
    l[0] = 1.0 + random.below(3) as f64;
    match random.below(4) {
        0 => l[2] = 0.0,
        1 => l[5] = 0.0,
        2 => l[0] = 0.0,
        _ => {}
    }
    let h = &mut record.three.h_dual;
    *h = [
        l[0] * l[0],
        l[0] * l[1],
        l[1] * l[1] + l[2] * l[2],
        l[0] * l[3],
        l[1] * l[3] + l[2] * l[4],
        l[3] * l[3] + l[4] * l[4] + l[5] * l[5],
    ];
    if random.chance(30) {
        let at = random.below(6);
        h[at] = random.beside(h[at]);
    }
    if random.chance(15) {
        // a third pivot that is NaN: 0 times an l20 that overflows
        *h = [size(random.subnormal()), 0.0, 1.0, 1e300, 1.0, 1.0];
    }
    let (mut ds, mut v) = ([0.0; 3], [0.0; 3]);
    for i in 0..3 {
        ds[i] = random.simple();
        v[i] = random.simple();
    }
    let mut call = call_of(entry, record, &[&[0.0; 3], &ds, &v]);
    call.numbers[0] = if entry == COMBINED_DS_SHIFT { multiplier(random) } else { 0.0 };
    call
}

// zeta at 0: phi is 1 where each head is its exponent, so a tail of size 1 makes it 0.
fn zeta_limit(random: &mut Random) -> Call {
    let cone = good_cone(random, 3);
    let n = length_of(&cone);
    let mut z = [0.0; MOST];
    z[..cone.dim1 as usize].copy_from_slice(&cone.exps[..cone.dim1 as usize]);
    z[n - 1] = random.beside(1.0) * random.sign();
    if random.chance(20) {
        z[0] = -z[0];
    }
    call_of(DUAL_GRAD_H, Scaling { cone, ..Scaling::ZERO }, &[&z[..n]])
}

// ---- the limits of the primal-dual scaling

// What the four tests of use_primal_dual_scaling look at, by the Rust's gradients.
fn watched(cone: &Cone, s: &[f64; 3], z: &[f64; 3]) -> Option<[f64; 4]> {
    let record = Scaling { cone: *cone, ..Scaling::ZERO };
    let dual = expected(&call_of(DUAL_GRAD_H, record, &[z]));
    let primal = expected(&call_of(GRADIENT_PRIMAL, record, &[&[0.0; 3], s]));
    if dual.reply.code != 0 || primal.reply.code != 0 {
        return None;
    }
    let st = dual.reply.three.grad;
    let h = dual.reply.three.h_dual;
    let zt = primal.slices[0].numbers();
    let dot = |x: &[f64], y: &[f64]| 0.0 + x[0] * y[0] + x[1] * y[1] + x[2] * y[2];
    let dot_sz = dot(s, z);
    let mu = dot_sz / 3.0;
    let mut_ = dot(&st, zt) / 3.0;
    let ds: [f64; 3] = core::array::from_fn(|i| s[i] + mu * st[i]);
    let dz: [f64; 3] = core::array::from_fn(|i| z[i] + mu * zt[i]);
    let hz = [
        h[0] * zt[0] + h[1] * zt[1] + h[3] * zt[2],
        h[1] * zt[0] + h[2] * zt[1] + h[4] * zt[2],
        h[3] * zt[0] + h[4] * zt[1] + h[5] * zt[2],
    ];
    Some([mu * mut_ - 1.0, dot(zt, &hz) - 3.0 * mut_ * mut_, dot_sz, dot(&ds, &dz)])
}

// s and z moved until one of the four numbers is at its limit, or one unit beside it.
fn scaling_limit(random: &mut Random) -> Option<Call> {
    let kind = 1 + random.below(2) as u32;
    let mut cone = good_cone(random, kind);
    if kind == 2 {
        cone.exps[0] = if random.chance(50) { 0.1 + 0.8 * random.unit() } else { exponent(random) };
    }
    let which = random.below(4);
    let limit = [1.0 / 67108864.0, f64::EPSILON, 0.0, 0.0][which];
    let (mut z, mut s, mut to) = ([0.0; 3], [0.0; 3], [0.0; 3]);
    point(random, &cone, true, Where::Inside, &mut z);
    let central = expected(&call_of(DUAL_GRAD_H, Scaling { cone, ..Scaling::ZERO }, &[&z]));
    if central.reply.code != 0 {
        return None;
    }
    for i in 0..3 {
        s[i] = -central.reply.three.grad[i];
    }
    match which {
        0 => {
            for i in 0..3 {
                to[i] = s[i] * (1.0 + 0.01 * (random.unit() - 0.5));
            }
        }
        1 => {
            // off the central path by a moderate part; the size of s then decides
            let off = random.spread(-12, -2);
            for i in 0..3 {
                s[i] *= 1.0 + off * (random.unit() - 0.5);
                to[i] = s[i] * 1e12;
            }
        }
        _ => {
            let place = if random.chance(50) { Where::Outside } else { Where::Any };
            point(random, &cone, false, place, &mut to);
            if which == 2 {
                for i in 0..3 {
                    to[i] = -s[i] + random.unit();
                }
            }
        }
    }
    let value = |s: &[f64; 3], z: &[f64; 3]| watched(&cone, s, z).map(|all| if which < 2 { size(all[which]) - limit } else { all[which] });
    // between s and `to` the number crosses its limit, if it does
    let first = value(&s, &z)?;
    let last = value(&to, &z)?;
    if (first > 0.0) == (last > 0.0) {
        return None;
    }
    for _ in 0..80 {
        let middle: [f64; 3] = core::array::from_fn(|i| s[i] + (to[i] - s[i]) / 2.0);
        match value(&middle, &z) {
            Some(v) if (v > 0.0) == (first > 0.0) => s = middle,
            Some(_) => to = middle,
            None => break,
        }
    }
    let mut best = (size(value(&s, &z)?), s, z);
    for _ in 0..60 {
        if best.0 == 0.0 {
            break;
        }
        let near_s: [f64; 3] = core::array::from_fn(|i| random.beside(s[i]));
        let near_z: [f64; 3] = core::array::from_fn(|i| if random.chance(30) { random.beside(z[i]) } else { z[i] });
        if let Some(v) = value(&near_s, &near_z) {
            if size(v) < best.0 {
                best = (size(v), near_s, near_z);
            }
        }
    }
    let (_, s, z) = best;
    Some(Call { option: 2, numbers: [1.0, 0.0, 0.0], ..call_of(UPDATE_SCALING, Scaling { cone, ..Scaling::ZERO }, &[&s, &z]) })
}
