// Calls aimed at the limits: points inside, on and beside the wall and far outside, exponent sums at the limits of both rules, special numbers in each
// place, every refusal alone and in pairs.

use crate::aimed;
use crate::cones::Oracle;
use crate::expected::{cone_is_bad, expected, length_of};
use crate::random::*;
use crate::sums::{self, NO_RULES, TOLERANCES};
use crate::types::*;

// How often each entry is called, in the order of ENTRIES.
const WEIGHTS: [usize; 24] = [2, 6, 6, 6, 8, 1, 10, 8, 2, 3, 2, 2, 14, 12, 6, 8, 3, 5, 9, 5, 2, 3, 3, 3];

// What may be wrong with a call, by the number that it aims at, in the table's order.
pub const FLAWS: [usize; 9] = [1, 2, 3, 4, 11, 5, 10, 6, 7];

pub struct Case {
    pub call: Call,
    // which flaws were put in, as a set of bits 1 << number
    pub flaws: u32,
    // made by aimed.rs
    pub aimed: bool,
}

pub fn case(random: &mut Random, only: Option<u32>) -> Case {
    let entry = match only {
        Some(entry) => entry,
        None => chosen(random, &WEIGHTS) as u32,
    };
    if is_plain(entry) {
        return Case { call: plain_case(random, entry), flaws: 0, aimed: false };
    }
    let share = match entry {
        IS_PRIMAL_FEASIBLE | IS_DUAL_FEASIBLE => 250,
        BACKTRACK_SEARCH | STEP_LENGTH => 100,
        _ => 20,
    };
    if random.below(1000) < share {
        if let Some(mut call) = aimed::case(random, entry) {
            expect(&mut call);
            return Case { call, flaws: 0, aimed: true };
        }
    }
    let at_a_limit = takes_kind_3(entry) && random.below(1000) < 20;
    let mut call = if at_a_limit { sum_at_a_limit(random, entry) } else { good_case(random, entry) };
    expect(&mut call);
    let mut flaws = 0;
    let count = match random.below(10) {
        0..=5 => 0,
        6 | 7 => 1,
        _ => 2,
    };
    for _ in 0..count {
        let number = FLAWS[random.below(FLAWS.len())];
        if put_flaw(random, &mut call, number) {
            flaws |= 1 << number;
        }
    }
    Case { call, flaws, aimed: false }
}

// The call expects the serial that its record has.
fn expect(call: &mut Call) {
    if names_serial(call.entry) {
        call.option = call.record.serial;
    }
}

fn chosen(random: &mut Random, weights: &[usize]) -> usize {
    let mut left = random.below(weights.iter().sum());
    for (i, &weight) in weights.iter().enumerate() {
        if left < weight {
            return i;
        }
        left -= weight;
    }
    0
}

fn plain_case(random: &mut Random, entry: u32) -> Call {
    let mut call = Call { entry, ..Call::ZERO };
    for x in call.numbers.iter_mut() {
        *x = match random.below(10) {
            0 => random.nonfinite(),
            1 => random.special(),
            2 => f64::from_bits(random.next()),
            3 => random.spread(-40, 40) * random.sign(),
            4 => 1.0 + random.unit() * random.sign() / (1u64 << random.below(52)) as f64,
            5..=7 => {
                let border = match random.below(3) {
                    0 => 1.0 + random.below(257) as f64 / 256.0,
                    1 => random.whole(-1023, 1023) as f64 * core::f64::consts::LN_2,
                    _ => random.pick(&[709.0, -708.0, 0.0, -0.0, 1.0, 2.0, 0.5]),
                };
                random.beside(border)
            }
            _ => random.unit() * 1420.0 - 710.0,
        };
    }
    if entry == POWF && random.chance(60) {
        call.numbers[0] = size(random.spread(-60, 60));
        call.numbers[1] = match random.below(4) {
            0 => random.pick(&[0.0, -0.0, 1.0, 2.0, -1.0, 0.5, 3.0]),
            1 => {
                let near = random.pick(&[0.0, 1.0, 2.0]);
                random.beside(near)
            }
            _ => random.unit() * 4.0 - 1.0,
        };
    }
    call
}

// ---- cones

// a power exponent that is above 0 and below 1
pub fn exponent(random: &mut Random) -> f64 {
    match random.below(12) {
        0 | 1 => 0.5,
        2 => random.beside(0.5),
        3 => random.pick(&[0.3, 0.25, 0.75, 0.125, 0.7, 0.1, 0.9, 0.6, 0.4, 1.0 / 3.0]),
        4 => 1.0 - f64::EPSILON / 2.0 * (1 + random.below(4)) as f64,
        5 => 1.0 - random.spread(-52, -2),
        6 => random.spread(-60, -2),
        7 => random.pick(&[f64::from_bits(1), f64::MIN_POSITIVE, 1e-300, 1e-100, 1e-17, f64::EPSILON]),
        _ => {
            let x = random.unit();
            if x == 0.0 {
                0.5
            } else {
                x
            }
        }
    }
}

fn sum_of(exps: &[f64]) -> f64 {
    exps.iter().fold(0.0, |sum, &a| sum + a)
}

// exponents whose computed sum is near 1, or as near as asked
fn exponents(random: &mut Random, exps: &mut [f64]) {
    let n = exps.len();
    let style = random.below(6);
    for a in exps.iter_mut() {
        *a = match style {
            0 => 1.0,
            1 => random.spread(-60, 0),
            2 => random.spread(-1000, 0),
            _ => 0.02 + random.unit(),
        };
    }
    let total = sum_of(exps);
    for a in exps.iter_mut() {
        *a /= total;
        if *a == 0.0 {
            *a = f64::MIN_POSITIVE;
        }
    }
    if random.chance(25) {
        aim_sum(random, exps);
    }
    if n == 1 && exps[0] > 1.0 {
        exps[0] = 1.0;
    }
}

// a sum at 1 - 2^-40, 1 + 2^-40, 1 - 2^-50 or 1 + 2^-50, on either side of it, or at 1; now and then one that depends on its order
fn aim_sum(random: &mut Random, exps: &mut [f64]) {
    let n = exps.len();
    let beside = random.whole(-2, 2);
    let tolerance = random.pick(&TOLERANCES);
    let target = nudged(random.pick(&[1.0, 1.0 - tolerance, 1.0 + tolerance]), beside);
    if n > 2 && random.chance(25) {
        sums::crumbled(exps, target, random.chance(50));
        return;
    }
    reach(exps, target);
}

// the largest exponent moved until the sum is the target, where it can be had
fn reach(exps: &mut [f64], target: f64) {
    let largest = (0..exps.len()).fold(0, |best, i| if exps[i] > exps[best] { i } else { best });
    for _ in 0..20 {
        let sum = sum_of(exps);
        if sum == target {
            break;
        }
        exps[largest] += target - sum;
    }
}

fn dimension(random: &mut Random) -> u32 {
    match random.below(10) {
        0 | 1 => 1,
        2 | 3 => 2,
        4 | 5 => 3,
        6 => 32,
        7 => 31,
        _ => 1 + random.below(32) as u32,
    }
}

pub fn good_cone(random: &mut Random, kind: u32) -> Cone {
    let mut cone = Cone { kind, rule: 1 + random.below(2) as u32, ..Cone::ZERO };
    if kind == 3 {
        cone.dim1 = dimension(random);
        cone.dim2 = dimension(random);
        for _ in 0..10 {
            exponents(random, &mut cone.exps[..cone.dim1 as usize]);
            if !cone_is_bad(&cone, FRESH) {
                break;
            }
        }
    } else if random.chance(40) {
        cone.dim1 = random.next() as u32;
        cone.dim2 = random.below(40) as u32;
    }
    if kind == 2 {
        cone.exps[0] = exponent(random);
    }
    if random.chance(30) {
        let used = match kind {
            1 => 0,
            2 => 1,
            _ => cone.dim1 as usize,
        };
        for a in cone.exps[used..].iter_mut() {
            *a = random.junk();
        }
    }
    cone
}

// ---- points

// Where a point lies against its cone's wall.
#[derive(Clone, Copy, PartialEq)]
pub enum Where {
    Inside,
    // within a few units in the last place of the computed wall, on it included
    Wall,
    Outside,
    Any,
}

pub fn place(random: &mut Random) -> Where {
    match random.below(10) {
        0..=5 => Where::Inside,
        6 | 7 => Where::Wall,
        8 => Where::Outside,
        _ => Where::Any,
    }
}

// the sizes of a point's coordinates
pub fn coordinate(random: &mut Random, style: usize) -> f64 {
    match style {
        0 => 0.25 * (1 + random.below(16)) as f64,
        1 => random.spread(-20, 20),
        2 => random.spread(-300, 300),
        3 => random.spread(-1022, 1023),
        _ => 0.1 + 3.0 * random.unit(),
    }
}

// For kinds 2 and 3 the size that the tail has on the wall.
fn wall(cone: &Cone, dual: bool, heads: &[f64]) -> f64 {
    let mut sum = 0.0;
    for (i, &x) in heads.iter().enumerate() {
        let a = if cone.kind == 3 {
            cone.exps[i]
        } else if i == 0 {
            cone.exps[0]
        } else {
            1.0 - cone.exps[0]
        };
        sum += a * ln(if dual { x / a } else { x });
    }
    e_to(sum)
}

pub fn point(random: &mut Random, cone: &Cone, dual: bool, place: Where, out: &mut [f64]) {
    let style = random.below(9);
    if place == Where::Any {
        let style = random.below(4);
        for x in out.iter_mut() {
            *x = match style {
                0 => random.wild(),
                1 => random.special(),
                2 => random.simple(),
                _ => random.spread(-10, 10) * random.sign(),
            };
        }
        return;
    }
    if cone.kind == 1 {
        // primal: s1·log(s2/s1) - s0 above 0; dual: z1 - z0 - z0·log(-z2/z0) above 0
        let (x, y) = (coordinate(random, style), coordinate(random, style));
        let inside = x * (0.001 + 3.0 * random.unit());
        let moved = match place {
            Where::Inside => inside,
            Where::Outside => -inside,
            _ => 0.0,
        };
        if dual {
            let wall = -x - x * ln(y / x);
            *out_at(out, 0) = -x;
            *out_at(out, 1) = wall + moved;
            *out_at(out, 2) = y;
            if place == Where::Wall {
                out[1] = random.beside(out[1]);
            }
        } else {
            let wall = x * ln(y / x);
            *out_at(out, 0) = wall - moved;
            *out_at(out, 1) = x;
            *out_at(out, 2) = y;
            if place == Where::Wall {
                out[0] = random.beside(out[0]);
            }
        }
    } else {
        let heads = if cone.kind == 3 { cone.dim1 as usize } else { 2 };
        for x in out[..heads].iter_mut() {
            *x = coordinate(random, style);
        }
        let share = match place {
            Where::Inside => match random.below(8) {
                0 => 0.0,
                1 => random.spread(-60, -5),
                2 => 1.0 - random.spread(-40, -3),
                _ => random.unit(),
            },
            Where::Outside => 1.0 + random.spread(-20, 20),
            _ => 1.0,
        };
        let size = wall(cone, dual, &out[..heads]) * share;
        // the tail's direction: one coordinate, or many
        let tail = &mut out[heads..];
        if tail.len() == 1 || random.chance(30) {
            for x in tail.iter_mut() {
                *x = 0.0;
            }
            let at = random.below(tail.len());
            tail[at] = size * random.sign();
        } else {
            for x in tail.iter_mut() {
                *x = random.unit() * 2.0 - 1.0;
            }
            if random.chance(30) {
                let at = random.below(tail.len());
                tail[at] = -0.0;
            }
            let norm = root(tail.iter().fold(0.0, |sum, &x| sum + x * x));
            for x in tail.iter_mut() {
                *x = *x / norm * size;
            }
        }
        if place == Where::Wall {
            let at = random.below(out.len());
            out[at] = random.beside(out[at]);
        }
    }
    if random.chance(15) {
        // the whole point at another size
        let by = random.whole(-520, 520);
        scaled(out, by);
    }
    for x in out.iter_mut() {
        if !(*x - *x == 0.0) {
            *x = random.wild();
        }
    }
    if random.chance(12) {
        let at = random.below(out.len());
        out[at] = if random.chance(70) { random.special() } else { random.wild() };
    }
}

fn out_at(out: &mut [f64], i: usize) -> &mut f64 {
    &mut out[i]
}

// times a power of two
pub fn scaled(out: &mut [f64], by: i64) {
    let half = f64::from_bits(((by / 2 + 1023) as u64) << 52);
    let rest = f64::from_bits(((by - by / 2 + 1023) as u64) << 52);
    for x in out.iter_mut() {
        let moved = *x * half * rest;
        if moved - moved == 0.0 {
            *x = moved;
        }
    }
}

pub fn direction(random: &mut Random, out: &mut [f64]) {
    let style = random.below(7);
    let range = random.whole(-30, 30);
    for x in out.iter_mut() {
        *x = match style {
            0 => 0.0,
            1 => random.simple(),
            2 => random.special(),
            3 => random.wild(),
            4 => random.spread(range, range + 3) * random.sign(),
            _ => random.unit() * 2.0 - 1.0,
        };
    }
}

// ---- settings of a search

pub fn settings(random: &mut Random) -> [f64; 3] {
    let start = match random.below(10) {
        0..=3 => 1.0,
        4 => random.pick(&[0.99, 0.5, 2.0, 0.1, 4.0]),
        5 => random.spread(-20, 20),
        6 => random.spread(-1022, 1023),
        7 => size(random.subnormal()),
        8 => size(random.special()),
        _ => random.unit(),
    };
    let start = if start == 0.0 { 1.0 } else { start };
    let step = match random.below(10) {
        0..=2 => 0.8,
        3 | 4 => 0.5,
        5 => 0.99,
        6 => nudged(0.99, -(random.below(3) as i64)),
        7 => random.pick(&[f64::from_bits(1), f64::MIN_POSITIVE, 1e-300, 0.25, 0.001, 0.125]),
        _ => 0.99 * random.unit(),
    };
    let step = if step == 0.0 { 0.5 } else { step };
    let mut smallest = match random.below(10) {
        0..=2 => 0.0001,
        3 => f64::MIN_POSITIVE,
        4 => start,
        5 => {
            // a trial exactly, or one unit beside it
            let mut trial = start;
            for _ in 0..random.below(30) {
                trial *= step;
            }
            random.beside(trial)
        }
        6 => start * f64::from_bits(((1023 - random.below(12)) as u64) << 52),
        7 => random.beside(start),
        8 => random.spread(-1022, 1023),
        _ => random.spread(-40, 0),
    };
    if !(smallest >= f64::MIN_POSITIVE) || !(smallest <= f64::MAX) {
        smallest = f64::MIN_POSITIVE;
    }
    // a long search now and then only
    let most = ln(smallest / start) / ln(step);
    if !(most < 400.0) && random.below(1000) > 5 {
        smallest = size(start * 0.015625);
        if smallest < f64::MIN_POSITIVE {
            smallest = f64::MIN_POSITIVE;
        }
    }
    [start, step, smallest]
}

// ---- records

// the numbers of a record that its kind uses, in order
pub fn used(record: &mut Scaling, f: &mut dyn FnMut(&mut f64)) {
    if record.cone.kind == 3 {
        let dim1 = (record.cone.dim1 as usize).min(32);
        let dim2 = (record.cone.dim2 as usize).min(32);
        let wide = &mut record.wide;
        wide.z[..dim1 + dim2].iter_mut().for_each(&mut *f);
        f(&mut wide.mu);
        wide.grad[..dim1 + dim2].iter_mut().for_each(&mut *f);
        wide.p[..dim1 + dim2].iter_mut().for_each(&mut *f);
        wide.q[..dim1].iter_mut().for_each(&mut *f);
        wide.r[..dim2].iter_mut().for_each(&mut *f);
        wide.d1[..dim1].iter_mut().for_each(&mut *f);
        f(&mut wide.d2);
    } else {
        let three = &mut record.three;
        three.z.iter_mut().for_each(&mut *f);
        three.grad.iter_mut().for_each(&mut *f);
        three.h_dual.iter_mut().for_each(&mut *f);
        three.hs.iter_mut().for_each(&mut *f);
    }
}

// every number of a record that its kind does not use
fn unused(record: &mut Scaling, f: &mut dyn FnMut(&mut f64)) {
    if record.cone.kind == 3 {
        let dim1 = (record.cone.dim1 as usize).min(32);
        let dim2 = (record.cone.dim2 as usize).min(32);
        let three = &mut record.three;
        three.z.iter_mut().for_each(&mut *f);
        three.grad.iter_mut().for_each(&mut *f);
        three.h_dual.iter_mut().for_each(&mut *f);
        three.hs.iter_mut().for_each(&mut *f);
        let wide = &mut record.wide;
        wide.z[dim1 + dim2..].iter_mut().for_each(&mut *f);
        wide.grad[dim1 + dim2..].iter_mut().for_each(&mut *f);
        wide.p[dim1 + dim2..].iter_mut().for_each(&mut *f);
        wide.q[dim1..].iter_mut().for_each(&mut *f);
        wide.r[dim2..].iter_mut().for_each(&mut *f);
        wide.d1[dim1..].iter_mut().for_each(&mut *f);
    } else {
        let wide = &mut record.wide;
        wide.z.iter_mut().for_each(&mut *f);
        f(&mut wide.mu);
        wide.grad.iter_mut().for_each(&mut *f);
        wide.p.iter_mut().for_each(&mut *f);
        wide.q.iter_mut().for_each(&mut *f);
        wide.r.iter_mut().for_each(&mut *f);
        wide.d1.iter_mut().for_each(&mut *f);
        f(&mut wide.d2);
    }
}

pub fn multiplier(random: &mut Random) -> f64 {
    match random.below(8) {
        0 => 1.0,
        1 => random.special(),
        2 => random.simple(),
        3 => random.spread(-300, 300),
        _ => random.spread(-10, 3),
    }
}

// s and z for an update: each from its own side, or s near the central path through z
pub fn update_points(random: &mut Random, cone: &Cone, s: &mut [f64], z: &mut [f64]) {
    let at = place(random);
    point(random, cone, true, at, z);
    let at = place(random);
    point(random, cone, false, at, s);
    if cone.kind != 3 && random.chance(30) {
        let mut oracle = Oracle::of(cone, &Scaling::ZERO);
        oracle.nonsymmetric().update_dual_grad_H(z);
        let mut record = Scaling::ZERO;
        oracle.store(&mut record);
        let c = random.spread(-6, 6);
        let far = if random.chance(20) { 0.0 } else { random.spread(-40, -2) };
        for i in 0..3 {
            let x = -c * record.three.grad[i] * (1.0 + far * (random.unit() * 2.0 - 1.0));
            s[i] = if x - x == 0.0 { x } else { 1.0 };
        }
    }
    if cone.kind != 3 && random.chance(8) {
        // far apart in size, with a product near 1
        let by = random.whole(100, 500);
        let sign = random.whole(0, 1) * 2 - 1;
        let beside = random.whole(-12, 40);
        scaled(z, -by * sign);
        scaled(s, by * sign + beside);
    }
}

// a serial that another follows
fn serial(random: &mut Random) -> u32 {
    match random.below(8) {
        0..=3 => 0,
        4 => 1 + random.below(4) as u32,
        5 => u32::MAX - 1 - random.below(3) as u32,
        6 => [255, 256, 65535, 1 << 16, i32::MAX as u32, 1 << 31][random.below(6)],
        _ => (random.next() as u32).min(u32::MAX - 1),
    }
}

// a yes: every value but 0 is one
pub fn yes(random: &mut Random) -> u32 {
    if random.chance(70) {
        1
    } else {
        [2, 255, 256, 1 << 16, 1 << 31, u32::MAX][random.below(6)]
    }
}

// By updates from a fresh record, or forged: then `scaled` and the serial may disagree.
pub fn record(random: &mut Random, cone: Cone) -> Scaling {
    let mut record = Scaling { cone, serial: serial(random), ..Scaling::ZERO };
    let n = length_of(&cone);
    match random.below(20) {
        0 | 1 => {}
        2 => record.scaled = yes(random),
        3..=5 => {
            record.scaled = if random.chance(90) { yes(random) } else { 0 };
            let style = random.below(5);
            used(&mut record, &mut |x| {
                *x = match style {
                    0 => random.wild(),
                    1 => random.special(),
                    2 => random.simple(),
                    3 => random.unit() * 2.0 - 1.0,
                    _ => random.spread(-30, 30) * random.sign(),
                }
            });
        }
        other => {
            // by an update; its points tried until it is completed
            for _ in 0..6 {
                let mut call = Call { entry: UPDATE_SCALING, option: 1 + random.below(2) as u32, record, ..Call::ZERO };
                let (mut s, mut z) = ([0.0; MOST], [0.0; MOST]);
                update_points(random, &cone, &mut s[..n], &mut z[..n]);
                call.slices[0] = Slice::of(&s[..n]);
                call.slices[1] = Slice::of(&z[..n]);
                call.numbers[0] = multiplier(random);
                let answer = expected(&call);
                if answer.reply.code == 0 {
                    record = answer.reply.record;
                    break;
                }
            }
            if other == 19 {
                // one number changed
                let mut count = 0;
                used(&mut record, &mut |_| count += 1);
                let at = random.below(count);
                let mut i = 0;
                used(&mut record, &mut |x| {
                    if i == at {
                        *x = random.special();
                    }
                    i += 1;
                });
            }
            if other == 18 && cone.kind != 3 {
                // a block that is positive definite without belonging to any point
                record.scaled = yes(random);
                let h = &mut record.three.h_dual;
                let l: [f64; 6] = core::array::from_fn(|_| random.unit() * 2.0 - 1.0);
                h[0] = l[0] * l[0];
                h[1] = l[0] * l[1];
                h[2] = l[1] * l[1] + l[2] * l[2];
                h[3] = l[0] * l[3];
                h[4] = l[1] * l[3] + l[2] * l[4];
                h[5] = l[3] * l[3] + l[4] * l[4] + if random.chance(50) { l[5] * l[5] } else { 0.0 };
            }
        }
    }
    if random.chance(30) {
        unused(&mut record, &mut |x| *x = random.junk());
    }
    record
}

// ---- calls

pub fn kind_of(random: &mut Random, entry: u32) -> u32 {
    if entry == HIGHER_CORRECTION || entry == COMBINED_DS_SHIFT {
        return if random.chance(5) { 3 } else { 1 + random.below(2) as u32 };
    }
    1 + random.below(3) as u32
}

pub fn good_case(random: &mut Random, entry: u32) -> Call {
    let kind = kind_of(random, entry);
    let cone = good_cone(random, kind);
    good_case_of(random, entry, cone)
}

// A generalized cone whose sum is at a limit of a rule or the next double beyond it, under either rule; everything else is as in a good call.
fn sum_at_a_limit(random: &mut Random, entry: u32) -> Call {
    let mut cone = good_cone(random, 3);
    let exps = &mut cone.exps[..cone.dim1 as usize];
    let sum = sums::sum(random.below(sums::SUMS));
    if exps.len() > 2 && random.chance(30) {
        sums::crumbled(exps, sum, random.chance(50));
    } else {
        reach(exps, sum);
    }
    good_case_of(random, entry, cone)
}

fn good_case_of(random: &mut Random, entry: u32, cone: Cone) -> Call {
    let kind = cone.kind;
    let n = length_of(&cone);
    let mut call = Call { entry, ..Call::ZERO };
    call.record = if entry_of(&call).takes_record { record(random, cone) } else { Scaling { cone, ..Scaling::ZERO } };
    // what a slice that is only written holds is judged by nobody
    for (slice, &(_, lent)) in call.slices.iter_mut().zip(entry_of(&Call { entry, ..Call::ZERO }).slices) {
        let mut numbers = [0.0; MOST];
        let junk = random.chance(50);
        for x in numbers.iter_mut() {
            *x = if junk { random.junk() } else { random.simple() };
        }
        let length = if lent == Lent::Block && kind != 3 { 6 } else { n };
        *slice = Slice::of(&numbers[..length]);
    }
    let lent = |call: &mut Call, i: usize, random: &mut Random, dual: bool| {
        let at = place(random);
        point(random, &cone, dual, at, call.slices[i].numbers_mut());
    };
    match entry {
        IS_PRIMAL_FEASIBLE | BARRIER_PRIMAL => lent(&mut call, 0, random, false),
        IS_DUAL_FEASIBLE | BARRIER_DUAL | DUAL_GRAD_H => lent(&mut call, 0, random, true),
        GRADIENT_PRIMAL => lent(&mut call, 1, random, false),
        BACKTRACK_SEARCH => {
            call.option = random.below(2) as u32;
            call.numbers = settings(random);
            let dual = call.option == 0;
            let (dq, q) = search_points(random, &cone, dual, &call.numbers);
            call.slices[0].numbers_mut().copy_from_slice(&dq[..n]);
            call.slices[1].numbers_mut().copy_from_slice(&q[..n]);
        }
        STEP_LENGTH => {
            call.numbers = settings(random);
            for side in 0..2 {
                let (dq, q) = search_points(random, &cone, side == 0, &call.numbers);
                call.slices[side].numbers_mut().copy_from_slice(&dq[..n]);
                call.slices[2 + side].numbers_mut().copy_from_slice(&q[..n]);
            }
        }
        RECTIFY_EQUILIBRATION | AFFINE_DS => direction(random, call.slices[1].numbers_mut()),
        DS_FROM_DZ_OFFSET => {
            direction(random, call.slices[1].numbers_mut());
            direction(random, call.slices[2].numbers_mut());
        }
        UPDATE_SCALING => {
            let (mut s, mut z) = ([0.0; MOST], [0.0; MOST]);
            update_points(random, &cone, &mut s[..n], &mut z[..n]);
            call.slices[0].numbers_mut().copy_from_slice(&s[..n]);
            call.slices[1].numbers_mut().copy_from_slice(&z[..n]);
            call.numbers[0] = multiplier(random);
            call.option = if random.chance(25) { 1 } else { 2 };
        }
        COMPUTE_BARRIER => {
            lent(&mut call, 0, random, true);
            lent(&mut call, 1, random, false);
            direction(random, call.slices[2].numbers_mut());
            direction(random, call.slices[3].numbers_mut());
            call.numbers[0] = match random.below(6) {
                0 => 0.0,
                1 => random.special(),
                2 => random.simple(),
                _ => random.spread(-40, 0),
            };
        }
        MUL_HS => direction(random, call.slices[1].numbers_mut()),
        HIGHER_CORRECTION | COMBINED_DS_SHIFT => {
            direction(random, call.slices[1].numbers_mut());
            direction(random, call.slices[2].numbers_mut());
            call.numbers[0] = multiplier(random);
        }
        _ => {}
    }
    if entry != COMBINED_DS_SHIFT && entry_of(&call).numbers.is_empty() {
        call.numbers = [0.0; 3];
    }
    call
}

// a start and a direction; often one that leaves the cone at a trial in the middle
pub fn search_points(random: &mut Random, cone: &Cone, dual: bool, settings: &[f64; 3]) -> ([f64; MOST], [f64; MOST]) {
    let n = length_of(cone);
    let (mut q, mut dq) = ([0.0; MOST], [0.0; MOST]);
    let at = place(random);
    point(random, cone, dual, at, &mut q[..n]);
    match random.below(5) {
        0 => direction(random, &mut dq[..n]),
        1 => {}
        2 => {
            // from outside into the cone
            let mut to = [0.0; MOST];
            point(random, cone, dual, Where::Inside, &mut to[..n]);
            for i in 0..n {
                dq[i] = to[i] - q[i];
            }
        }
        _ => {
            // towards a point outside, met at the start or later
            let mut to = [0.0; MOST];
            let at = if random.chance(70) { Where::Outside } else { Where::Any };
            point(random, cone, dual, at, &mut to[..n]);
            let mut by = 1.0 / settings[0];
            for _ in 0..random.below(12) {
                by /= settings[1];
            }
            for i in 0..n {
                dq[i] = (to[i] - q[i]) * by;
            }
        }
    }
    for x in dq[..n].iter_mut() {
        if !(*x - *x == 0.0) {
            *x = random.special();
        }
    }
    (dq, q)
}

// ---- flaws

// Puts in what the table's row of this number asks for; false where the entry has no place for it.
fn put_flaw(random: &mut Random, call: &mut Call, number: usize) -> bool {
    let entry = entry_of(call);
    match number {
        1 => {
            let cone = &mut call.record.cone;
            match random.below(8) {
                0 | 1 => cone.kind = [0, 4, 5, 7, 256, u32::MAX][random.below(6)],
                2 | 3 => cone.rule = NO_RULES[random.below(NO_RULES.len())],
                _ if cone.kind == 1 => cone.kind = [0, 4][random.below(2)],
                _ if cone.kind == 2 => {
                    cone.exps[0] = match random.below(4) {
                        0 => random.pick(&[0.0, -0.0, 1.0, 1.0000000000000002, 2.0, -0.5, 1.5]),
                        1 => random.nonfinite(),
                        2 => -random.unit(),
                        _ => 1.0 + random.unit(),
                    }
                }
                _ => {
                    let dim1 = (cone.dim1 as usize).clamp(1, 32);
                    let bad = [0, 33, 64, u32::MAX, 1 << 31][random.below(5)];
                    match random.below(4) {
                        0 => cone.dim1 = bad,
                        1 => cone.dim2 = bad,
                        2 => {
                            let at = random.below(dim1);
                            cone.exps[at] = match random.below(3) {
                                0 => random.pick(&[0.0, -0.0, 1.0000000000000002, -0.25, 1.25]),
                                1 => random.nonfinite(),
                                _ => -cone.exps[at],
                            };
                        }
                        _ => {
                            if random.chance(50) {
                                aim_sum(random, &mut cone.exps[..dim1]);
                            } else {
                                let at = random.below(dim1);
                                cone.exps[at] *= 0.5 + 0.4 * random.unit();
                            }
                        }
                    }
                }
            }
            true
        }
        2 => {
            if entry.slices.is_empty() {
                return false;
            }
            let at = random.below(entry.slices.len());
            let length = call.slices[at].len as usize;
            let other = match random.below(6) {
                0 | 1 => length.saturating_sub(1),
                2 | 3 => length + 1,
                4 => 0,
                _ => random.below(MOST + 1),
            };
            let mut numbers = [1.0; MOST + 4];
            numbers[..length].copy_from_slice(call.slices[at].numbers());
            call.slices[at] = Slice::of(&numbers[..other]);
            true
        }
        3 => {
            let bad = random.nonfinite();
            let mut places = [0; 8];
            let mut count = 0;
            for (i, &(_, lent)) in entry.slices.iter().enumerate() {
                if lent == Lent::Read && call.slices[i].len > 0 {
                    places[count] = i;
                    count += 1;
                }
            }
            let numbers = entry.numbers.len();
            let records = entry.takes_record as usize;
            if count + numbers + records == 0 {
                return false;
            }
            let at = random.below(count + numbers + records);
            if at < count {
                let slice = call.slices[places[at]].numbers_mut();
                let i = random.below(slice.len());
                slice[i] = bad;
            } else if at < count + numbers {
                call.numbers[at - count] = bad;
            } else {
                let mut total = 0;
                used(&mut call.record, &mut |_| total += 1);
                if total == 0 {
                    return false;
                }
                let target = random.below(total);
                let mut i = 0;
                used(&mut call.record, &mut |x| {
                    if i == target {
                        *x = bad;
                    }
                    i += 1;
                });
            }
            true
        }
        4 => match call.entry {
            UPDATE_SCALING => {
                call.option = [0, 3, 4, u32::MAX, 1 << 16, 257][random.below(6)];
                true
            }
            BACKTRACK_SEARCH | STEP_LENGTH => {
                let low = random.pick(&[0.0, -0.0, -1.0, -f64::MIN_POSITIVE, -f64::MAX]);
                match random.below(4) {
                    0 => call.numbers[0] = low,
                    1 => call.numbers[1] = low,
                    2 => {
                        let high = random.pick(&[1.0, 2.0, 0.995, 1e300]);
                        call.numbers[1] = if random.chance(40) { nudged(0.99, 1) } else { high }
                    }
                    _ => call.numbers[2] = if random.chance(50) { low } else { size(random.subnormal()) },
                }
                true
            }
            _ => false,
        },
        5 => {
            if !entry.takes_record {
                return false;
            }
            call.record.scaled = 0;
            true
        }
        10 => {
            if !names_serial(call.entry) {
                return false;
            }
            let serial = call.record.serial;
            let other = match random.below(5) {
                0 => serial.wrapping_add(1),
                1 => serial.wrapping_sub(1),
                2 => serial ^ 1 << random.below(32),
                3 => 0,
                _ => u32::MAX,
            };
            call.option = other;
            other != serial
        }
        11 => {
            if call.entry != UPDATE_SCALING {
                return false;
            }
            call.record.serial = u32::MAX;
            true
        }
        6 => {
            let kind = call.record.cone.kind;
            let n = match kind {
                1 => 3,
                3 => (call.record.cone.dim1 as usize).min(32) + (call.record.cone.dim2 as usize).min(32),
                _ => return false,
            };
            let place = match (call.entry, kind) {
                (GRADIENT_PRIMAL, 1) | (COMPUTE_BARRIER, 1) => 1,
                (BARRIER_PRIMAL, 1) | (UPDATE_SCALING, 1) => 0,
                (DUAL_GRAD_H, 3) => 0,
                (UPDATE_SCALING, 3) => 1,
                _ => return false,
            };
            if call.slices[place].len as usize != n {
                return false;
            }
            let slice = call.slices[place].numbers_mut();
            if kind == 1 {
                // 1 - s0/s1 - log(s1/s2) below 0
                let s1 = random.spread(-5, 5);
                let above = if random.chance(30) { random.spread(-60, 10) } else { 1.0 };
                slice.copy_from_slice(&[s1 * (1.0 + above), s1, s1]);
                if random.chance(20) {
                    slice.copy_from_slice(&[0.0, 1.0, 0.0]);
                }
            } else {
                let dim1 = (call.record.cone.dim1 as usize).min(32);
                if random.chance(20) {
                    slice[0] = random.pick(&[0.0, -1.0, -0.0, 1e-300]);
                } else {
                    let at = dim1 + random.below(n - dim1);
                    slice[at] = random.pick(&[1e10, -1e20, 1e100, 1e160, f64::MAX]);
                }
            }
            true
        }
        _ => {
            // an answer that overflows, or a division by zero on the way to it
            if is_plain(call.entry) || entry.slices.is_empty() {
                return false;
            }
            let at = random.below(entry.slices.len());
            if entry.slices[at].1 != Lent::Read || call.slices[at].len == 0 {
                if entry.takes_record {
                    let mut total = 0;
                    used(&mut call.record, &mut |_| total += 1);
                    if total > 0 {
                        let target = random.below(total);
                        let mut i = 0;
                        used(&mut call.record, &mut |x| {
                            if i == target {
                                *x = f64::MAX;
                            }
                            i += 1;
                        });
                    }
                    return true;
                }
                return false;
            }
            let big = random.pick(&[0.0, -0.0, 1e-320, 1e-200, -1e-200, f64::MAX, -f64::MAX, 1e300, 1e200, -1e200]);
            let slice = call.slices[at].numbers_mut();
            let i = random.below(slice.len());
            slice[i] = big;
            true
        }
    }
}
