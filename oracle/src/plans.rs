// One step of a plan: Order 10 of document 02 on one side, spindle_common_step, and for both sides, spindle_plan_step. What is expected is 003's own search over
// the sides' long vectors, one behind the other. Its closure asks the cones in list order, each on its part of the point, on the dual side and then on the
// primal side, and stops at the first that does not say yes; how many it asks is counted here.

use crate::cases::{good_cone, point, search_points, settings, Where};
use crate::cones::{long_search, NonsymmetricCone, Oracle};
use crate::expected::{cone_is_bad, finite, length_of};
use crate::random::Random;
use crate::say;
use crate::types::*;
use crate::verdict::{answer, measured, told, CONTRADICTED, YES};
use alloc::vec::Vec;
use core::cell::Cell;

// The arguments of either call, and the answer, as port.c has them.
#[derive(Clone, Copy)]
#[repr(C)]
struct SideCall {
    dq: *const f64,
    ndq: u64,
    q: *const f64,
    nq: u64,
    point: *mut f64,
    np: u64,
}

#[repr(C)]
struct PlanCall {
    cones: *const Cone,
    ncones: u64,
    sides: [SideCall; 2],
    settings: [f64; 3],
    nsides: u32,
    primal: u32,
}

#[derive(Clone, Copy)]
#[repr(C)]
struct Found {
    code: u32,
    count: u32,
    step: f64,
}

extern "C" {
    fn oracle_plan(call: *const PlanCall, found: *mut Found);
}

#[derive(Clone)]
struct Side {
    primal: bool,
    dq: Vec<f64>,
    q: Vec<f64>,
    // the point's length; its room has canaries on both sides
    np: usize,
}

// One side is a call of spindle_common_step. Two, the dual one first, are a call of spindle_plan_step.
struct Plan {
    cones: Vec<Cone>,
    sides: Vec<Side>,
    settings: [f64; 3],
}

const ONE_SIDE: [&[bool]; 2] = [&[true], &[false]];
const BOTH_SIDES: &[bool] = &[false, true];

const MOST_CONES: usize = 1024;

impl Side {
    fn of(primal: bool) -> Side {
        Side { primal, dq: Vec::new(), q: Vec::new(), np: 0 }
    }

    fn room(&self) -> Vec<f64> {
        let first = if self.primal { 0x4059_DEAD_BEEF_0000 } else { 0x4059_FEED_BEEF_0000 };
        (0..self.np + 2 * BEFORE).map(|i| f64::from_bits(first + i as u64)).collect()
    }

    fn extend(&mut self, dq: &[f64], q: &[f64]) {
        self.dq.extend_from_slice(dq);
        self.q.extend_from_slice(q);
        self.np = self.q.len();
    }
}

impl Plan {
    fn of(sides: &[bool], settings: [f64; 3]) -> Plan {
        Plan { cones: Vec::new(), sides: sides.iter().map(|&primal| Side::of(primal)).collect(), settings }
    }

    fn name(&self) -> &'static str {
        match self.sides[..] {
            [Side { primal: true, .. }] => "spindle_common_step, primal",
            [_] => "spindle_common_step, dual",
            _ => "spindle_plan_step",
        }
    }
}

// What a call leaves: its answer, and the room of each side's point.
type Left = (Found, Vec<Vec<f64>>);

// ---- what is expected

fn judged(plan: &Plan) -> u32 {
    let count = plan.cones.len();
    if count < 1 || count > MOST_CONES || plan.cones.iter().any(|cone| cone_is_bad(cone, FRESH)) {
        return 1;
    }
    let numbers: usize = plan.cones.iter().map(length_of).sum();
    if plan.sides.iter().any(|side| side.dq.len() != numbers || side.q.len() != numbers || side.np != numbers) {
        return 2;
    }
    if !plan.sides.iter().flat_map(|side| side.dq.iter().chain(&side.q)).chain(&plan.settings).all(|&x| finite(x)) {
        return 3;
    }
    let [start, step, smallest] = plan.settings;
    if !(start > 0.0) || !(step > 0.0) || step > 0.99 || !(smallest >= f64::MIN_POSITIVE) {
        return 4;
    }
    0
}

fn expected(plan: &Plan) -> Left {
    let mut rooms: Vec<Vec<f64>> = plan.sides.iter().map(Side::room).collect();
    let code = judged(plan);
    let mut found = Found { code, count: 0, step: 0.0 };
    if code != 0 {
        return (found, rooms);
    }
    let mut oracles: Vec<Oracle> = plan.cones.iter().map(|cone| Oracle::of(cone, &Scaling::ZERO)).collect();
    let asked: Vec<&dyn NonsymmetricCone<f64>> = oracles.iter_mut().map(|oracle| &*oracle.nonsymmetric()).collect();
    let (tests, contradicted) = (Cell::new(0), Cell::new(false));
    let passes = |cone: &Cone, rust: &dyn NonsymmetricCone<f64>, primal: bool, part: &[f64]| {
        tests.set(tests.get() + 1);
        let yes = if primal { rust.is_primal_feasible(part) } else { rust.is_dual_feasible(part) };
        let told = answer(cone, primal, part, yes);
        contradicted.set(contradicted.get() || told == CONTRADICTED);
        told == YES
    };
    let every_side = |long: &[f64]| {
        let mut at = 0;
        plan.sides.iter().all(|side| {
            plan.cones.iter().zip(&asked).all(|(cone, rust)| {
                let part = &long[at..at + length_of(cone)];
                at += part.len();
                passes(cone, *rust, side.primal, part)
            })
        })
    };
    let dq: Vec<f64> = plan.sides.iter().flat_map(|side| side.dq.iter().copied()).collect();
    let q: Vec<f64> = plan.sides.iter().flat_map(|side| side.q.iter().copied()).collect();
    let mut point = q.clone();
    found.step = long_search(&dq, &q, &plan.settings, every_side, &mut point);
    if found.step == 0.0 {
        point.copy_from_slice(&q);
    }
    let mut rest = &point[..];
    for (side, room) in plan.sides.iter().zip(&mut rooms) {
        room[BEFORE..BEFORE + side.np].copy_from_slice(&rest[..side.np]);
        rest = &rest[side.np..];
    }
    found.count = tests.get();
    if contradicted.get() {
        // no port can give this
        found.code = CONTRADICTED;
    }
    (found, rooms)
}

fn ported(plan: &Plan) -> Left {
    let mut rooms: Vec<Vec<f64>> = plan.sides.iter().map(Side::room).collect();
    let mut call = PlanCall {
        cones: plan.cones.as_ptr(),
        ncones: plan.cones.len() as u64,
        sides: [SideCall { dq: core::ptr::null(), ndq: 0, q: core::ptr::null(), nq: 0, point: core::ptr::null_mut(), np: 0 }; 2],
        settings: plan.settings,
        nsides: plan.sides.len() as u32,
        primal: plan.sides[0].primal as u32,
    };
    for ((side, room), lent) in plan.sides.iter().zip(&mut rooms).zip(&mut call.sides) {
        *lent = SideCall {
            dq: side.dq.as_ptr(),
            ndq: side.dq.len() as u64,
            q: side.q.as_ptr(),
            nq: side.q.len() as u64,
            point: room[BEFORE..].as_mut_ptr(),
            np: side.np as u64,
        };
    }
    let mut found = Found { code: 99, count: 0, step: 0.0 };
    unsafe { oracle_plan(&call, &mut found) };
    (found, rooms)
}

fn same(a: &Left, b: &Left) -> bool {
    a.0.code == b.0.code
        && a.0.count == b.0.count
        && a.0.step.to_bits() == b.0.step.to_bits()
        && a.1.iter().flatten().zip(b.1.iter().flatten()).all(|(x, y)| x.to_bits() == y.to_bits())
}

// ---- plans

const HOUSE: [f64; 3] = [1.0, 0.5, 0.0001];

// A point that says yes, of which the direction +0 keeps it.
fn stays(random: &mut Random, cone: &Cone, primal: bool) -> [f64; MOST] {
    let n = length_of(cone);
    for _ in 0..20 {
        let mut x = [0.0; MOST];
        point(random, cone, !primal, Where::Inside, &mut x[..n]);
        if x[..n].iter().all(|&x| finite(x)) && told(measured(cone, primal, &x[..n])) == YES {
            return x;
        }
    }
    let mut x = [0.0; MOST];
    if cone.kind == 1 {
        x[..3].copy_from_slice(if primal { &[-1.0, 1.0, 1.0] } else { &[-1.0, 0.0, 1.0] });
    } else {
        let heads = if cone.kind == 3 { cone.dim1 as usize } else { 2 };
        x[..heads].fill(1.0);
    }
    x
}

// How many trials a cone of its own takes before it passes.
#[derive(Clone, Copy, PartialEq)]
enum Meets {
    AtOnce,
    Later,
    Never,
}

fn alone(cone: &Cone, primal: bool, dq: &[f64], q: &[f64], settings: &[f64; 3]) -> Meets {
    let mut plan = Plan::of(&[primal], *settings);
    plan.cones.push(*cone);
    plan.sides[0].extend(dq, q);
    let found = expected(&plan).0;
    match found.step == 0.0 {
        true => Meets::Never,
        false if found.count == 1 => Meets::AtOnce,
        false => Meets::Later,
    }
}

// Cones of all kinds, of which one meets its cone so late, on the side `late` of the plan's; all else stays where it is.
fn with_one(random: &mut Random, count: usize, place: usize, meets: Meets, sides: &[bool], late: usize, settings: [f64; 3]) -> Plan {
    let mut plan = Plan::of(sides, settings);
    for i in 0..count {
        let kind = 1 + random.below(3) as u32;
        let cone = good_cone(random, kind);
        let n = length_of(&cone);
        for (k, side) in plan.sides.iter_mut().enumerate() {
            let mut numbers = ([0.0; MOST], stays(random, &cone, side.primal));
            if i == place && k == late {
                for _ in 0..200 {
                    let tried = search_points(random, &cone, !side.primal, &settings);
                    if alone(&cone, side.primal, &tried.0[..n], &tried.1[..n], &settings) == meets {
                        numbers = tried;
                        break;
                    }
                }
            }
            side.extend(&numbers.0[..n], &numbers.1[..n]);
        }
        plan.cones.push(cone);
    }
    plan
}

// "failing cone first, last, middle": 1, 2, 900 and 1,024 cones, on each side alone and on both with either of them late; one passes late or never, or all at once.
const SIZES: [usize; 4] = [1, 2, 900, 1024];
const PLACES: usize = 5;
const LATE_SIDES: [(&[bool], usize); 4] = [(ONE_SIDE[0], 0), (ONE_SIDE[1], 0), (BOTH_SIDES, 0), (BOTH_SIDES, 1)];
const GRID: u64 = (SIZES.len() * PLACES * LATE_SIDES.len()) as u64;

fn of_the_grid(random: &mut Random, i: usize) -> Plan {
    let count = SIZES[i % 4];
    let (sides, late) = LATE_SIDES[i / 4 % 4];
    let (place, meets) = match i / 16 {
        0 => (0, Meets::Later),
        1 => (count / 2, Meets::Later),
        2 => (count - 1, Meets::Later),
        3 => (count - 1, Meets::Never),
        _ => (count, Meets::AtOnce),
    };
    with_one(random, count, place, meets, sides, late, HOUSE)
}

// The limits of what is refused, one at a time: those of the list and the settings, and those of each side.
const LIST_LIMITS: usize = 15;
const SIDE_LIMITS: usize = 8;
const LIMITS: [u64; 2] = [(LIST_LIMITS + SIDE_LIMITS) as u64, (LIST_LIMITS + 2 * SIDE_LIMITS) as u64];

fn at_a_limit(random: &mut Random, i: usize, sides: &[bool]) -> Plan {
    let count = match i {
        0 => 0,
        1 => MOST_CONES + 1,
        _ => [2, 7, MOST_CONES][random.below(3)],
    };
    let (at, late) = (count / 2, random.below(sides.len()));
    let mut plan = with_one(random, count, at, Meets::Later, sides, late, HOUSE);
    let last = plan.sides[0].q.len().saturating_sub(1);
    if i >= LIST_LIMITS {
        let side = &mut plan.sides[(i - LIST_LIMITS) / SIDE_LIMITS];
        match (i - LIST_LIMITS) % SIDE_LIMITS {
            0 => side.dq.truncate(last),
            1 => side.q.truncate(last),
            2 => side.np = last,
            3 => side.dq.push(0.0),
            4 => side.q.push(0.0),
            5 => side.np += 1,
            6 => side.dq[last] = random.nonfinite(),
            _ => side.q[last] = random.nonfinite(),
        }
        return plan;
    }
    match i {
        2 => plan.cones[0].kind = 4,
        3 => plan.cones[count - 1].kind = 0,
        4 => plan.cones[at] = Cone { kind: 3, dim1: u32::MAX, dim2: u32::MAX, ..plan.cones[at] },
        5 => plan.cones[at] = Cone { kind: 2, exps: [1.0; 32], ..plan.cones[at] },
        6 => plan.settings[random.below(3)] = random.nonfinite(),
        7 => plan.settings[0] = 0.0,
        8 => plan.settings[1] = 1.0,
        9 => plan.settings[2] = f64::MIN_POSITIVE / 2.0,
        10 => plan.cones[0].rule = 0,
        11 => plan.cones[count - 1].rule = 3,
        12 => plan.cones[at].rule = u32::MAX,
        // a bad rule and no length that adds up: 1
        13 => {
            plan.cones[at].rule = 257;
            plan.sides[late].q.truncate(last);
        }
        // every row at once: only the first counts
        14 => {
            plan.cones[count - 1].kind = 0;
            plan.sides[late].q.truncate(last);
            plan.sides[late].dq[0] = f64::NAN;
            plan.settings[0] = 0.0;
        }
        _ => {}
    }
    plan
}

const FEW_TRIALS: [f64; 3] = [1.0, 0.5, 0.125];

// A cone that passes at the start alone, before one that passes from the third trial on: the least of their own steps, 1/4, is none of both.
fn not_the_least() -> Plan {
    let mut plan = Plan::of(&[true], FEW_TRIALS);
    plan.cones = [good_cone(&mut Random::new(0), 1); 2].to_vec();
    plan.sides[0].extend(&[0.0, 0.0, 2.0, 0.0, -2.0, 0.0], &[-1.0, 1.0, -1.0, -1.0, 1.0, 1.0]);
    plan
}

// The dual side passes at the start alone, the primal side from the third trial on: the less of the two sides' steps, 1/4, is none of both.
fn not_the_less() -> Plan {
    let mut plan = Plan::of(BOTH_SIDES, FEW_TRIALS);
    plan.cones = [good_cone(&mut Random::new(0), 1)].to_vec();
    plan.sides[0].extend(&[0.0, 0.0, 2.0], &[-1.0, 0.0, -1.0]);
    plan.sides[1].extend(&[0.0, -2.0, 0.0], &[-1.0, 1.0, 1.0]);
    plan
}

// An exponential cone that comes in on one side and goes out on the other, among cones that stay: where the ways cross, no trial passes both sides, though each
// side alone has a step.
fn crossing(random: &mut Random) -> Plan {
    let mut plan = Plan::of(BOTH_SIDES, HOUSE);
    let (comes_in, count) = (random.below(2), 1 + random.below(6));
    let place = random.below(count);
    for i in 0..count {
        let kind = if i == place { 1 } else { 1 + random.below(3) as u32 };
        let cone = good_cone(random, kind);
        let n = length_of(&cone);
        for (k, side) in plan.sides.iter_mut().enumerate() {
            if i != place {
                side.extend(&[0.0; MOST][..n], &stays(random, &cone, side.primal)[..n]);
                continue;
            }
            let second = if side.primal { 1.0 } else { 0.0 };
            let speed = 1.0 + 15.0 * random.unit();
            // the third number has to be above 1/e
            let (from, along) = if k == comes_in { (-speed * 0.5 * random.unit(), speed) } else { (1.0, -speed) };
            side.extend(&[0.0, 0.0, along], &[-1.0, second, from]);
        }
        plan.cones.push(cone);
    }
    plan
}

fn any(random: &mut Random) -> Plan {
    if random.chance(10) {
        return crossing(random);
    }
    let sides = if random.chance(50) { BOTH_SIDES } else { ONE_SIDE[random.below(2)] };
    let settings = settings(random);
    let count = match random.below(20) {
        0 => 100 + random.below(300),
        1..=3 => 1,
        _ => 1 + random.below(24),
    };
    if random.chance(50) {
        let meets = if random.chance(80) { Meets::Later } else { Meets::Never };
        let (place, late) = (random.below(count), random.below(sides.len()));
        return with_one(random, count, place, meets, sides, late, settings);
    }
    // every cone goes its own way
    let mut plan = Plan::of(sides, settings);
    for _ in 0..count.min(6) {
        let kind = 1 + random.below(3) as u32;
        let cone = good_cone(random, kind);
        for side in &mut plan.sides {
            let (dq, q) = search_points(random, &cone, !side.primal, &settings);
            side.extend(&dq[..length_of(&cone)], &q[..length_of(&cone)]);
        }
        plan.cones.push(cone);
    }
    plan
}

// The two plans above, the grid, the limits of one side and of both, and then any.
const FIXED: u64 = 2 + GRID + LIMITS[0] + LIMITS[1];

fn plan(seed: u64, i: u64) -> Plan {
    let random = &mut Random::new(seed.wrapping_mul(1 << 40).wrapping_add(1 << 39).wrapping_add(i));
    match i {
        0 => not_the_least(),
        1 => not_the_less(),
        _ if i < 2 + GRID => of_the_grid(random, (i - 2) as usize),
        _ if i < FIXED - LIMITS[1] => {
            let side = ONE_SIDE[random.below(2)];
            at_a_limit(random, (i - 2 - GRID) as usize, side)
        }
        _ if i < FIXED => at_a_limit(random, (i + LIMITS[1] - FIXED) as usize, BOTH_SIDES),
        _ => any(random),
    }
}

// ---- the comparison

fn say_found(words: &str, found: &Found) {
    say::text(words);
    say::text(" number ");
    say::whole(found.code as u64);
    say::text(", tests ");
    say::whole(found.count as u64);
    say::text(", step ");
    say::double(found.step);
    say::line("");
}

fn say_difference(i: u64, plan: &Plan, wanted: &Left, given: &Left) {
    say::text("DIFFERENT at plan ");
    say::whole(i);
    say::text(": ");
    say::text(plan.name());
    say::text(", of ");
    say::whole(plan.cones.len() as u64);
    say::line(" cones");
    say_found("  expected", &wanted.0);
    say_found("  given", &given.0);
    for ((side, wanted), given) in plan.sides.iter().zip(&wanted.1).zip(&given.1) {
        if let Some(at) = (0..wanted.len()).find(|&at| wanted[at].to_bits() != given[at].to_bits()) {
            say::text(if side.primal { "  the primal point's" } else { "  the dual point's" });
            say::text(" room differs at ");
            say::whole(at as u64);
            say::text(", its canaries included: expected ");
            say::double(wanted[at]);
            say::text(", given ");
            say::double(given[at]);
            say::line("");
        }
    }
    say::flush();
}

// What was met of one call's plans.
#[derive(Clone, Copy, Default)]
struct Met {
    plans: u64,
    cones: u64,
    tests: u64,
    zeros: u64,
    // of both sides: the step is below the less of the sides' own
    below: u64,
    numbers: [u64; 5],
}

fn say_met(name: &str, met: &Met) {
    say::text("plans of ");
    say::text(name);
    say::text(": ");
    say::whole(met.plans);
    say::text(" with ");
    say::whole(met.cones);
    say::text(" cones, single cone tests ");
    say::whole(met.tests);
    say::text(", step zero ");
    say::whole(met.zeros);
    say::text("; numbers");
    for (number, &n) in met.numbers.iter().enumerate() {
        say::text(" ");
        say::whole(number as u64);
        say::text(":");
        say::whole(n);
    }
    if met.below > 0 {
        say::text("; below the less of the sides' own steps ");
        say::whole(met.below);
    }
    say::line("");
}

// Whether the step of both sides is below the less of the two that the sides take by themselves.
fn is_below(plan: &Plan, found: &Found) -> bool {
    plan.sides.iter().all(|side| {
        let one = Plan { cones: plan.cones.clone(), sides: [side.clone()].to_vec(), settings: plan.settings };
        expected(&one).0.step > found.step
    })
}

// Compares the plans of the grid and at the limits, and so many more. Whether all are the same; says the first that is not.
pub fn compare(more: u64, seed: u64) -> bool {
    for fixed in [not_the_least(), not_the_less()] {
        let found = expected(&fixed).0;
        if found.code != 0 || found.count != 5 || found.step.to_bits() != 0 {
            say_found("the oracle does not give step 0 after 5 tests where no trial passes all:", &found);
            return false;
        }
    }
    let mut met = [Met::default(); 2];
    for i in 0..FIXED + more {
        let plan = plan(seed, i);
        let (wanted, given) = (expected(&plan), ported(&plan));
        if !same(&wanted, &given) {
            say_difference(i, &plan, &wanted, &given);
            return false;
        }
        let found = wanted.0;
        let met = &mut met[plan.sides.len() - 1];
        met.plans += 1;
        met.cones += plan.cones.len() as u64;
        met.tests += found.count as u64;
        met.zeros += (found.code == 0 && found.step == 0.0) as u64;
        met.below += (found.code == 0 && plan.sides.len() == 2 && is_below(&plan, &found)) as u64;
        met.numbers[found.code as usize] += 1;
    }
    say_met("spindle_common_step", &met[0]);
    say_met("spindle_plan_step", &met[1]);
    true
}
