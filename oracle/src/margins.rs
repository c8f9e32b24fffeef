// What Order 5 of document 02 changes, counted: points at the wall and searches, by the Rust's yes or no and by the three answers.

use crate::cases::{good_case, good_cone, point, Where};
use crate::cones::nonsymmetric_common::SEEN;
use crate::cones::Oracle;
use crate::expected::{expected, judged, length_of, BY_THE_RUST};
use crate::random::Random;
use crate::say;
use crate::types::*;
use crate::verdict::{answer, UNDECIDED};

#[derive(Clone, Copy)]
struct Counts {
    points: u64,
    yes: u64,
    // points that the Rust says yes to, and no, and that are undecided now
    turned: [u64; 2],
    searches: u64,
    tests: u64,
    turned_tests: [u64; 2],
    steps: u64,
}

const NONE: Counts = Counts { points: 0, yes: 0, turned: [0; 2], searches: 0, tests: 0, turned_tests: [0; 2], steps: 0 };

// A point within a few units in the last place of the computed wall.
fn one_point(random: &mut Random, kind: u32, counts: &mut Counts) {
    let cone = good_cone(random, kind);
    let primal = random.chance(50);
    let mut x = [0.0; MOST];
    let x = &mut x[..length_of(&cone)];
    point(random, &cone, !primal, Where::Wall, x);
    let mut oracle = Oracle::of(&cone, &Scaling::ZERO);
    let rust = if primal { oracle.nonsymmetric().is_primal_feasible(x) } else { oracle.nonsymmetric().is_dual_feasible(x) };
    counts.points += 1;
    counts.yes += rust as u64;
    counts.turned[!rust as usize] += (answer(&cone, primal, x, rust) == UNDECIDED) as u64;
}

// A search as the comparison makes them, by both tests.
fn one_search(random: &mut Random, counts: &mut [Counts; 4]) {
    let call = good_case(random, BACKTRACK_SEARCH);
    if judged(&call) != 0 {
        return;
    }
    let counts = &mut counts[call.record.cone.kind as usize];
    let now = expected(&call);
    let seen = unsafe { SEEN.turned };
    unsafe { BY_THE_RUST = true };
    let before = expected(&call);
    unsafe { BY_THE_RUST = false };
    counts.searches += 1;
    counts.tests += now.reply.counts[0] as u64;
    counts.turned_tests[0] += seen[0] as u64;
    counts.turned_tests[1] += seen[1] as u64;
    counts.steps += (now.reply.values[0].to_bits() != before.reply.values[0].to_bits()) as u64;
}

pub fn count(calls: u64, seed: u64) {
    let mut all = [NONE; 4];
    for i in 0..calls {
        let random = &mut Random::new(seed.wrapping_mul(1 << 40).wrapping_add(i));
        one_point(random, 1 + (i % 3) as u32, &mut all[1 + (i % 3) as usize]);
        one_search(random, &mut all);
    }
    for (kind, counts) in all.iter().enumerate().skip(1) {
        say::text("kind ");
        say::whole(kind as u64);
        let figures = [
            (": points at the wall ", counts.points),
            (", the Rust says yes to ", counts.yes),
            (" of them; undecided now: yes ", counts.turned[0]),
            (", no ", counts.turned[1]),
            ("; searches ", counts.searches),
            (", tests ", counts.tests),
            ("; undecided now: yes ", counts.turned_tests[0]),
            (", no ", counts.turned_tests[1]),
            ("; other steps ", counts.steps),
        ];
        for (words, n) in figures {
            say::text(words);
            say::whole(n);
        }
        say::line("");
    }
}
