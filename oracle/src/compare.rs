// The command: calls the port case by case, over a record in both forms, compares everything that comes back as bits with the expected answer, and
// stops at the first difference with a call that it has made as small as it can.

use crate::cases::{case, used, Case, FLAWS};
use crate::cones::nonsymmetric_common::SEEN;
use crate::expected::expected;
use crate::margins;
use crate::mutants;
use crate::paper;
use crate::parts;
use crate::plans;
use crate::random::Random;
use crate::rules;
use crate::say;
use crate::sums;
use crate::types::*;
use crate::vectors;
use alloc::vec::Vec;

extern "C" {
    fn oracle_port(call: *mut Call, reply: *mut Reply, in_place: u32);
    fn seconds() -> u64;
}

fn ported(call: &Call, in_place: bool) -> Answer {
    let mut lent = *call;
    let mut reply = Reply::ZERO;
    unsafe { oracle_port(&mut lent, &mut reply, in_place as u32) };
    Answer { reply, record: lent.record, slices: lent.slices }
}

// Every word of an answer under its name: the number, the values, the record with its unused places, the caller's own record, which stays (port.h),
// each lent slice with its canaries.
pub fn words(call: &Call, answer: &Answer, f: &mut dyn FnMut(&str, &str, usize, u64)) {
    let reply = &answer.reply;
    f("number", "", 0, reply.code as u64);
    f("answer", "", 0, reply.answer as u64);
    for (i, &n) in reply.counts.iter().enumerate() {
        f("count", "", i, n as u64);
    }
    for (i, x) in reply.values.iter().enumerate() {
        f("value", "", i, x.to_bits());
    }
    if call.entry == DUAL_GRAD_H {
        numbers_of("", &reply.three, &reply.wide, f);
    }
    if call.entry == FRESH || call.entry == UPDATE_SCALING {
        record_of("record.", &reply.record, f);
    }
    if entry_of(call).takes_record {
        record_of("the caller's record.", &answer.record, f);
    }
    for (i, (slice, &(name, _))) in answer.slices.iter().zip(entry_of(call).slices).enumerate() {
        let _ = i;
        each("slice ", name, &slice.room, f);
    }
}

fn each(of: &str, name: &str, numbers: &[f64], f: &mut dyn FnMut(&str, &str, usize, u64)) {
    for (i, x) in numbers.iter().enumerate() {
        f(of, name, i, x.to_bits());
    }
}

fn record_of(of: &str, record: &Scaling, f: &mut dyn FnMut(&str, &str, usize, u64)) {
    f(of, "kind", 0, record.cone.kind as u64);
    f(of, "dim1", 0, record.cone.dim1 as u64);
    f(of, "dim2", 0, record.cone.dim2 as u64);
    f(of, "rule", 0, record.cone.rule as u64);
    each(of, "exps", &record.cone.exps, f);
    f(of, "scaled", 0, record.scaled as u64);
    f(of, "serial", 0, record.serial as u64);
    numbers_of(of, &record.three, &record.wide, f);
}

fn numbers_of(of: &str, three: &Three, wide: &Wide, f: &mut dyn FnMut(&str, &str, usize, u64)) {
    each(of, "three.z", &three.z, f);
    each(of, "three.grad", &three.grad, f);
    each(of, "three.h_dual", &three.h_dual, f);
    each(of, "three.hs", &three.hs, f);
    each(of, "wide.z", &wide.z, f);
    f(of, "wide.mu", 0, wide.mu.to_bits());
    each(of, "wide.grad", &wide.grad, f);
    each(of, "wide.p", &wide.p, f);
    each(of, "wide.q", &wide.q, f);
    each(of, "wide.r", &wide.r, f);
    each(of, "wide.d1", &wide.d1, f);
    f(of, "wide.d2", 0, wide.d2.to_bits());
}

fn same(call: &Call, wanted: &Answer, given: &Answer) -> bool {
    if call.entry >= SQRT {
        return rules::kept(call, given.reply.values[0]);
    }
    alike(call, wanted, given)
}

fn alike(call: &Call, wanted: &Answer, given: &Answer) -> bool {
    let (mut a, mut b) = (Vec::with_capacity(1200), Vec::with_capacity(1200));
    words(call, wanted, &mut |_, _, _, bits| a.push(bits));
    words(call, given, &mut |_, _, _, bits| b.push(bits));
    a == b
}

fn differs(call: &Call, in_place: bool) -> bool {
    !same(call, &expected(call), &ported(call, in_place))
}

// The first form of the call that differs, by value or in place. A call over a record has both.
fn different_form(call: &Call, wanted: &Answer) -> Option<bool> {
    let forms: &[bool] = if entry_of(call).takes_record { &[false, true] } else { &[false] };
    forms.iter().copied().find(|&in_place| !same(call, wanted, &ported(call, in_place)))
}

// ---- a smaller call that still differs in this form

fn shrunk(mut call: Call, in_place: bool) -> Call {
    for _ in 0..4 {
        let mut changed = false;
        // a record as fresh, or its unused places +0
        let mut plain = call;
        plain.record.three = Three::ZERO;
        plain.record.wide = Wide::ZERO;
        used_of(&call, &mut plain);
        let Scaling { cone, scaled, serial, .. } = call.record;
        for candidate in [Scaling { cone, scaled, serial, ..Scaling::ZERO }, plain.record] {
            let mut smaller = call;
            smaller.record = candidate;
            if bits_of(&smaller.record) != bits_of(&call.record) && differs(&smaller, in_place) {
                call = smaller;
                changed = true;
            }
        }
        // each number alone
        let count = places(&mut call, &mut |_| {});
        for at in 0..count {
            let mut old = 0.0;
            let mut i = 0;
            places(&mut call, &mut |x| {
                if i == at {
                    old = *x;
                }
                i += 1;
            });
            for candidate in simpler(old) {
                if candidate.to_bits() == old.to_bits() {
                    break;
                }
                let mut smaller = call;
                let mut i = 0;
                places(&mut smaller, &mut |x| {
                    if i == at {
                        *x = candidate;
                    }
                    i += 1;
                });
                if differs(&smaller, in_place) {
                    call = smaller;
                    changed = true;
                    break;
                }
            }
        }
        if !changed {
            break;
        }
    }
    call
}

fn used_of(from: &Call, to: &mut Call) {
    let mut from = *from;
    let mut numbers = Vec::new();
    used(&mut from.record, &mut |x| numbers.push(*x));
    let mut i = 0;
    used(&mut to.record, &mut |x| {
        *x = numbers[i];
        i += 1;
    });
}

fn bits_of(record: &Scaling) -> Vec<u64> {
    let mut bits = Vec::new();
    numbers_of("", &record.three, &record.wide, &mut |_, _, _, b| bits.push(b));
    bits
}

// every number of a call that is read
fn places(call: &mut Call, f: &mut dyn FnMut(&mut f64)) -> usize {
    let mut count = 0;
    let entry = entry_of(call);
    let mut visit = |x: &mut f64| {
        count += 1;
        f(x);
    };
    call.numbers[..entry.numbers.len()].iter_mut().for_each(&mut visit);
    for slice in call.slices[..entry.slices.len()].iter_mut() {
        slice.numbers_mut().iter_mut().for_each(&mut visit);
    }
    if entry.takes_record {
        used(&mut call.record, &mut visit);
    }
    let exps = match call.record.cone.kind {
        2 => 1,
        3 => (call.record.cone.dim1 as usize).min(32),
        _ => 0,
    };
    call.record.cone.exps[..exps].iter_mut().for_each(&mut visit);
    count
}

// from the simplest on; the search stops where a candidate is the number itself
fn simpler(x: f64) -> [f64; 10] {
    let kept = |digits: u32| f64::from_bits(x.to_bits() & !0 << (52 - digits));
    [0.0, 1.0, -1.0, 0.5, 2.0, kept(0), kept(2), kept(8), kept(20), kept(36)]
}

// ---- what is written

fn say_call(call: &Call, in_place: bool) {
    let entry = entry_of(call);
    say::text("call spindle_");
    say::text(entry.name);
    say::line(if in_place { ", in place" } else { "" });
    if call.entry < SQRT && call.entry != HOUSE_SETTINGS {
        let cone = &call.record.cone;
        say::text("  cone kind ");
        say::whole(cone.kind as u64);
        say::text(" dim1 ");
        say::whole(cone.dim1 as u64);
        say::text(" dim2 ");
        say::whole(cone.dim2 as u64);
        say::text(" rule ");
        say::whole(cone.rule as u64);
        say::line("");
        for (i, &x) in cone.exps.iter().enumerate() {
            say_number("exps", i, x);
        }
    }
    if call.entry == UPDATE_SCALING || call.entry == BACKTRACK_SEARCH || names_serial(call.entry) {
        say::text(match call.entry {
            UPDATE_SCALING => "  strategy ",
            BACKTRACK_SEARCH => "  primal ",
            _ => "  expects serial ",
        });
        say::whole(call.option as u64);
        say::line("");
    }
    for (name, &x) in entry.numbers.iter().zip(&call.numbers) {
        say::text("  ");
        say::text(name);
        say::text(" = ");
        say::double(x);
        say::line("");
    }
    for (&(name, lent), slice) in entry.slices.iter().zip(&call.slices) {
        say::text("  slice ");
        say::text(name);
        say::text(if lent == Lent::Read { ", read, length " } else { ", written, length " });
        say::whole(slice.len);
        say::line("");
        for (i, &x) in slice.numbers().iter().enumerate() {
            say::text("    [");
            say::whole(i as u64);
            say::text("] = ");
            say::double(x);
            say::line("");
        }
    }
    if entry.takes_record {
        say::text(if call.record.scaled != 0 { "  record, scaled, serial " } else { "  record, not scaled, serial " });
        say::whole(call.record.serial as u64);
        say::line("");
        numbers_of("", &call.record.three, &call.record.wide, &mut |_, name, i, bits| say_number(name, i, f64::from_bits(bits)));
    }
}

// a number that is not +0
fn say_number(name: &str, i: usize, x: f64) {
    if x.to_bits() == 0 {
        return;
    }
    say::text("    ");
    say::text(name);
    say::text("[");
    say::whole(i as u64);
    say::text("] = ");
    say::double(x);
    say::line("");
}

fn say_difference(call: &Call, in_place: bool) {
    let (wanted, given) = (expected(call), ported(call, in_place));
    say_call(call, in_place);
    if call.entry >= SQRT {
        say::text("  breaks the kernel's rules: given ");
        say::double(given.reply.values[0]);
        say::line("");
        return;
    }
    let mut all = Vec::new();
    words(call, &wanted, &mut |_, _, _, bits| all.push(bits));
    let mut at = 0;
    let mut shown = 0;
    words(call, &given, &mut |of, name, i, bits| {
        if all[at] != bits {
            shown += 1;
            if shown <= 20 {
                say::text("  ");
                say::text(of);
                say::text(name);
                say::text("[");
                // a slice's places count from its first number; canaries lie before 0 and from its length on
                let (negative, place) = if of == "slice " && i < BEFORE {
                    (true, BEFORE - i)
                } else if of == "slice " {
                    (false, i - BEFORE)
                } else {
                    (false, i)
                };
                say::text(if negative { "-" } else { "" });
                say::whole(place as u64);
                say::text("] expected ");
                say::double(f64::from_bits(all[at]));
                say::text(", given ");
                say::double(f64::from_bits(bits));
                say::line("");
            }
        }
        at += 1;
    });
    say::text("  ");
    say::whole(shown);
    say::line(" places differ; a number and counts are written as the bits of a whole number");
}

// ---- the command

const HELP: &str = "compare: the port against the Rust oracle, call by call, every answer as bits

  --calls N      how many calls (default 1000000)
  --seed S       which ones (default 1)
  --entry NAME   one entry only, as update_scaling
  --vectors FILE write the fixed list of calls with the oracle's answers, and compare nothing; with --calls N, N calls as they come
  --margins N    N points at the wall and N searches, by the Rust's yes or no and by the three answers: what is undecided now, which steps change
  --mutants N    at most N calls of the oracle against oracles of changed Rust (mutants.py); 0: the fixed list's
  --help

Stops with status 1 at the first difference, with the smallest call that it finds; else writes how often each entry gave each number for each kind.
";

struct Options {
    calls: u64,
    seed: u64,
    entry: Option<u32>,
    vectors: *const u8,
    // --calls was given
    chosen: Option<u64>,
    margins: u64,
    mutants: u64,
    help: bool,
}

unsafe fn word<'a>(at: *const u8) -> &'a str {
    let mut length = 0;
    while *at.add(length) != 0 {
        length += 1;
    }
    core::str::from_utf8_unchecked(core::slice::from_raw_parts(at, length))
}

fn whole_of(digits: &str) -> Option<u64> {
    let mut n: u64 = 0;
    for d in digits.bytes() {
        if !d.is_ascii_digit() {
            return None;
        }
        n = n.wrapping_mul(10).wrapping_add((d - b'0') as u64);
    }
    if digits.is_empty() {
        None
    } else {
        Some(n)
    }
}

unsafe fn options(count: i32, words: *const *const u8) -> Option<Options> {
    let mut all =
        Options { calls: 1_000_000, seed: 1, entry: None, vectors: core::ptr::null(), chosen: None, margins: 0, mutants: 0, help: false };
    let mut i = 1;
    while i < count {
        let name = word(*words.add(i as usize));
        if name == "--help" {
            all.help = true;
            return Some(all);
        }
        if i + 1 == count {
            return None;
        }
        let at = *words.add(i as usize + 1);
        let value = word(at);
        if name == "--calls" {
            all.calls = whole_of(value)?;
            all.chosen = Some(all.calls);
        } else if name == "--seed" {
            all.seed = whole_of(value)?;
        } else if name == "--entry" {
            all.entry = Some(ENTRIES.iter().position(|e| e.name == value)? as u32);
        } else if name == "--vectors" {
            all.vectors = at;
        } else if name == "--margins" {
            all.margins = whole_of(value)?;
        } else if name == "--mutants" {
            all.mutants = whole_of(value)?;
        } else {
            return None;
        }
        i += 2;
    }
    Some(all)
}

// Each call has a seed of its own, so that one call can be made again alone.
fn source(options: &Options, i: u64) -> Random {
    Random::new(options.seed.wrapping_mul(1 << 40).wrapping_add(i))
}

// One line for each changed oracle: the first call that it answers otherwise, or that there was none. The calls are as many as asked for, or the list's.
fn see_mutants(options: &Options) {
    let list = if options.mutants == 0 { vectors::chosen(options.seed, None) } else { Vec::new() };
    let count = if options.mutants == 0 { list.len() as u64 } else { options.mutants };
    let mut left: Vec<usize> = (0..mutants::NAMES.len()).collect();
    for i in 0..count {
        if left.is_empty() {
            break;
        }
        let call = if options.mutants == 0 { list[i as usize].0 } else { case(&mut source(options, i), options.entry).call };
        let wanted = expected(&call);
        left.retain(|&k| {
            let changed = mutants::answer(k, &call);
            let seen = !alike(&call, &wanted, &changed);
            if seen {
                say::text("seen at call ");
                say::whole(i);
                say::text(" (");
                say::text(entry_of(&call).name);
                say::text("): ");
                say::line(mutants::NAMES[k]);
            }
            !seen
        });
    }
    for k in left {
        say::text("NOT SEEN: ");
        say::line(mutants::NAMES[k]);
    }
}

// by entry, kind (0 for any other) and number
type Tally = [[[u64; NUMBERS]; 4]; 24];

// pairs of flaws, by their numbers
type Pairs = [[u64; NUMBERS]; NUMBERS];

// Above the last number that a call can give; 8 and 9 are for the trace calls, which are not here.
const NUMBERS: usize = 12;

// by sum at a limit of a rule, rule, entry, and whether it was refused with 1
type Limits = [[[[u64; 2]; 24]; 2]; sums::SUMS];

// by side (primal first), kind and answer
type Answers = [[[u64; 3]; 4]; 2];

#[no_mangle]
pub extern "C" fn oracle_main(count: i32, words: *const *const u8) -> i32 {
    let Some(options) = (unsafe { options(count, words) }) else {
        say::text(HELP);
        return 2;
    };
    if options.help {
        say::text(HELP);
        return 0;
    }
    if !paper::holds() {
        return 1;
    }
    if !options.vectors.is_null() {
        return if vectors::write(options.vectors, options.seed, options.chosen) { 0 } else { 2 };
    }
    if options.margins != 0 {
        margins::count(options.margins, options.seed);
        return 0;
    }
    if !mutants::NAMES.is_empty() {
        see_mutants(&options);
        return 0;
    }
    let mut tally: Tally = [[[0; NUMBERS]; 4]; 24];
    let mut pairs: Pairs = [[0; NUMBERS]; NUMBERS];
    let mut rounds = [[0u64; 101]; 2];
    let mut tests = 0;
    let mut answers: Answers = [[[0; 3]; 4]; 2];
    let mut undecided = 0;
    let mut limits: Limits = [[[[0; 2]; 24]; 2]; sums::SUMS];
    let started = unsafe { seconds() };
    let (mut rows, mut over_records) = (0, 0);
    let all_rows = sums::rows().into_iter().chain(parts::rows());
    for (i, call) in all_rows.enumerate().filter(|(_, call)| options.entry.map_or(true, |entry| entry == call.entry)) {
        let wanted = expected(&call);
        if let Some(in_place) = different_form(&call, &wanted) {
            return different("row", i as u64, call, in_place);
        }
        limits_of(&mut limits, &call, &wanted);
        rows += 1;
        over_records += entry_of(&call).takes_record as u64;
    }
    for i in 0..options.calls {
        let Case { call, flaws, .. } = case(&mut source(&options, i), options.entry);
        let wanted = expected(&call);
        if let Some(in_place) = different_form(&call, &wanted) {
            return different("call", i, call, in_place);
        }
        limits_of(&mut limits, &call, &wanted);
        over_records += entry_of(&call).takes_record as u64;
        let kind = if call.record.cone.kind < 4 { call.record.cone.kind as usize } else { 0 };
        tally[call.entry as usize][kind][wanted.reply.code as usize] += 1;
        for a in 1..NUMBERS {
            for b in a..NUMBERS {
                if flaws == 1 << a | 1 << b {
                    pairs[a][b] += 1;
                }
            }
        }
        if call.entry == GRADIENT_PRIMAL && wanted.reply.code == 0 && call.record.cone.kind != 1 {
            rounds[kind - 2][wanted.reply.counts[0] as usize] += 1;
        }
        if call.entry == BACKTRACK_SEARCH && wanted.reply.counts[0] > tests {
            tests = wanted.reply.counts[0];
        }
        if wanted.reply.code == 0 && (call.entry == IS_PRIMAL_FEASIBLE || call.entry == IS_DUAL_FEASIBLE) {
            answers[(call.entry - IS_PRIMAL_FEASIBLE) as usize][kind][wanted.reply.answer as usize] += 1;
        }
        if wanted.reply.code == 0 && (call.entry == BACKTRACK_SEARCH || call.entry == STEP_LENGTH) {
            undecided += unsafe { (SEEN.turned[0] + SEEN.turned[1]) as u64 };
        }
        if i % 100_000 == 99_999 {
            say::whole(i + 1);
            say::text(" calls, ");
            say::whole(unsafe { seconds() } - started);
            say::line(" s");
            say::flush();
        }
    }
    // a plan has as many tests as a thousand calls, and half of them are of both sides; with one entry asked for, only that one is compared
    if options.entry.is_none() && !plans::compare(options.calls / 500, options.seed) {
        return 1;
    }
    say_tally(&tally, &pairs, &rounds, tests);
    say_answers(&answers, undecided);
    say_limits(&limits, options.entry);
    say::line("the oracle gives the documents' answers at the border points");
    say::text("same: ");
    say::whole(options.calls);
    say::text(" calls and ");
    say::whole(rows);
    say::text(" rows, ");
    say::whole(over_records);
    say::text(" of them over a record and in both forms, seed ");
    say::whole(options.seed);
    say::text(", ");
    say::whole(unsafe { seconds() } - started);
    say::line(" s");
    0
}

// What a difference is told by: the call as it was, and made smaller.
fn different(what: &str, at: u64, call: Call, in_place: bool) -> i32 {
    say::text("DIFFERENT at ");
    say::text(what);
    say::text(" ");
    say::whole(at);
    say::line("");
    say_difference(&call, in_place);
    say::line("made smaller:");
    say_difference(&shrunk(call, in_place), in_place);
    say::flush();
    1
}

// Counts a call of kind 3 whose sum is at a limit; nothing but the sum can be wrong with its cone.
fn limits_of(limits: &mut Limits, call: &Call, wanted: &Answer) {
    let cone = &call.record.cone;
    let Some(sum) = sums::at(cone) else { return };
    let exps = &cone.exps[..cone.dim1 as usize];
    if takes_kind_3(call.entry)
        && (1..=2).contains(&cone.rule)
        && (1..=32).contains(&cone.dim2)
        && exps.iter().all(|&a| a > 0.0 && a <= 1.0)
    {
        limits[sum][cone.rule as usize - 1][call.entry as usize][(wanted.reply.code == 1) as usize] += 1;
    }
}

fn say_tally(tally: &Tally, pairs: &Pairs, rounds: &[[u64; 101]; 2], tests: u32) {
    say::line("entry                  kind        0        1        2        3        4       11        5       10        6        7");
    for (entry, kinds) in ENTRIES.iter().zip(tally) {
        for (kind, numbers) in kinds.iter().enumerate() {
            if numbers.iter().all(|&n| n == 0) {
                continue;
            }
            say::text(entry.name);
            for _ in entry.name.len()..23 {
                say::text(" ");
            }
            say::text(if kind == 0 { "  -" } else { ["", "  1", "  2", "  3"][kind] });
            for number in [0].iter().chain(&FLAWS) {
                say::text(" ");
                say::column(numbers[*number], 8);
            }
            say::line("");
        }
    }
    say::line("calls with flaws of two rows put in, by row and row in the table's order (the diagonal: of one row)");
    for (i, &a) in FLAWS.iter().enumerate() {
        say::column(a as u64, 2);
        for (j, &b) in FLAWS.iter().enumerate() {
            say::text(" ");
            say::column(if j < i { 0 } else { pairs[a.min(b)][a.max(b)] }, 7);
        }
        say::line("");
    }
    for kind in 2..4 {
        say::text("primal gradients of kind ");
        say::whole(kind);
        say::text(", rounds of Newton and how often:");
        for (n, &count) in rounds[kind as usize - 2].iter().enumerate() {
            if count > 0 {
                say::text(" ");
                say::whole(n as u64);
                say::text(":");
                say::whole(count);
            }
        }
        say::line("");
    }
    say::text("most tests of one search: ");
    say::whole(tests as u64);
    say::line("");
}

fn say_answers(answers: &Answers, undecided: u64) {
    for (side, kinds) in ["primal", "dual"].iter().zip(answers) {
        for (kind, counts) in kinds.iter().enumerate().skip(1) {
            say::text(side);
            say::text(" feasibility of kind ");
            say::whole(kind as u64);
            for (words, &n) in [": no ", ", yes ", ", undecided "].iter().zip(counts) {
                say::text(words);
                say::whole(n);
            }
            say::line("");
        }
    }
    say::text("undecided trials of searches: ");
    say::whole(undecided);
    say::line("");
}

fn say_limits(limits: &Limits, only: Option<u32>) {
    say::line("exponent sums at a limit      rule 1: taken  refused    rule 2: taken  refused    least of an entry that takes kind 3");
    for (name, rules) in sums::NAMES.iter().zip(limits) {
        say::text(name);
        for _ in name.len()..27 {
            say::text(" ");
        }
        let mut least = u64::MAX;
        for entries in rules {
            let mut all = [0; 2];
            for (entry, counts) in entries.iter().enumerate() {
                let entry = entry as u32;
                all[0] += counts[0];
                all[1] += counts[1];
                if takes_kind_3(entry) && only.map_or(true, |only| only == entry) {
                    least = least.min(counts[0] + counts[1]);
                }
            }
            say::column(all[0], 16);
            say::column(all[1], 9);
        }
        say::column(if least == u64::MAX { 0 } else { least }, 12);
        say::line("");
    }
}
