// The fixed list: calls of every entry, kind and number with the oracle's answers, as little-endian words of 64 bits that a program reads from its input.
//
//   the file    the number of records, then the records
//   a record    its length in words after this one; entry; option; kind; dim1; dim2; rule;
//               n, then n exponents (the other places +0);
//               scaled; serial; n, then the n used numbers of the record passed, in order (0 for an entry that takes a cone);
//               n, then n plain numbers; n, then n slices, each its length and its numbers as lent;
//               number; answer; two counts; three values;
//               scaled; serial; n, then the n used numbers of the record, or gradient and block, handed back (0 for other entries);
//               for each slice that is written its numbers afterwards
//
// Entries count as in spindle.h from fresh = 0 to powf = 23. Used numbers: z, grad, h_dual, hs; for kind 3 z, mu, grad, p, q, r, d1, d2, each cut to the cone's
// dims. An unused place is +0, a NaN is 7FF8000000000000, in what is passed and in what comes back.

use crate::cases::{case, used};
use crate::expected::expected;
use crate::paper;
use crate::random::Random;
use crate::say;
use crate::sums;
use crate::types::*;
use alloc::vec::Vec;

extern "C" {
    fn oracle_port(call: *mut Call, reply: *mut Reply, in_place: u32);
    fn file_open(name: *const u8) -> u32;
    fn file_words(words: *const u64, count: usize);
    fn file_close() -> u32;
}

// a call as the list can hold it
fn plain(mut call: Call) -> Call {
    let entry = entry_of(&call);
    let cone = call.record.cone;
    let mut numbers = Vec::new();
    let takes = entry.takes_record;
    used(&mut call.record, &mut |x| numbers.push(*x));
    let Scaling { scaled, serial, .. } = if takes { call.record } else { Scaling::ZERO };
    call.record = Scaling { cone, scaled, serial, ..Scaling::ZERO };
    let exps = exponents(&cone);
    for a in call.record.cone.exps[exps..].iter_mut() {
        *a = 0.0;
    }
    if takes && good_dims(&cone) {
        let mut i = 0;
        used(&mut call.record, &mut |x| {
            *x = numbers[i];
            i += 1;
        });
    }
    used(&mut call.record, &mut one_nan);
    call.record.cone.exps.iter_mut().for_each(one_nan);
    call.numbers.iter_mut().for_each(one_nan);
    for x in call.numbers[entry.numbers.len()..].iter_mut() {
        *x = 0.0;
    }
    for (slice, &(_, lent)) in call.slices.iter_mut().zip(entry.slices) {
        for (i, x) in slice.numbers_mut().iter_mut().enumerate() {
            if lent == Lent::Read {
                one_nan(x);
            } else {
                *x = 1.0 + i as f64;
            }
        }
    }
    call
}

fn one_nan(x: &mut f64) {
    if *x != *x {
        *x = f64::from_bits(0x7FF8_0000_0000_0000);
    }
}

fn good_dims(cone: &Cone) -> bool {
    cone.kind != 3 || (1..=32).contains(&cone.dim1) && (1..=32).contains(&cone.dim2)
}

fn exponents(cone: &Cone) -> usize {
    match cone.kind {
        2 => 1,
        3 => (cone.dim1 as usize).min(32),
        _ => 0,
    }
}

fn list(words: &mut Vec<u64>, numbers: &[f64]) {
    words.push(numbers.len() as u64);
    words.extend(numbers.iter().map(|x| x.to_bits()));
}

fn record_list(words: &mut Vec<u64>, record: &Scaling, there: bool) {
    words.extend([record.scaled as u64, record.serial as u64]);
    let mut numbers = Vec::new();
    if there && good_dims(&record.cone) {
        let mut record = *record;
        used(&mut record, &mut |x| numbers.push(*x));
    }
    list(words, &numbers);
}

fn record_of(call: &Call, answer: &Answer) -> Vec<u64> {
    let entry = entry_of(call);
    let cone = &call.record.cone;
    let mut words = Vec::new();
    words.extend([call.entry as u64, call.option as u64, cone.kind as u64, cone.dim1 as u64, cone.dim2 as u64, cone.rule as u64]);
    list(&mut words, &cone.exps[..exponents(cone)]);
    record_list(&mut words, &call.record, entry.takes_record);
    list(&mut words, &call.numbers[..entry.numbers.len()]);
    words.push(entry.slices.len() as u64);
    for slice in &call.slices[..entry.slices.len()] {
        list(&mut words, slice.numbers());
    }
    let reply = &answer.reply;
    words.extend([reply.code as u64, reply.answer as u64, reply.counts[0] as u64, reply.counts[1] as u64]);
    words.extend(reply.values.iter().map(|x| x.to_bits()));
    match call.entry {
        DUAL_GRAD_H => record_list(&mut words, &Scaling { cone: *cone, three: reply.three, wide: reply.wide, ..Scaling::ZERO }, true),
        FRESH | UPDATE_SCALING => record_list(&mut words, &reply.record, true),
        _ => record_list(&mut words, &Scaling::ZERO, false),
    }
    for (slice, &(_, lent)) in answer.slices.iter().zip(entry.slices) {
        if lent != Lent::Read {
            words.extend(slice.numbers().iter().map(|x| x.to_bits()));
        }
    }
    words.insert(0, words.len() as u64);
    words
}

// How many records of one entry, kind and number: more where something is computed.
const DONE: u32 = 13;
const REFUSED: u32 = 2;
const KERNEL: u32 = 25;
// How many of one entry and number that are at a limit of the Rust.
const LIMITS: u32 = 8;
// How many of one feasibility entry, kind and answer.
const ANSWERED: u32 = 6;
// A record above this many words is rare, so that the list stays small.
const LONG: usize = 90;

// The list's calls with their answers, border points and the limits of both rules first: a choice of the first calls, or all of so many.
pub fn chosen(seed: u64, all: Option<u64>) -> Vec<(Call, Answer)> {
    let mut held = [[[0u32; 12]; 4]; 24];
    let mut long = [[[0u32; 12]; 4]; 24];
    let mut rounds = [[0u32; 101]; 4];
    let mut limits = [[0u32; 12]; 24];
    let mut answers = [[[0u32; 3]; 4]; 24];
    let mut list: Vec<(Call, Answer)> = Vec::new();
    for i in 0..paper::ROWS {
        let call = plain(paper::row(i).1);
        list.push((call, expected(&call)));
    }
    for call in sums::rows().into_iter().filter(sums::listed).map(plain) {
        list.push((call, expected(&call)));
    }
    for i in 0..all.unwrap_or(400_000) {
        let mut random = Random::new(seed.wrapping_mul(1 << 40).wrapping_add(i));
        let made = case(&mut random, None);
        let call = plain(made.call);
        // what the list cannot say: an old record of bad dims, a slice that is longer than any
        if !good_dims(&call.record.cone) && call.entry == UPDATE_SCALING || call.slices.iter().any(|slice| slice.len as usize > MOST) {
            continue;
        }
        let mut answer = expected(&call);
        if call.entry >= SQRT {
            // a kernel's answer is its own
            let mut lent = call;
            unsafe { oracle_port(&mut lent, &mut answer.reply, 0) };
        }
        let kind = (call.record.cone.kind as usize).min(3) * (call.record.cone.kind < 4) as usize;
        let (entry, code) = (call.entry as usize, answer.reply.code as usize);
        let cell = &mut held[entry][kind][code];
        // each number of Newton's rounds a few times, and calls at a limit of the Rust
        let turns = &mut rounds[kind][answer.reply.counts[0].min(100) as usize];
        let limit = &mut limits[entry][code];
        let tested = code == 0 && (call.entry == IS_PRIMAL_FEASIBLE || call.entry == IS_DUAL_FEASIBLE);
        let alike = &mut answers[entry][kind][answer.reply.answer as usize];
        let more = call.entry == GRADIENT_PRIMAL && code == 0 && *turns < 4 || made.aimed && *limit < LIMITS || tested && *alike < ANSWERED;
        let most = match code {
            _ if call.entry >= SQRT => KERNEL,
            0 => DONE,
            _ => REFUSED,
        };
        if all.is_none() {
            if *cell >= most && !more {
                continue;
            }
            if record_of(&call, &answer).len() > LONG {
                let cell = &mut long[entry][kind][code];
                if *cell >= 1 && !more {
                    continue;
                }
                *cell += 1;
            }
        }
        *cell += 1;
        *limit += made.aimed as u32;
        *alike += 1;
        if call.entry == GRADIENT_PRIMAL {
            *turns += 1;
        }
        list.push((call, answer));
    }
    list
}

pub fn write(name: *const u8, seed: u64, all: Option<u64>) -> bool {
    if unsafe { file_open(name) } == 0 {
        return false;
    }
    let list = chosen(seed, all);
    let count = list.len() as u64;
    unsafe { file_words(&count, 1) };
    let mut words = 1;
    for (call, answer) in &list {
        let record = record_of(call, answer);
        unsafe { file_words(record.as_ptr(), record.len()) };
        words += record.len();
    }
    say::whole(count);
    say::text(" records, ");
    say::whole(words as u64 * 8);
    say::line(" bytes");
    unsafe { file_close() == 1 }
}
