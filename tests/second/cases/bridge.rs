//! Cases of the bridge.

use super::{choices, enough_scratch, fields, scratch, EMPTY};
use crate::driver::{Case, Desk, Lent, BRIDGE};
use crate::gen::{cut, input_a, of_every_kind, of_middle_sizes, samples, spoil, spoil_lengths, spoil_parts, times, too_many, Chance, Samples};
use crate::rules::chain::bridge;
use crate::rules::{scratch_for, MOST};

fn put(desk: &mut Desk, words: &'static str, samples: Samples, a: i32, scratch: Vec<u32>) {
    let mut after = scratch.clone();
    let answer = bridge(&samples.east, &samples.north, a, &mut after);
    desk.put(Case {
        entry: &BRIDGE,
        words,
        scalars: vec![a as i64],
        lent: vec![Lent::I32(samples.east), Lent::I32(samples.north), Lent::U32(scratch)],
        said: fields(answer.map(|(left, right)| vec![left as i64, right as i64]), 2),
        altered: vec![(2, Lent::U32(after))],
    });
}

pub fn cases(desk: &mut Desk) {
    let mut chance = Chance::new(3);
    for (words, a) in [("P3", 2), ("P4", 1), ("P5", 4), ("input A", 0), ("input A", 3), ("input A", -1), ("input A", i32::MIN)] {
        let scratch = enough_scratch(&mut chance, 7);
        put(desk, words, input_a(), a, scratch);
    }
    every_cut(desk, &mut chance);
    for _ in 0..times(240_000) {
        let n = chance.length();
        let (words, mut samples) = samples(&mut chance, n);
        let a = cut(&mut chance, &samples.east);
        if chance.one_in(12) {
            spoil_parts(&mut chance, &mut samples);
        }
        if chance.one_in(20) {
            spoil_lengths(&mut chance, &mut samples);
        }
        let scratch = scratch(&mut chance, n);
        put(desk, words, samples, a, scratch);
    }
    largest(desk);
}

/// Short lists with a at, below and above every east.
fn every_cut(desk: &mut Desk, chance: &mut Chance) {
    for _ in 0..times(3_000) {
        let n = chance.below(7);
        let (words, samples) = samples(chance, n);
        for a in samples.east.iter().flat_map(|&east| [east - 1, east, east + 1]) {
            let scratch = enough_scratch(chance, n);
            put(desk, words, samples.clone(), a, scratch);
        }
    }
}

/// Middle sizes, of every kind.
pub fn middle(desk: &mut Desk) {
    let mut chance = Chance::new(43);
    of_middle_sizes(&mut chance, |chance, words, list| {
        let mut samples = Samples::of(&list);
        let a = chance.of(&samples.east);
        let exact = enough_scratch(chance, list.len());
        put(desk, words, samples.clone(), a, exact);
        let a = cut(chance, &samples.east);
        spoil(chance, &mut samples);
        let scratch = scratch(chance, list.len());
        put(desk, words, samples, a, scratch);
    });
}

/// 65,536 samples of every kind, and one more.
pub fn largest(desk: &mut Desk) {
    let mut chance = Chance::new(23);
    for (words, samples) in of_every_kind(&mut chance, MOST) {
        let mut easts = samples.east.clone();
        easts.sort_unstable();
        for a in [easts[0], easts[MOST / 2], easts[MOST - 1] - 1, easts[MOST - 1]] {
            let scratch = enough_scratch(&mut chance, MOST);
            put(desk, words, samples.clone(), a, scratch);
        }
    }
    for long in too_many() {
        put(desk, "too many samples", long.clone(), 3, vec![7; scratch_for(MOST + 1)]);
        put(desk, "too many samples, no scratch", long, 3, Vec::new());
    }
}

/// Every choice of lists left empty, of a call that is done where none is.
pub fn empty(desk: &mut Desk) {
    for choice in choices(3) {
        put(desk, EMPTY, choice.of_two(0, &input_a()), 1, choice.of(2, &[7; scratch_for(7)]));
    }
}
