//! Cases of the chains.

use super::{choices, enough_scratch, fields, output_length, scratch, EMPTY};
use crate::driver::{Case, Desk, Lent, CHAINS};
use crate::gen::{
    input_a, of_every_kind, of_middle_sizes, of_some_kinds, samples, spoil, spoil_lengths, spoil_parts, times, too_many, Chance, Samples,
};
use crate::rules::chain::{chains, chains_of};
use crate::rules::{scratch_for, MOST};

fn put(desk: &mut Desk, words: &'static str, samples: Samples, upper: Vec<u32>, lower: Vec<u32>, scratch: Vec<u32>) {
    let (mut upper_after, mut lower_after, mut scratch_after) = (upper.clone(), lower.clone(), scratch.clone());
    let answer = chains(&samples.east, &samples.north, &mut upper_after, &mut lower_after, &mut scratch_after);
    desk.put(Case {
        entry: &CHAINS,
        words,
        scalars: Vec::new(),
        lent: vec![Lent::I32(samples.east), Lent::I32(samples.north), Lent::U32(upper), Lent::U32(lower), Lent::U32(scratch)],
        said: fields(answer.map(|(upper, lower)| vec![upper as i64, lower as i64]), 2),
        altered: vec![(2, Lent::U32(upper_after)), (3, Lent::U32(lower_after)), (4, Lent::U32(scratch_after))],
    });
}

pub fn cases(desk: &mut Desk) {
    let mut chance = Chance::new(4);
    every_output(desk, &mut chance, "P1 and P2: input A", input_a());
    for _ in 0..times(3_000) {
        let n = chance.below(12);
        let (words, samples) = samples(&mut chance, n);
        every_output(desk, &mut chance, words, samples);
    }
    for _ in 0..times(300_000) {
        let n = chance.length();
        let (words, mut samples) = samples(&mut chance, n);
        let found = chains_of(&samples.positions());
        let (upper, lower) = (output_length(&mut chance, found.upper.len()), output_length(&mut chance, found.lower.len()));
        if chance.one_in(16) {
            spoil_parts(&mut chance, &mut samples);
        }
        if chance.one_in(24) {
            spoil_lengths(&mut chance, &mut samples);
        }
        let (upper, lower, scratch) = (chance.noise_u32(upper), chance.noise_u32(lower), scratch(&mut chance, n));
        put(desk, words, samples, upper, lower, scratch);
    }
    largest(desk);
    for (words, samples) in of_some_kinds(&mut chance, MOST) {
        every_output(desk, &mut chance, words, samples);
    }
}

/// Middle sizes, of every kind.
pub fn middle(desk: &mut Desk) {
    let mut chance = Chance::new(44);
    of_middle_sizes(&mut chance, |chance, words, list| {
        let mut samples = Samples::of(&list);
        let found = chains_of(&list);
        let (upper, lower) = (chance.noise_u32(found.upper.len()), chance.noise_u32(found.lower.len()));
        let exact = enough_scratch(chance, list.len());
        put(desk, words, samples.clone(), upper, lower, exact);
        let (upper, lower) = (output_length(chance, found.upper.len()), output_length(chance, found.lower.len()));
        spoil(chance, &mut samples);
        let (upper, lower, scratch) = (chance.noise_u32(upper), chance.noise_u32(lower), scratch(chance, list.len()));
        put(desk, words, samples, upper, lower, scratch);
    });
}

/// The outputs exactly long enough, one short in either and in both, and longer, full of noise; the scratch exactly long enough and one short, full of noise.
fn every_output(desk: &mut Desk, chance: &mut Chance, words: &'static str, samples: Samples) {
    let found = chains_of(&samples.positions());
    let (upper, lower) = (found.upper.len(), found.lower.len());
    let (short_upper, short_lower) = (upper.saturating_sub(1), lower.saturating_sub(1));
    for (upper, lower) in [(upper, lower), (short_upper, lower), (upper, short_lower), (short_upper, short_lower), (upper + 2, lower + 3)] {
        for scratch in [scratch_for(samples.east.len()), scratch_for(samples.east.len()) - 1] {
            let (upper, lower, scratch) = (chance.noise_u32(upper), chance.noise_u32(lower), chance.noise_u32(scratch));
            put(desk, words, samples.clone(), upper, lower, scratch);
        }
    }
}

/// 65,536 samples of every kind, and one more.
pub fn largest(desk: &mut Desk) {
    let mut chance = Chance::new(24);
    for (words, samples) in of_every_kind(&mut chance, MOST) {
        let found = chains_of(&samples.positions());
        let (upper, lower) = (chance.noise_u32(found.upper.len()), chance.noise_u32(found.lower.len()));
        let scratch = enough_scratch(&mut chance, MOST);
        put(desk, words, samples, upper, lower, scratch);
    }
    let samples = Samples::of(&crate::gen::tide(&mut chance, MOST));
    put(desk, "tide, whole outputs", samples.clone(), vec![8; MOST], vec![9; MOST], vec![7; scratch_for(MOST)]);
    put(desk, "tide, no outputs", samples, Vec::new(), Vec::new(), vec![7; scratch_for(MOST)]);
    let long = Samples::of(&crate::gen::tide(&mut chance, MOST + 1));
    put(desk, "one sample too many", long, vec![8; 9], vec![9; 9], vec![7; scratch_for(MOST + 1)]);
    for long in too_many() {
        put(desk, "too many samples, nothing else", long, Vec::new(), Vec::new(), Vec::new());
    }
}

/// Every choice of lists left empty, of a call that is done where none is.
pub fn empty(desk: &mut Desk) {
    for choice in choices(5) {
        put(desk, EMPTY, choice.of_two(0, &input_a()), choice.of(2, &[9; 3]), choice.of(3, &[9; 2]), choice.of(4, &[7; scratch_for(7)]));
    }
}
