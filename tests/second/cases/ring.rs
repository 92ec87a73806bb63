//! Cases of the ring.

use super::{choices, enough_scratch, fields, output_length, scratch, EMPTY};
use crate::driver::{Case, Desk, Lent, RING};
use crate::gen::{
    input_a, of_every_kind, of_middle_sizes, of_some_kinds, samples, spoil, spoil_lengths, spoil_parts, times, too_many, Chance, Samples,
};
use crate::rules::chain::{ring, ring_of};
use crate::rules::{scratch_for, MOST};

fn put(desk: &mut Desk, words: &'static str, samples: Samples, out_east: Vec<i32>, out_north: Vec<i32>, scratch: Vec<u32>) {
    let (mut east_after, mut north_after, mut scratch_after) = (out_east.clone(), out_north.clone(), scratch.clone());
    let answer = ring(&samples.east, &samples.north, &mut east_after, &mut north_after, &mut scratch_after);
    desk.put(Case {
        entry: &RING,
        words,
        scalars: Vec::new(),
        lent: vec![Lent::I32(samples.east), Lent::I32(samples.north), Lent::I32(out_east), Lent::I32(out_north), Lent::U32(scratch)],
        said: fields(answer.map(|count| vec![count as i64]), 1),
        altered: vec![(2, Lent::I32(east_after)), (3, Lent::I32(north_after)), (4, Lent::U32(scratch_after))],
    });
}

pub fn cases(desk: &mut Desk) {
    let mut chance = Chance::new(5);
    every_output(desk, &mut chance, "input A", input_a());
    for _ in 0..times(3_000) {
        let n = chance.below(12);
        let (words, samples) = samples(&mut chance, n);
        every_output(desk, &mut chance, words, samples);
    }
    for _ in 0..times(300_000) {
        let n = chance.length();
        let (words, mut samples) = samples(&mut chance, n);
        let corners = ring_of(&samples.positions()).len();
        let (out_east, out_north) = (output_length(&mut chance, corners), output_length(&mut chance, corners));
        if chance.one_in(16) {
            spoil_parts(&mut chance, &mut samples);
        }
        if chance.one_in(24) {
            spoil_lengths(&mut chance, &mut samples);
        }
        let (out_east, out_north, scratch) = (chance.noise_i32(out_east), chance.noise_i32(out_north), scratch(&mut chance, n));
        put(desk, words, samples, out_east, out_north, scratch);
    }
    largest(desk);
    for (words, samples) in of_some_kinds(&mut chance, MOST) {
        every_output(desk, &mut chance, words, samples);
    }
}

/// Middle sizes, of every kind.
pub fn middle(desk: &mut Desk) {
    let mut chance = Chance::new(45);
    of_middle_sizes(&mut chance, |chance, words, list| {
        let mut samples = Samples::of(&list);
        let corners = ring_of(&list).len();
        let (out_east, out_north, exact) = (chance.noise_i32(corners), chance.noise_i32(corners), enough_scratch(chance, list.len()));
        put(desk, words, samples.clone(), out_east, out_north, exact);
        let (out_east, out_north) = (output_length(chance, corners), output_length(chance, corners));
        spoil(chance, &mut samples);
        let (out_east, out_north, scratch) = (chance.noise_i32(out_east), chance.noise_i32(out_north), scratch(chance, list.len()));
        put(desk, words, samples, out_east, out_north, scratch);
    });
}

/// The outputs exactly long enough, one short in either and in both, and longer, full of noise; the scratch exactly long enough and one short, full of noise.
fn every_output(desk: &mut Desk, chance: &mut Chance, words: &'static str, samples: Samples) {
    let enough = ring_of(&samples.positions()).len();
    let short = enough.saturating_sub(1);
    for (out_east, out_north) in [(enough, enough), (short, enough), (enough, short), (short, short), (enough + 3, enough + 1)] {
        for scratch in [scratch_for(samples.east.len()), scratch_for(samples.east.len()) - 1] {
            let (out_east, out_north, scratch) = (chance.noise_i32(out_east), chance.noise_i32(out_north), chance.noise_u32(scratch));
            put(desk, words, samples.clone(), out_east, out_north, scratch);
        }
    }
}

/// 65,536 samples of every kind, and one more.
pub fn largest(desk: &mut Desk) {
    let mut chance = Chance::new(25);
    for (words, samples) in of_every_kind(&mut chance, MOST) {
        let corners = ring_of(&samples.positions()).len();
        let (out_east, out_north, scratch) = (chance.noise_i32(corners), chance.noise_i32(corners), enough_scratch(&mut chance, MOST));
        put(desk, words, samples, out_east, out_north, scratch);
    }
    let long = Samples::of(&crate::gen::tide(&mut chance, MOST + 1));
    put(desk, "one sample too many", long, vec![8; 9], vec![9; 9], vec![7; scratch_for(MOST + 1)]);
    for long in too_many() {
        put(desk, "too many samples, nothing else", long, Vec::new(), Vec::new(), Vec::new());
    }
}

/// Every choice of lists left empty, of a call that is done where none is.
pub fn empty(desk: &mut Desk) {
    for choice in choices(5) {
        put(desk, EMPTY, choice.of_two(0, &input_a()), choice.of(2, &[9; 5]), choice.of(3, &[9; 5]), choice.of(4, &[7; scratch_for(7)]));
    }
}
