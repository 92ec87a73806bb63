//! Cases of turning about.

use super::{choices, fields, output_length, EMPTY};
use crate::driver::{Case, Desk, Lent, TURN_ABOUT};
use crate::gen::{
    almost_ring, input_a, large_ring, ring, rings_of_middle_sizes, spoil, spoil_lengths, spoil_parts, times, too_many, Chance, Samples, MOST_CORNERS,
};
use crate::rules::chain::ring_of;
use crate::rules::using::turn_about;
use crate::rules::MOST;

fn put(desk: &mut Desk, words: &'static str, ring: Samples, out_east: Vec<i32>, out_north: Vec<i32>) {
    let (mut east_after, mut north_after) = (out_east.clone(), out_north.clone());
    let answer = turn_about(&ring.east, &ring.north, &mut east_after, &mut north_after);
    desk.put(Case {
        entry: &TURN_ABOUT,
        words,
        scalars: Vec::new(),
        lent: vec![Lent::I32(ring.east), Lent::I32(ring.north), Lent::I32(out_east), Lent::I32(out_north)],
        said: fields(answer.map(|count| vec![count as i64]), 1),
        altered: vec![(2, Lent::I32(east_after)), (3, Lent::I32(north_after))],
    });
}

pub fn cases(desk: &mut Desk) {
    let mut chance = Chance::new(10);
    put(desk, "P10", Samples { east: vec![0, 2, 4], north: vec![0, 5, 0] }, vec![8; 3], vec![9; 3]);
    for _ in 0..times(300_000) {
        let (words, corners) = if chance.one_in(4) { almost_ring(&mut chance) } else { ring(&mut chance) };
        let (out_east, out_north) = (output_length(&mut chance, corners.len()), output_length(&mut chance, corners.len()));
        let mut ring = Samples::of(&corners);
        if chance.one_in(20) {
            spoil_parts(&mut chance, &mut ring);
        }
        if chance.one_in(30) {
            spoil_lengths(&mut chance, &mut ring);
        }
        let (out_east, out_north) = (chance.noise_i32(out_east), chance.noise_i32(out_north));
        put(desk, words, ring, out_east, out_north);
    }
    largest(desk);
}

/// Rings of middle sizes, almost rings, and lists that are none.
pub fn middle(desk: &mut Desk) {
    let mut chance = Chance::new(50);
    rings_of_middle_sizes(&mut chance, |chance, words, corners| {
        let mut ring = Samples::of(&corners);
        let (out_east, out_north) = (chance.noise_i32(corners.len()), chance.noise_i32(corners.len()));
        put(desk, words, ring.clone(), out_east, out_north);
        let (out_east, out_north) = (output_length(chance, corners.len()), output_length(chance, corners.len()));
        spoil(chance, &mut ring);
        let (out_east, out_north) = (chance.noise_i32(out_east), chance.noise_i32(out_north));
        put(desk, words, ring, out_east, out_north);
    });
}

/// Rings of as many corners as there is room for, and lists too long.
pub fn largest(desk: &mut Desk) {
    let (enough, large) = (MOST_CORNERS, Samples::of(&large_ring(MOST_CORNERS)));
    for (out_east, out_north) in [(enough, enough), (enough - 1, enough), (enough, enough - 1), (enough + 1, MOST + 1)] {
        put(desk, "as many corners as there is room for", large.clone(), vec![8; out_east], vec![9; out_north]);
    }
    put(desk, "most corners, no ring", Samples { east: vec![1; MOST], north: vec![1; MOST] }, vec![8; MOST], vec![9; MOST]);
    for long in too_many() {
        put(desk, "too many corners", long.clone(), vec![8; MOST + 1], vec![9; MOST + 1]);
        put(desk, "too many corners, no outputs", long, Vec::new(), Vec::new());
    }
}

/// Every choice of lists left empty, of a call that is done where none is.
pub fn empty(desk: &mut Desk) {
    for choice in choices(4) {
        let ring = Samples::of(&ring_of(&input_a().positions()));
        put(desk, EMPTY, choice.of_two(0, &ring), choice.of(2, &[9; 5]), choice.of(3, &[9; 5]));
    }
}
