//! Cases of the join: overlapping, nested, touching, equal, empty and one-corner rings, almost rings, and chains of joins in random grouping.

use super::two_rings::TwoRings;
use crate::driver::{Desk, JOIN};
use crate::gen::{ring, times, Chance};
use crate::rules::chain::{at, ring_of, Position};
use crate::rules::using::{join, joined};

const OF_JOIN: TwoRings = TwoRings { entry: &JOIN, rules: join, made: joined, fitting: <[Position]>::to_vec, beside };

/// A ring beside another one, and how it stands to it.
fn beside(chance: &mut Chance, first: &[Position]) -> (&'static str, Vec<Position>) {
    if first.is_empty() || chance.one_in(3) {
        return ("two rings by chance", ring(chance).1);
    }
    let corner = chance.of(first);
    match chance.below(7) {
        0 => ("the same ring twice", first.to_vec()),
        1 => ("joined with the empty ring", Vec::new()),
        2 => ("joined with a ring of one of its corners", vec![corner]),
        3 => {
            let some: Vec<Position> = first.iter().filter(|_| chance.one_in(2)).copied().collect();
            ("joined with a ring of some of its corners", ring_of(&some))
        }
        4 => {
            let third: Vec<Position> = first.iter().map(|p| at(p.east / 3, p.north / 3)).collect();
            ("joined with a ring of a third of its size", ring_of(&third))
        }
        5 => {
            let by = chance.of(&[at(1, 0), at(0, 1), at(-1, 0), at(0, -1), at(1, 1)]);
            let moved: Vec<Position> = first.iter().map(|p| at(within(p.east + by.east), within(p.north + by.north))).collect();
            ("joined with itself moved by one", ring_of(&moved))
        }
        _ => {
            let last = first[first.len() - 1];
            let moved: Vec<Position> = first.iter().map(|p| at(p.east + corner.east - last.east, p.north + corner.north - last.north)).collect();
            let clamped: Vec<Position> = moved.iter().map(|p| at(within(p.east), within(p.north))).collect();
            ("joined with itself moved to touch", ring_of(&clamped))
        }
    }
}

fn within(part: i64) -> i64 {
    part.clamp(-1_000_000, 1_000_000)
}

pub fn cases(desk: &mut Desk) {
    let mut chance = Chance::new(11);
    OF_JOIN.put_whole(desk, &mut chance, "P9", &[at(2, 5), at(2, 1)], &[at(0, 0), at(4, 0)]);
    OF_JOIN.refusals(desk);
    for _ in 0..times(270_000) {
        OF_JOIN.pair(desk, &mut chance);
    }
    for _ in 0..times(12_000) {
        let rings = (0..chance.between(3, 6)).map(|_| ring(&mut chance).1).collect();
        OF_JOIN.grouping(desk, &mut chance, "a chain of joins", rings);
    }
    largest(desk);
}

pub fn middle(desk: &mut Desk) {
    OF_JOIN.middle(desk, &mut Chance::new(51));
}

pub fn largest(desk: &mut Desk) {
    OF_JOIN.largest(desk, &mut Chance::new(31));
}

pub fn empty(desk: &mut Desk) {
    OF_JOIN.empty(desk);
}
