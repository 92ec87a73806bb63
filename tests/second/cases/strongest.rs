//! Cases of the strongest set: courses across the edges, where two corners have it, and beside them.

use super::{choices, fields, EMPTY};
use crate::driver::{Case, Desk, Lent, STRONGEST};
use crate::gen::{
    almost_ring, common, input_a, large_ring, ring, rings_of_middle_sizes, spoil, spoil_lengths, spoil_parts, times, too_many, Chance, Samples,
    MOST_CORNERS,
};
use crate::rules::chain::{ring_of, Position};
use crate::rules::using::strongest;
use crate::rules::{LIMIT, MOST};

fn put(desk: &mut Desk, words: &'static str, ring: Samples, course: (i32, i32)) {
    let answer = strongest(&ring.east, &ring.north, course.0, course.1);
    desk.put(Case {
        entry: &STRONGEST,
        words,
        scalars: vec![course.0 as i64, course.1 as i64],
        lent: vec![Lent::I32(ring.east), Lent::I32(ring.north)],
        said: fields(answer.map(|(set, place)| vec![set, place as i64]), 2),
        altered: Vec::new(),
    });
}

/// The course straight across the edge from p to q, outwards, as short as it is exact.
fn across(p: Position, q: Position) -> (i32, i32) {
    let (east, north) = (q.east - p.east, q.north - p.north);
    let by = common(east, north);
    ((-north / by) as i32, (east / by) as i32)
}

fn course(chance: &mut Chance, corners: &[Position]) -> (i32, i32) {
    let near = [-LIMIT - 1, -LIMIT, -LIMIT + 1, -1, 0, 1, LIMIT - 1, LIMIT, LIMIT + 1, i32::MIN, i32::MAX];
    match chance.below(10) {
        0 => (chance.of(&near), chance.of(&near)),
        1 => (0, 0),
        2 => (chance.between(-4, 4) as i32, chance.between(-4, 4) as i32),
        3 => (chance.between(-1_000_000, 1_000_000) as i32, chance.between(-1_000_000, 1_000_000) as i32),
        _ if corners.is_empty() => (1, 1),
        _ => {
            let place = chance.below(corners.len());
            let (x, y) = across(corners[place], corners[(place + 1) % corners.len()]);
            let sign = chance.of(&[1, 1, 1, -1]);
            (sign * x + chance.of(&[0, 0, 0, -1, 1]), sign * y + chance.of(&[0, 0, 0, -1, 1]))
        }
    }
}

pub fn cases(desk: &mut Desk) {
    let mut chance = Chance::new(8);
    let ring_a = Samples::of(&ring_of(&input_a().positions()));
    put(desk, "P11", ring_a.clone(), (-1, 1));
    for x in -3..=3 {
        for y in -3..=3 {
            put(desk, "A's ring", ring_a.clone(), (x, y));
        }
    }
    for _ in 0..times(300_000) {
        let (words, corners) = if chance.one_in(4) { almost_ring(&mut chance) } else { ring(&mut chance) };
        let course = course(&mut chance, &corners);
        let mut ring = Samples::of(&corners);
        if chance.one_in(20) {
            spoil_parts(&mut chance, &mut ring);
        }
        if chance.one_in(30) {
            spoil_lengths(&mut chance, &mut ring);
        }
        put(desk, words, ring, course);
    }
    largest(desk);
}

/// Rings of middle sizes, almost rings, and lists that are none.
pub fn middle(desk: &mut Desk) {
    let mut chance = Chance::new(48);
    rings_of_middle_sizes(&mut chance, |chance, words, corners| {
        let mut ring = Samples::of(&corners);
        let near = course(chance, &corners);
        put(desk, words, ring.clone(), near);
        let course = course(chance, &corners);
        spoil(chance, &mut ring);
        put(desk, words, ring, course);
    });
}

/// Rings of as many corners as there is room for, and lists too long.
pub fn largest(desk: &mut Desk) {
    let mut chance = Chance::new(28);
    let large = large_ring(MOST_CORNERS);
    for _ in 0..20 {
        let course = course(&mut chance, &large);
        put(desk, "as many corners as there is room for", Samples::of(&large), course);
    }
    put(desk, "most corners, no ring", Samples { east: vec![1; MOST], north: vec![1; MOST] }, (1, 1));
    for long in too_many() {
        put(desk, "too many corners", long.clone(), (1, 1));
        put(desk, "too many corners", long, (LIMIT + 1, 0));
    }
}

/// Every choice of lists left empty, of a call that is done where none is.
pub fn empty(desk: &mut Desk) {
    for choice in choices(2) {
        put(desk, EMPTY, choice.of_two(0, &Samples::of(&ring_of(&input_a().positions()))), (-1, 1));
    }
}
