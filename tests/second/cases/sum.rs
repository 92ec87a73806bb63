//! Cases of the sum: rings of no corner, of one, of two and of many; upright, flat and parallel sides; rings on one line, of one slope and of two; sums that reach
//! the limit and one beyond it on each of the four sides; almost rings, and chains of sums in random grouping.

use super::two_rings::{outputs, TwoRings};
use crate::driver::{Desk, SUM};
use crate::gen::{large_ring, ring, smallest_rings, stretched, times, Chance, Samples, MOST_CORNERS};
use crate::rules::chain::{at, ring_of, Position};
use crate::rules::sum::{sides, sum, sum_within, summed};
use crate::rules::using::turned;
use crate::rules::{scratch_for, MOST};

const OF_SUM: TwoRings = TwoRings { entry: &SUM, rules: sum, made: summed, fitting: halved, beside };

const LIMIT: i64 = crate::rules::LIMIT as i64;

fn reach(list: &[Position]) -> i64 {
    list.iter().map(|p| p.east.abs().max(p.north.abs())).max().unwrap_or(0)
}

fn shrunk(list: &[Position], by: i64) -> Vec<Position> {
    list.iter().map(|p| at(p.east / by, p.north / by)).collect()
}

fn halved(list: &[Position]) -> Vec<Position> {
    if reach(list) > LIMIT / 2 {
        shrunk(list, 2)
    } else {
        list.to_vec()
    }
}

/// A ring of two positions, the second at so many steps from the first.
fn line(chance: &mut Chance, way: Position, most: i64) -> Vec<Position> {
    let (start, steps) = (at(chance.between(-1000, 1000), chance.between(-1000, 1000)), chance.between(-most, most));
    ring_of(&[start, at(start.east + steps * way.east, start.north + steps * way.north)])
}

fn beside(chance: &mut Chance, first: &[Position]) -> (&'static str, Vec<Position>) {
    if first.is_empty() || chance.one_in(3) {
        return ("two rings by chance", OF_SUM.ring(chance));
    }
    let corner = chance.of(first);
    match chance.below(9) {
        0 => ("a ring added to itself", first.to_vec()),
        1 => ("added to the empty ring", Vec::new()),
        2 => ("added to one position", vec![at(chance.of(&[1, -1]) * corner.east, chance.of(&[1, -1]) * corner.north)]),
        3 => {
            let some: Vec<Position> = first.iter().filter(|_| chance.one_in(2)).copied().collect();
            ("added to a ring of some of its corners", ring_of(&some))
        }
        4 => ("a ring added to itself turned about", turned(first)),
        5 => {
            let most = LIMIT / reach(first).max(1);
            ("a ring added to itself stretched", stretched(first, chance.between(1, most.clamp(1, 5))))
        }
        6 => {
            let ways: Vec<Position> = sides(first).collect();
            let way = if ways.is_empty() { at(1, 1) } else { chance.of(&ways) };
            ("added to one of its sides", ring_of(&[at(0, 0), way]))
        }
        7 => ("added to an upright side", line(chance, at(0, 7), 100)),
        _ => ("added to a flat side", line(chance, at(7, 0), 100)),
    }
}

pub fn cases(desk: &mut Desk) {
    let mut chance = Chance::new(16);
    OF_SUM.refusals(desk);
    smallest(desk, &mut chance);
    for _ in 0..times(180_000) {
        OF_SUM.pair(desk, &mut chance);
    }
    for _ in 0..times(20_000) {
        two_lines(desk, &mut chance);
    }
    for _ in 0..times(60_000) {
        at_limit(desk, &mut chance);
    }
    for _ in 0..times(8_000) {
        let rings = (0..chance.between(3, 6)).map(|_| ring_of(&shrunk(&ring(&mut chance).1, 6))).collect();
        OF_SUM.grouping(desk, &mut chance, "a chain of sums", rings);
    }
    largest(desk);
}

/// Every two rings of nine positions, or a hundredth of them.
fn smallest(desk: &mut Desk, chance: &mut Chance) {
    let rings = smallest_rings();
    let all = rings.len() * rings.len();
    for pair in (0..all).step_by(all / times(all)) {
        OF_SUM.put_whole(desk, chance, "every two of the smallest rings", &rings[pair / rings.len()], &rings[pair % rings.len()]);
    }
}

/// Rings on one line each, which have one slope or two.
fn two_lines(desk: &mut Desk, chance: &mut Chance) {
    let most = chance.of(&[1, 3, 1000]);
    let mut way = || at(chance.between(-most, most), chance.between(-most, most));
    let (one, other) = (way(), way());
    let (words, other) = if chance.one_in(2) { ("two lines of one slope", one) } else { ("two lines of two slopes", other) };
    let (first, second) = (line(chance, one, 200), line(chance, other, 200));
    OF_SUM.put_damaged(desk, chance, words, &first, &second);
}

/// The sides of the sheet, each as the course to it, with the words for a sum that reaches the limit there and for one beyond it.
const SHEET: [((i64, i64), &str, &str); 4] = [
    ((1, 0), "up to the limit in the east", "beyond the limit in the east"),
    ((-1, 0), "up to the limit in the west", "beyond the limit in the west"),
    ((0, 1), "up to the limit in the north", "beyond the limit in the north"),
    ((0, -1), "up to the limit in the south", "beyond the limit in the south"),
];

/// A ring moved along a course of length one until it reaches so far on it.
fn reaching(ring: &[Position], (x, y): (i64, i64), far: i64) -> Vec<Position> {
    let now = ring.iter().map(|p| x * p.east + y * p.north).max().unwrap_or(0);
    ring.iter().map(|p| at(p.east + (far - now) * x, p.north + (far - now) * y)).collect()
}

/// Two rings whose sum reaches the limit on one side of the sheet, or is beyond it there by one or more, and lies within it on every other side.
fn at_limit(desk: &mut Desk, chance: &mut Chance) {
    let (course, up_to, beyond) = chance.of(&SHEET);
    let [first, second] = [(); 2].map(|()| {
        let (_, ring) = ring(chance);
        if ring.is_empty() {
            vec![at(0, 0)]
        } else {
            ring_of(&halved(&ring))
        }
    });
    let excess = chance.of(&[0, 0, 0, 1, 1, 1, 2, LIMIT]);
    let far = chance.between(excess, LIMIT);
    let (first, second) = (reaching(&first, course, far), reaching(&second, course, LIMIT + excess - far));
    assert_eq!(sum_within(&summed(&first, &second)).is_err(), excess > 0, "{first:?} and {second:?}, {excess} beyond on {course:?}");
    let words = if excess > 0 { beyond } else { up_to };
    if chance.one_in(2) {
        OF_SUM.put_whole(desk, chance, words, &first, &second);
    } else {
        OF_SUM.put_damaged(desk, chance, words, &first, &second);
    }
}

pub fn middle(desk: &mut Desk) {
    OF_SUM.middle(desk, &mut Chance::new(56));
}

/// Two rings whose sum is a given one: one has its sides whose parts add up to an even number, the other the rest. The given ring looks the same from all four
/// sides of the sheet, so each of the two closes.
fn cut(ring: &[Position]) -> [Vec<Position>; 2] {
    [0, 1].map(|odd| {
        let ways = sides(ring).filter(|way| (way.east + way.north).rem_euclid(2) == odd);
        let outline: Vec<Position> = ways
            .scan(at(0, 0), |corner, way| {
                *corner = at(corner.east + way.east, corner.north + way.north);
                Some(*corner)
            })
            .collect();
        let outline = reaching(&outline, (1, 0), half_width(&outline, |p| p.east));
        ring_of(&reaching(&outline, (0, 1), half_width(&outline, |p| p.north)))
    })
}

/// Half the way from the least part to the greatest: so far a ring reaches whose middle is at 0.
fn half_width(list: &[Position], part: fn(&Position) -> i64) -> i64 {
    let (least, greatest) = (list.iter().map(part).min().unwrap_or(0), list.iter().map(part).max().unwrap_or(0));
    (greatest - least) / 2
}

/// Beside those of every entry over two rings, a sum of as many corners as there is room for, and a large one beyond the limit.
pub fn largest(desk: &mut Desk) {
    let mut chance = Chance::new(36);
    OF_SUM.largest(desk, &mut chance);
    let [first, second] = cut(&large_ring(MOST_CORNERS));
    let sum = summed(&first, &second);
    assert_eq!((sum.len(), sum_within(&sum)), (MOST_CORNERS, Ok(())), "a ring cut in two is their sum");
    OF_SUM.put_whole(desk, &mut chance, "as many corners as there is room for", &first, &second);
    OF_SUM.put_whole(desk, &mut chance, "as many corners as there is room for", &second, &first);
    let far = reaching(&large_ring(MOST / 2), (0, -1), LIMIT / 2 + 1);
    OF_SUM.put_whole(desk, &mut chance, "65,536 corners of both, beyond the limit", &far, &far);
    let (first, second, scratch) = (Samples::of(&first), Samples::of(&second), scratch_for(MOST_CORNERS));
    OF_SUM.put(desk, "as many corners, output one short", first, second, outputs(MOST_CORNERS - 1, MOST_CORNERS, scratch));
}

pub fn empty(desk: &mut Desk) {
    OF_SUM.empty(desk);
}
