//! Cases of the cover test: streams at corners, on edges, beyond their ends, as near beside them as a position can be, inside, outside.

use super::{choices, fields, EMPTY};
use crate::driver::{Case, Desk, Lent, COVER};
use crate::gen::{
    almost_ring, common, input_a, large_ring, ring, rings_of_middle_sizes, smallest_rings, spoil, spoil_lengths, spoil_parts, stretched, times,
    too_many, Chance, Samples, MOST_CORNERS,
};
use crate::rules::chain::{at, ring_of, Position};
use crate::rules::using::cover;
use crate::rules::{LIMIT, MOST};

fn put(desk: &mut Desk, words: &'static str, ring: Samples, stream: (i32, i32)) {
    let answer = cover(&ring.east, &ring.north, stream.0, stream.1);
    desk.put(Case {
        entry: &COVER,
        words,
        scalars: vec![stream.0 as i64, stream.1 as i64],
        lent: vec![Lent::I32(ring.east), Lent::I32(ring.north)],
        said: fields(answer.map(|covered| vec![covered as i64]), 1),
        altered: Vec::new(),
    });
}

fn between(list: &[Position]) -> Position {
    let count = list.len() as i64;
    let sum = |part: fn(&Position) -> i64| list.iter().map(part).sum::<i64>();
    at(sum(|p| p.east).div_euclid(count), sum(|p| p.north).div_euclid(count))
}

/// The step from a line along (u, v), which have no common divisor, to the next line of positions on its left: u * y - v * x = 1.
fn to_the_left(u: i64, v: i64) -> (i64, i64) {
    if v == 0 {
        return (0, u);
    }
    let (x, y) = to_the_left(v, u % v);
    (-y - u / v * x, -x)
}

/// A position beside a ring.
pub struct Lying {
    /// where it lies
    pub words: &'static str,
    pub position: Position,
    /// whether the ring covers it, where that follows from how it was made
    pub covered: Option<bool>,
}

fn lying(words: &'static str, position: Position, covered: impl Into<Option<bool>>) -> Lying {
    Lying { words, position, covered: covered.into() }
}

/// So many words for where a position lies there are below.
pub const LYINGS: usize = 8;

/// A position beside a ring with corners. A ring runs with its inside to the right and turns strictly, so nothing to the left of an edge or beyond its end
/// on its line is covered. The edge of one corner goes from it to itself, and then any way.
pub fn beside(chance: &mut Chance, corners: &[Position]) -> Lying {
    let place = chance.below(corners.len());
    let (p, q) = (corners[place], corners[(place + 1) % corners.len()]);
    let (east, north) = (q.east - p.east, q.north - p.north);
    let by = common(east, north);
    let ((u, v), steps) = if p == q { (chance.of(&[(0, 1), (1, 0), (0, -1), (-1, 0)]), 0) } else { ((east / by, north / by), by) };
    let along = |steps: i64, (east, north): (i64, i64)| at(p.east + steps * u + east, p.north + steps * v + north);
    let (x, y) = to_the_left(u, v);
    let some = chance.between(0, steps);
    match chance.below(8) {
        0 => lying("at a corner", p, true),
        1 if steps > 1 => lying("in the middle of an edge", along(chance.between(1, steps - 1), (0, 0)), true),
        1 => lying("at a corner", q, true),
        2 => {
            let beyond = chance.of(&[1, 1, 2, 1_000]);
            lying("on an edge's line, beyond its end", along(chance.of(&[-beyond, steps + beyond]), (0, 0)), false)
        }
        3 => lying("as near outside an edge as can be", along(some, (x, y)), false),
        4 => lying("as near inside an edge as can be", along(some, (-x, -y)), None),
        5 => lying("a unit off an edge or less", along(some, (chance.between(-1, 1), chance.between(-1, 1))), None),
        6 => {
            let any = [p, chance.of(corners), chance.of(corners)];
            lying("between some corners", between(&any[..1 + chance.below(3)]), None)
        }
        _ => {
            let ends = [-LIMIT - 1, -LIMIT, 0, LIMIT, LIMIT + 1].map(i64::from);
            lying("at an end of the sheet", at(chance.of(&ends), chance.of(&ends)), None)
        }
    }
}

/// A stream beside a ring, as two parts of 32 bits: now and then of any size.
fn stream(chance: &mut Chance, corners: &[Position]) -> (&'static str, (i32, i32)) {
    if corners.is_empty() || chance.one_in(40) {
        return ("of any size", (chance.of(&[0, i32::MIN, i32::MAX]), chance.of(&[0, i32::MIN, i32::MAX])));
    }
    let Lying { words, position, .. } = beside(chance, corners);
    (words, (position.east as i32, position.north as i32))
}

/// A list of corners, stretched so that its edges have positions between their ends: now and then as far as the limit lets it be.
pub fn often_stretched(chance: &mut Chance, corners: Vec<Position>) -> Vec<Position> {
    let reach = corners.iter().map(|p| p.east.abs().max(p.north.abs())).max().unwrap_or(1).max(1);
    let most = (LIMIT as i64 / reach).max(1);
    let by = match chance.below(6) {
        0..=2 => 1,
        3 => most.min(2),
        4 => chance.between(1, most),
        _ => most,
    };
    stretched(&corners, by)
}

/// Every ring of nine positions, in three sizes, with every stream at, between and a unit beside them.
fn smallest(desk: &mut Desk) {
    let sizes = [("rings of nine positions", 1), ("the same twice as large", 2), ("the same up to the limit", LIMIT)];
    for (words, by) in sizes {
        let mut parts: Vec<i32> = (-4..=4).flat_map(|halves| (-1..=1).map(move |beside| halves * by / 2 + beside)).collect();
        parts.retain(|part| part.abs() <= LIMIT + 1);
        parts.sort_unstable();
        parts.dedup();
        for ring in smallest_rings() {
            let ring = Samples::of(&stretched(&ring, by as i64));
            for &x in &parts {
                for &y in &parts {
                    put(desk, words, ring.clone(), (x, y));
                }
            }
        }
    }
}

pub fn cases(desk: &mut Desk) {
    let mut chance = Chance::new(9);
    let ring_a = Samples::of(&ring_of(&input_a().positions()));
    put(desk, "P12", ring_a.clone(), (2, 1));
    for x in -1..=5 {
        for y in -1..=6 {
            put(desk, "A's ring", ring_a.clone(), (x, y));
        }
    }
    smallest(desk);
    for _ in 0..times(300_000) {
        let (_, corners) = if chance.one_in(6) { almost_ring(&mut chance) } else { ring(&mut chance) };
        let corners = often_stretched(&mut chance, corners);
        let (words, stream) = stream(&mut chance, &corners);
        let mut ring = Samples::of(&corners);
        if chance.one_in(20) {
            spoil_parts(&mut chance, &mut ring);
        }
        if chance.one_in(30) {
            spoil_lengths(&mut chance, &mut ring);
        }
        put(desk, words, ring, stream);
    }
    largest(desk);
}

/// Rings of middle sizes, almost rings, and lists that are none.
pub fn middle(desk: &mut Desk) {
    let mut chance = Chance::new(49);
    rings_of_middle_sizes(&mut chance, |chance, words, corners| {
        for spoilt in [false, false, true] {
            let corners = often_stretched(chance, corners.clone());
            let (_, stream) = stream(chance, &corners);
            let mut ring = Samples::of(&corners);
            if spoilt {
                spoil(chance, &mut ring);
            }
            put(desk, words, ring, stream);
        }
    });
}

/// Rings of as many corners as there is room for, alone and with a position in the middle of each edge, and lists too long.
pub fn largest(desk: &mut Desk) {
    let mut chance = Chance::new(29);
    let large = [
        ("as many corners as there is room for", large_ring(MOST_CORNERS)),
        ("as many corners of edges with a middle", stretched(&large_ring(MOST_CORNERS / 2), 2)),
    ];
    for (words, corners) in &large {
        for _ in 0..20 {
            let (_, stream) = stream(&mut chance, corners);
            put(desk, words, Samples::of(corners), stream);
        }
    }
    put(desk, "most corners, no ring", Samples { east: vec![1; MOST], north: vec![1; MOST] }, (1, 1));
    for long in too_many() {
        put(desk, "too many corners", long.clone(), (1, 1));
        put(desk, "too many corners", long, (LIMIT + 1, 0));
    }
}

/// Every choice of lists left empty, of a call that is done where none is.
pub fn empty(desk: &mut Desk) {
    for choice in choices(2) {
        put(desk, EMPTY, choice.of_two(0, &Samples::of(&ring_of(&input_a().positions()))), (2, 1));
    }
}
