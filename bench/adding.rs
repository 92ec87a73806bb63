//! The sum of two rings in plain Rust: the tests of both, then their sides one after another, each time the one that comes first in the order of their turn.

use crate::inputs::{small_circle, Chance, Sheet};
use crate::writing::{ring, tested, LIMIT, MOST};

pub type Rings = (Sheet, Sheet);

/// Two rings of so many corners each, near the circle of half the limit.
pub fn rings(chance: &mut Chance, corners: usize) -> Rings {
    // taken evenly from a larger one
    let mut one = || {
        let all = ring(&small_circle(chance, 16 * corners));
        let taken = |list: &[i32]| (0..corners).map(|place| list[place * list.len() / corners]).collect();
        Sheet { east: taken(&all.east), north: taken(&all.north) }
    };
    (one(), one())
}

/// All positions got by adding a corner of one to a corner of the other.
pub fn pairs(first: &Sheet, second: &Sheet) -> Sheet {
    let added = |first: &[i32], second: &[i32]| first.iter().flat_map(|one| second.iter().map(move |other| one + other)).collect();
    Sheet { east: added(&first.east, &second.east), north: added(&first.north, &second.north) }
}

/// How many corners the sum has, or the refusal's number. The output grows as it must, so that none is too short.
pub fn sum(first: &Sheet, second: &Sheet, out: &mut Sheet) -> Result<usize, u32> {
    tested(first)?;
    tested(second)?;
    if first.len() + second.len() > MOST {
        return Err(2);
    }
    if beyond(&first.east, &second.east) || beyond(&first.north, &second.north) {
        return Err(19);
    }
    follow(first, second, out);
    Ok(out.len())
}

/// The least parts of two lists add up beyond the limit, or the greatest do.
fn beyond(first: &[i32], second: &[i32]) -> bool {
    let ends = |list: &[i32]| Some((*list.iter().min()?, *list.iter().max()?));
    match (ends(first), ends(second)) {
        (Some((least, greatest)), Some((least2, greatest2))) => least + least2 < -LIMIT || greatest + greatest2 > LIMIT,
        _ => false,
    }
}

/// The way from a corner to the next.
type Way = (i32, i32);

/// A ring's outline goes east or straight down first, then west or straight up.
fn back(way: Way) -> bool {
    way.0 < 0 || (way.0 == 0 && way.1 > 0)
}

/// Above zero where the second way comes first in the order of their turn, 0 where they have one direction.
fn turn(one: Way, other: Way) -> i64 {
    if back(one) == back(other) {
        one.0 as i64 * other.1 as i64 - one.1 as i64 * other.0 as i64
    } else if back(one) {
        1
    } else {
        -1
    }
}

/// The sum of two rings that have passed their tests.
pub fn follow(first: &Sheet, second: &Sheet, out: &mut Sheet) {
    out.east.clear();
    out.north.clear();
    if first.len() == 0 || second.len() == 0 {
        return;
    }
    // one corner has no side
    let sides = |ring: &Sheet| if ring.len() == 1 { 0 } else { ring.len() };
    let way = |ring: &Sheet, place: usize| {
        let next = if place + 1 == ring.len() { 0 } else { place + 1 };
        (ring.east[next] - ring.east[place], ring.north[next] - ring.north[place])
    };
    let (mut i, mut j) = (0, 0);
    let (mut east, mut north) = (first.east[0] + second.east[0], first.north[0] + second.north[0]);
    loop {
        out.east.push(east);
        out.north.push(north);
        let side = match (i < sides(first), j < sides(second)) {
            (true, true) => turn(way(first, i), way(second, j)),
            (true, false) => -1,
            (false, true) => 1,
            (false, false) => break,
        };
        // both where they have one direction
        if side <= 0 {
            let (x, y) = way(first, i);
            (east, north, i) = (east + x, north + y, i + 1);
        }
        if side >= 0 {
            let (x, y) = way(second, j);
            (east, north, j) = (east + x, north + y, j + 1);
        }
    }
    // the last side comes back to the first corner
    if out.len() > 1 {
        out.east.pop();
        out.north.pop();
    }
}
