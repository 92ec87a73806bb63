//! The sum of two rings, as it is defined: the ring of all pairs. Where these are too many to be listed, the ring of the positions that the sides of both rings
//! come to when they are laid one after another.

use super::chain::{at, ring_of, side, write_ring, Position};
use super::using::two_rings;
use super::{refuse, within, Answer};

/// So many pairs are listed.
const LISTED: usize = 4_096;

/// All positions got by adding a corner of one to a corner of the other.
pub fn pairs(first: &[Position], second: &[Position]) -> Vec<Position> {
    first.iter().flat_map(|p| second.iter().map(|q| at(p.east + q.east, p.north + q.north))).collect()
}

/// The way from each corner of a ring to the next: two corners have one there and one back, one corner has none.
pub fn sides(ring: &[Position]) -> impl Iterator<Item = Position> + '_ {
    let ends = ring.iter().zip(ring.iter().cycle().skip(1));
    ends.map(|(p, q)| at(q.east - p.east, q.north - p.north)).filter(|&way| way != at(0, 0))
}

/// The sides of both rings laid one after another in the order of their turn, from the sum of the first corners on: no corner of the sum is left out.
pub fn laid(first: &[Position], second: &[Position]) -> Vec<Position> {
    let mut laid: Vec<Position> = pairs(&first[..first.len().min(1)], &second[..second.len().min(1)]);
    let Some(&start) = laid.first() else {
        return laid;
    };
    // a ring begins in the west, at the top: its outline goes east or straight down first, then west or straight up, and turns right all the way
    let back = |way: &Position| way.east < 0 || (way.east == 0 && way.north > 0);
    let mut ways: Vec<Position> = sides(first).chain(sides(second)).collect();
    ways.sort_by(|one, other| back(one).cmp(&back(other)).then(side(at(0, 0), *one, *other).cmp(&0)));
    laid.extend(ways.iter().scan(start, |corner, way| {
        *corner = at(corner.east + way.east, corner.north + way.north);
        Some(*corner)
    }));
    laid
}

pub fn summed(first: &[Position], second: &[Position]) -> Vec<Position> {
    if first.len() * second.len() <= LISTED {
        ring_of(&pairs(first, second))
    } else {
        ring_of(&laid(first, second))
    }
}

/// Refusal 19.
pub fn sum_within(sum: &[Position]) -> Answer<()> {
    if sum.iter().all(|corner| within(corner.east as i32) && within(corner.north as i32)) {
        Ok(())
    } else {
        refuse(19, 0)
    }
}

pub fn sum(first: (&[i32], &[i32]), second: (&[i32], &[i32]), out_east: &mut [i32], out_north: &mut [i32], scratch: &mut [u32]) -> Answer<usize> {
    let (first, second) = two_rings(first, second, scratch)?;
    let sum = summed(&first, &second);
    sum_within(&sum)?;
    scratch.fill(0);
    write_ring(&sum, out_east, out_north)
}
