//! Chains, ring and bridge, by Andrew's monotone chain: one sweep over the positions sorted by east.

use std::collections::HashMap;

use super::{has_bridge, output_enough, scratch_enough, two_lists, Answer};

#[derive(Clone, Copy, PartialEq, Eq, PartialOrd, Ord, Hash, Debug)]
pub struct Position {
    pub east: i64,
    pub north: i64,
}

pub fn at(east: i64, north: i64) -> Position {
    Position { east, north }
}

pub fn positions(east: &[i32], north: &[i32]) -> Vec<Position> {
    let both = east.iter().zip(north);
    both.map(|(&east, &north)| at(east as i64, north as i64)).collect()
}

/// Above zero where r lies left of the way from p to q, below zero where it lies right of it.
pub fn side(p: Position, q: Position, r: Position) -> i128 {
    let product = |x: i64, y: i64| x as i128 * y as i128;
    product(q.east - p.east, r.north - p.north) - product(q.north - p.north, r.east - p.east)
}

/// The upper chain's positions, left to right.
pub fn upper(positions: &[Position]) -> Vec<Position> {
    let mut sorted = positions.to_vec();
    sorted.sort_unstable();
    // of each east the greatest north, which comes last
    let mut tops: Vec<Position> = Vec::new();
    for p in sorted {
        match tops.last_mut() {
            Some(top) if top.east == p.east => *top = p,
            _ => tops.push(p),
        }
    }
    let mut chain: Vec<Position> = Vec::new();
    for p in tops {
        while chain.len() >= 2 && side(chain[chain.len() - 2], chain[chain.len() - 1], p) >= 0 {
            chain.pop();
        }
        chain.push(p);
    }
    chain
}

/// The lower chain's positions, left to right: the upper chain with every north negated.
pub fn lower(positions: &[Position]) -> Vec<Position> {
    let negated = |list: &[Position]| -> Vec<Position> { list.iter().map(|p| at(p.east, -p.north)).collect() };
    negated(&upper(&negated(positions)))
}

/// The ring: the upper chain, then the lower chain right to left without the ends that the two share.
pub fn ring_of(positions: &[Position]) -> Vec<Position> {
    let mut ring = upper(positions);
    let ends = (ring.first().copied(), ring.last().copied());
    let mut below = lower(positions);
    if below.last().copied() == ends.1 {
        below.pop();
    }
    if !below.is_empty() && below.first().copied() == ends.0 {
        below.remove(0);
    }
    ring.extend(below.into_iter().rev());
    ring
}

/// The lowest sample number at each position.
pub fn lowest_numbers(positions: &[Position]) -> HashMap<Position, u32> {
    let mut lowest = HashMap::new();
    for (number, &p) in positions.iter().enumerate() {
        lowest.entry(p).or_insert(number as u32);
    }
    lowest
}

pub struct Chains {
    pub upper: Vec<u32>,
    pub lower: Vec<u32>,
}

pub fn chains_of(positions: &[Position]) -> Chains {
    let lowest = lowest_numbers(positions);
    let numbers = |chain: Vec<Position>| -> Vec<u32> { chain.iter().map(|p| lowest[p]).collect() };
    Chains { upper: numbers(upper(positions)), lower: numbers(lower(positions)) }
}

/// The corners of the upper and of the lower chain.
pub fn chains(east: &[i32], north: &[i32], upper: &mut [u32], lower: &mut [u32], scratch: &mut [u32]) -> Answer<(usize, usize)> {
    two_lists(east, north)?;
    scratch_enough(scratch, east.len())?;
    let found = chains_of(&positions(east, north));
    scratch.fill(0);
    output_enough(upper.len(), found.upper.len())?;
    output_enough(lower.len(), found.lower.len())?;
    upper[..found.upper.len()].copy_from_slice(&found.upper);
    lower[..found.lower.len()].copy_from_slice(&found.lower);
    Ok((found.upper.len(), found.lower.len()))
}

/// Writes a ring into two outputs that are both long enough, or neither.
pub fn write_ring(ring: &[Position], out_east: &mut [i32], out_north: &mut [i32]) -> Answer<usize> {
    output_enough(out_east.len(), ring.len())?;
    output_enough(out_north.len(), ring.len())?;
    for (place, corner) in ring.iter().enumerate() {
        out_east[place] = corner.east as i32;
        out_north[place] = corner.north as i32;
    }
    Ok(ring.len())
}

/// How many corners the ring has.
pub fn ring(east: &[i32], north: &[i32], out_east: &mut [i32], out_north: &mut [i32], scratch: &mut [u32]) -> Answer<usize> {
    two_lists(east, north)?;
    scratch_enough(scratch, east.len())?;
    scratch.fill(0);
    write_ring(&ring_of(&positions(east, north)), out_east, out_north)
}

/// The bridge's left and right end: the chain's edge over a.
pub fn bridge(east: &[i32], north: &[i32], a: i32, scratch: &mut [u32]) -> Answer<(u32, u32)> {
    two_lists(east, north)?;
    scratch_enough(scratch, east.len())?;
    has_bridge(east.iter().copied(), a)?;
    let positions = positions(east, north);
    let chain = upper(&positions);
    let over_a = |edge: &&[Position]| edge[0].east <= a as i64 && edge[1].east > a as i64;
    let edge = chain.windows(2).find(over_a).expect("a chain with an end on each side of a has an edge over a");
    let lowest = lowest_numbers(&positions);
    scratch.fill(0);
    Ok((lowest[&edge[0]], lowest[&edge[1]]))
}
