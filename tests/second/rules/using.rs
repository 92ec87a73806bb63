//! Using a ring: hand, envelope, strongest set, cover test, join, turn about. Each as it is defined.

use super::chain::{at, positions, ring_of, write_ring, Position};
use super::mean::covers;
use super::{not_too_many, refuse, scratch_enough, two_lists, within, Answer};

#[derive(Clone, Copy, PartialEq, Eq, Debug)]
pub struct Hand {
    pub count: usize,
    pub place: usize,
}

pub fn hand_for(corners: usize) -> Answer<Hand> {
    not_too_many(corners)?;
    if corners == 0 {
        return refuse(10, 0);
    }
    Ok(Hand { count: corners, place: 0 })
}

/// The present edge and the hand one place on. The caller of a refused step keeps the hand as it came.
pub fn hand_step(hand: Hand) -> Answer<((usize, usize), Hand)> {
    not_too_many(hand.count)?;
    if hand.place >= hand.count {
        return refuse(10, 0);
    }
    let next = (hand.place + 1) % hand.count;
    Ok(((hand.place, next), Hand { count: hand.count, place: next }))
}

/// Whether a list of positions equals the ring of its own positions.
pub fn is_envelope(list: &[Position]) -> bool {
    ring_of(list) == list
}

/// Refusals 1, 2, 3 and 9 of a ring; then its corners.
pub fn envelope(east: &[i32], north: &[i32]) -> Answer<Vec<Position>> {
    two_lists(east, north)?;
    let corners = positions(east, north);
    if is_envelope(&corners) {
        Ok(corners)
    } else {
        refuse(9, 0)
    }
}

/// As `envelope`, where a course or single stream is tested for 3 after the ring's own 3 and before 9.
fn envelope_beside(east: &[i32], north: &[i32], x: i32, y: i32) -> Answer<Vec<Position>> {
    two_lists(east, north)?;
    if !within(x) || !within(y) {
        return refuse(3, 0);
    }
    envelope(east, north)
}

/// The strongest set and the first ring place that has it.
pub fn strongest(east: &[i32], north: &[i32], x: i32, y: i32) -> Answer<(i64, usize)> {
    let corners = envelope_beside(east, north, x, y)?;
    let set = |corner: &Position| x as i64 * corner.east + y as i64 * corner.north;
    let Some(greatest) = corners.iter().map(set).max() else {
        return refuse(10, 0);
    };
    if x == 0 && y == 0 {
        return refuse(11, 0);
    }
    let first = corners.iter().position(|corner| set(corner) == greatest).expect("some corner has the greatest set");
    Ok((greatest, first))
}

/// Whether the stream (x, y) is a weighted mean of the corners.
pub fn cover(east: &[i32], north: &[i32], x: i32, y: i32) -> Answer<bool> {
    let corners = envelope_beside(east, north, x, y)?;
    Ok(covers(&corners, at(x as i64, y as i64)))
}

pub fn turned(corners: &[Position]) -> Vec<Position> {
    let negated: Vec<Position> = corners.iter().map(|corner| at(-corner.east, -corner.north)).collect();
    ring_of(&negated)
}

pub fn turn_about(east: &[i32], north: &[i32], out_east: &mut [i32], out_north: &mut [i32]) -> Answer<usize> {
    write_ring(&turned(&envelope(east, north)?), out_east, out_north)
}

pub fn joined(first: &[Position], second: &[Position]) -> Vec<Position> {
    ring_of(&[first, second].concat())
}

/// An entry over two rings, each two lists: it writes a ring, and says how many corners it has.
pub type OfTwoRings = fn((&[i32], &[i32]), (&[i32], &[i32]), &mut [i32], &mut [i32], &mut [u32]) -> Answer<usize>;

/// Refusals of two rings: the first one's, the second one's, 2 for both, 4; then their corners.
pub fn two_rings(first: (&[i32], &[i32]), second: (&[i32], &[i32]), scratch: &[u32]) -> Answer<(Vec<Position>, Vec<Position>)> {
    let first = envelope(first.0, first.1)?;
    let second = envelope(second.0, second.1)?;
    not_too_many(first.len() + second.len())?;
    scratch_enough(scratch, first.len() + second.len())?;
    Ok((first, second))
}

pub fn join(first: (&[i32], &[i32]), second: (&[i32], &[i32]), out_east: &mut [i32], out_north: &mut [i32], scratch: &mut [u32]) -> Answer<usize> {
    let (first, second) = two_rings(first, second, scratch)?;
    scratch.fill(0);
    write_ring(&joined(&first, &second), out_east, out_north)
}
