//! Using a ring: hand, strongest set, cover test, turn about, join, sum.

use crate::face;
use crate::refusal::{unless_refused, Refusal};

/// Ring hand: goes round the corners of a ring, edge by edge.
///
/// ```
/// use nuoskelma::{Edge, Hand};
///
/// let hand = Hand::made_for(2)?;
/// let (first, hand) = hand.step()?;
/// let (second, hand) = hand.step()?;
/// assert_eq!((first, second), (Edge { from: 0, to: 1 }, Edge { from: 1, to: 0 }));
/// assert_eq!(hand, Hand::made_for(2)?);
/// # Ok::<(), nuoskelma::Refusal>(())
/// ```
#[derive(Clone, Copy, Debug, PartialEq, Eq, Hash)]
pub struct Hand {
    /// How many corners the ring has.
    pub count: usize,
    /// The hand's place, from 0.
    pub place: usize,
}

/// An edge of a ring, as two places.
#[derive(Clone, Copy, Debug, PartialEq, Eq, Hash)]
pub struct Edge {
    /// The place that it comes from.
    pub from: usize,
    /// The place that it goes to.
    pub to: usize,
}

impl Hand {
    /// A hand made for a ring of so many corners, at place 0.
    ///
    /// # Errors
    /// 2, over 65,536 corners; 10, no corners.
    pub fn made_for(corners: usize) -> Result<Hand, Refusal> {
        let r = face::hand_for(corners);
        unless_refused(r.number, r.place, Hand { count: r.hand.count, place: r.hand.place })
    }

    /// The present edge, and the hand one place on: place 0 after the last. With one corner the edge is 0 to 0. A hand is `Copy`: after a refusal it is with
    /// the caller as it came.
    ///
    /// # Errors
    /// 2, the hand's count is over 65,536; 10, its place is not below its count. A hand that was made and stepped is never refused.
    pub fn step(self) -> Result<(Edge, Hand), Refusal> {
        let r = face::hand_step(face::Hand { count: self.count, place: self.place });
        unless_refused(r.number, r.place, (Edge { from: r.from, to: r.to }, Hand { count: r.hand.count, place: r.hand.place }))
    }
}

/// The strongest set on a course.
#[derive(Clone, Copy, Debug, PartialEq, Eq, Hash)]
pub struct StrongestSet {
    /// The greatest x·east + y·north.
    pub set: i64,
    /// The first ring place that has it.
    pub place: usize,
}

/// The strongest set on the course (x, y): the greatest x·east + y·north over the corners of a ring, and the first ring place that has it.
///
/// # Errors
/// 1, the two lists differ in length; 2, over 65,536 corners; 3, a part beyond the limit, with the first place for the ring, then 0 for the course; 9, not an
/// envelope; 10, an empty ring; 11, the course (0, 0).
///
/// ```
/// use nuoskelma::{strongest, StrongestSet};
///
/// let (east, north) = ([0, 2, 4, 4, 0], [3, 5, 3, 0, 0]);
/// assert_eq!(strongest(&east, &north, -1, 1), Ok(StrongestSet { set: 3, place: 0 }));
/// assert_eq!(strongest(&east, &north, 0, 0).unwrap_err().number, 11);
/// ```
pub fn strongest(east: &[i32], north: &[i32], x: i32, y: i32) -> Result<StrongestSet, Refusal> {
    let r = face::strongest(east, north, x, y);
    unless_refused(r.number, r.place, StrongestSet { set: r.set, place: r.at })
}

/// Cover test: yes exactly if the stream (x, y) is a weighted mean of the corners, by weights that are whole numbers, none below 0 and not all 0.
///
/// So the inside and the whole outline are covered; of two corners the segment between them, of one corner its position, of an empty ring nothing.
///
/// # Errors
/// 1, the two lists differ in length; 2, over 65,536 corners; 3, a part beyond the limit, with the first place for the ring, then 0 for the stream; 9, not an
/// envelope.
///
/// ```
/// use nuoskelma::cover;
///
/// let (east, north) = ([0, 2, 4, 4, 0], [3, 5, 3, 0, 0]);
/// assert_eq!(cover(&east, &north, 2, 1), Ok(true));
/// // on an edge, at a corner, and a unit outside
/// assert_eq!(cover(&east, &north, 0, 1), Ok(true));
/// assert_eq!(cover(&east, &north, 2, 5), Ok(true));
/// assert_eq!(cover(&east, &north, -1, 1), Ok(false));
/// // between two corners, and beyond them
/// assert_eq!(cover(&[0, 4], &[0, 2], 2, 1), Ok(true));
/// assert_eq!(cover(&[0, 4], &[0, 2], 6, 3), Ok(false));
/// ```
pub fn cover(east: &[i32], north: &[i32], x: i32, y: i32) -> Result<bool, Refusal> {
    let r = face::cover(east, north, x, y);
    unless_refused(r.number, r.place, r.covered != 0)
}

/// Turn about: the ring of all a ring's positions with both signs changed, at the front of two output lists, whose rest stays; and how many corners it has.
///
/// # Errors
/// 1, the two lists differ in length; 2, over 65,536 corners; 3, a part beyond the limit, at its first place; 9, not an envelope; 5, an output list is shorter
/// than the ring.
///
/// ```
/// use nuoskelma::turn_about;
///
/// let (mut easts, mut norths) = ([0; 3], [0; 3]);
/// assert_eq!(turn_about(&[0, 2, 4], &[0, 5, 0], &mut easts, &mut norths), Ok(3));
/// assert_eq!((easts, norths), ([-4, 0, -2], [0, 0, -5]));
/// ```
pub fn turn_about(east: &[i32], north: &[i32], out_east: &mut [i32], out_north: &mut [i32]) -> Result<usize, Refusal> {
    let r = face::turn_about(east, north, out_east, out_north);
    unless_refused(r.number, r.place, r.count)
}

/// Join: the ring of both rings' positions, at the front of two output lists, whose rest stays; and how many corners it has.
///
/// Scratch: [`scratch_words`](crate::scratch_words) of the corners of both rings together; all of it is zero afterwards.
///
/// # Errors
/// The first ring's, then the second's: 1, the two lists differ in length; 2, over 65,536 corners; 3, a part beyond the limit, at its first place; 9, not an
/// envelope. Then 2, over 65,536 corners together; 4, scratch too short; 5, an output list is shorter than the result.
///
/// ```
/// use nuoskelma::{join, Scratch};
///
/// let (mut easts, mut norths) = ([0; 4], [0; 4]);
/// let corners = join(&[2, 2], &[5, 1], &[0, 4], &[0, 0], &mut easts, &mut norths, &mut Scratch::of(4)).unwrap();
/// assert_eq!((&easts[..corners], &norths[..corners]), (&[0, 2, 4][..], &[0, 5, 0][..]));
/// ```
pub fn join(
    east: &[i32], north: &[i32], east2: &[i32], north2: &[i32], out_east: &mut [i32], out_north: &mut [i32], scratch: &mut [u32],
) -> Result<usize, Refusal> {
    let r = face::join(east, north, east2, north2, out_east, out_north, scratch);
    unless_refused(r.number, r.place, r.count)
}

/// Sum: the ring of all positions got by adding a corner of one ring to a corner of the other, at the front of two output lists, whose rest stays; and how many
/// corners it has, at most as many as both rings together. Adding an empty ring gives an empty ring.
///
/// It is the ring of every stream behind the one added to every stream behind the other, as a surge to a tide. On each course its strongest set is that of both
/// rings added.
///
/// Scratch: [`scratch_words`](crate::scratch_words) of the corners of both rings together; all of it is zero afterwards.
///
/// # Errors
/// 1, 2, 3, 9 and 4 as for [`join`]. Then 19, a corner of the sum is beyond the limit: on the course (1, 0), (-1, 0), (0, 1) or (0, -1) the strongest sets of
/// both add up to more than it. No ring has such a corner, but strongest sets can still be added, course by course. Then 5, an output list is shorter than the
/// result.
///
/// ```
/// use nuoskelma::{sum, Refusal, Scratch, LIMIT};
///
/// let (mut easts, mut norths) = ([0; 5], [0; 5]);
/// let corners = sum(&[0, 2, 4], &[0, 5, 0], &[1, 3], &[2, 2], &mut easts, &mut norths, &mut Scratch::of(5)).unwrap();
/// assert_eq!((&easts[..corners], &norths[..corners]), (&[1, 3, 5, 7][..], &[2, 7, 7, 2][..]));
///
/// let beyond = sum(&[LIMIT], &[0], &[1], &[0], &mut easts, &mut norths, &mut Scratch::of(2));
/// assert_eq!(beyond, Err(Refusal { number: 19, place: 0 }));
/// ```
pub fn sum(
    east: &[i32], north: &[i32], east2: &[i32], north2: &[i32], out_east: &mut [i32], out_north: &mut [i32], scratch: &mut [u32],
) -> Result<usize, Refusal> {
    let r = face::sum(east, north, east2, north2, out_east, out_north, scratch);
    unless_refused(r.number, r.place, r.count)
}
