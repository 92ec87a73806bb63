//! The method: rank picker, round, bridge, chains, ring.

use crate::face;
use crate::refusal::{unless_refused, Refusal};

/// Rank picker: the number of a rank, from 1, among numbers of any size: the rank-th smallest, repeats counted.
///
/// Scratch: [`scratch_words`](crate::scratch_words) of the count of numbers; all of it is zero afterwards.
///
/// # Errors
/// 2, over 65,536 numbers; 8, rank 0 or above their count; 4, scratch too short.
///
/// ```
/// use nuoskelma::{pick, Scratch};
///
/// let numbers = [3, -1, 3, 0];
/// assert_eq!(pick(&numbers, 4, &mut Scratch::of(4)), Ok(3));
/// assert_eq!(pick(&numbers, 5, &mut Scratch::of(4)).unwrap_err().number, 8);
/// ```
pub fn pick(numbers: &[i32], rank: usize, scratch: &mut [u32]) -> Result<i32, Refusal> {
    let r = face::pick(numbers, rank, scratch);
    unless_refused(r.number, r.place, r.value)
}

/// A bridge, by the sample numbers of its ends.
#[derive(Clone, Copy, Debug, PartialEq, Eq, Hash)]
pub struct Bridge {
    /// The end whose east is at most a.
    pub left: u32,
    /// The end whose east is above a.
    pub right: u32,
}

/// What a round answers.
#[derive(Clone, Copy, Debug, PartialEq, Eq, Hash)]
pub enum Round {
    /// The bridge; no list is written.
    Bridge(Bridge),
    /// So many kept numbers, at the front of the output.
    Kept(usize),
}

/// A round at a over a list of sample numbers, repeats allowed: the bridge, each end the earliest in the list at its position; or the kept numbers, in list
/// order, at the front of the output, whose rest stays.
///
/// Scratch: [`scratch_words`](crate::scratch_words) of the count of list items; all of it is zero afterwards.
///
/// # Errors
/// 1, the two lists of parts differ in length; 2, over 65,536 samples or list items; 3, a part beyond the limit, at its first place; 7, a listed number not
/// below the sample count, at its first list place; 4, scratch too short; 6, no listed sample has east at most a, or none has east above it; 5, the output is
/// shorter than the kept list.
///
/// ```
/// use nuoskelma::{round, Bridge, Round, Scratch};
///
/// let (east, north) = ([0, 4, 4, 0, 2, 2, 4], [0, 0, 3, 3, 1, 5, 0]);
/// let (list, mut output, mut scratch) = ([3, 4, 5, 2], [0; 4], Scratch::of(4));
/// assert_eq!(round(&east, &north, &list, 1, &mut output, &mut scratch), Ok(Round::Kept(2)));
/// assert_eq!(output[..2], [3, 5]);
/// assert_eq!(round(&east, &north, &list, 2, &mut output, &mut scratch), Ok(Round::Bridge(Bridge { left: 5, right: 2 })));
/// ```
pub fn round(east: &[i32], north: &[i32], list: &[u32], a: i32, output: &mut [u32], scratch: &mut [u32]) -> Result<Round, Refusal> {
    let r = face::round(east, north, list, a, output, scratch);
    let said = match r.kind {
        1 => Round::Bridge(Bridge { left: r.left, right: r.right }),
        _ => Round::Kept(r.kept),
    };
    unless_refused(r.number, r.place, said)
}

/// The bridge over a: the upper chain's edge with left east at most a and right east above a, its ends by the lowest sample number at their position.
///
/// Scratch: [`scratch_words`](crate::scratch_words) of the count of samples; all of it is zero afterwards.
///
/// # Errors
/// 1, the two lists differ in length; 2, over 65,536 samples; 3, a part beyond the limit, at its first place; 4, scratch too short; 6, no sample has east at
/// most a, or none has east above it.
///
/// ```
/// use nuoskelma::{bridge, Bridge, Scratch};
///
/// let (east, north) = ([0, 4, 4, 0, 2, 2, 4], [0, 0, 3, 3, 1, 5, 0]);
/// let mut scratch = Scratch::of(7);
/// assert_eq!(bridge(&east, &north, 2, &mut scratch), Ok(Bridge { left: 5, right: 2 }));
/// assert_eq!(bridge(&east, &north, 4, &mut scratch).unwrap_err().number, 6);
/// ```
pub fn bridge(east: &[i32], north: &[i32], a: i32, scratch: &mut [u32]) -> Result<Bridge, Refusal> {
    let r = face::bridge(east, north, a, scratch);
    unless_refused(r.number, r.place, Bridge { left: r.left, right: r.right })
}

/// How many corners both chains have.
#[derive(Clone, Copy, Debug, PartialEq, Eq, Hash)]
pub struct Chains {
    /// Corners of the upper chain.
    pub upper: usize,
    /// Corners of the lower chain.
    pub lower: usize,
}

/// Both chains of the samples, left to right, as sample numbers at the front of two output lists, whose rest stays. A corner is reported by the lowest sample
/// number at its position. No samples: both chains are empty.
///
/// Scratch: [`scratch_words`](crate::scratch_words) of the count of samples; all of it is zero afterwards.
///
/// # Errors
/// 1, the two lists of parts differ in length; 2, over 65,536 samples; 3, a part beyond the limit, at its first place; 4, scratch too short; 18, a chain step's
/// list has no bridge over its a; 5, an output list is shorter than its chain.
///
/// ```
/// use nuoskelma::{chains, Chains, Scratch};
///
/// let (east, north) = ([0, 4, 4, 0, 2, 2, 4], [0, 0, 3, 3, 1, 5, 0]);
/// let (mut upper, mut lower) = ([0; 7], [0; 7]);
/// assert_eq!(chains(&east, &north, &mut upper, &mut lower, &mut Scratch::of(7)), Ok(Chains { upper: 3, lower: 2 }));
/// assert_eq!((&upper[..3], &lower[..2]), (&[3, 5, 2][..], &[0, 1][..]));
/// ```
pub fn chains(east: &[i32], north: &[i32], upper: &mut [u32], lower: &mut [u32], scratch: &mut [u32]) -> Result<Chains, Refusal> {
    let r = face::chains(east, north, upper, lower, scratch);
    unless_refused(r.number, r.place, Chains { upper: r.upper, lower: r.lower })
}

/// The ring of the samples, as positions at the front of two output lists, whose rest stays; and how many corners it has. The upper chain, then the lower chain
/// right to left, without an end that both chains have.
///
/// Scratch: [`scratch_words`](crate::scratch_words) of the count of samples; all of it is zero afterwards.
///
/// # Errors
/// 1, the two lists of parts differ in length; 2, over 65,536 samples; 3, a part beyond the limit, at its first place; 4, scratch too short; 18, a chain step's
/// list has no bridge over its a; 5, an output list is shorter than the ring.
///
/// ```
/// use nuoskelma::{ring, Scratch};
///
/// let (east, north) = ([0, 4, 4, 0, 2, 2, 4], [0, 0, 3, 3, 1, 5, 0]);
/// let (mut easts, mut norths) = ([0; 7], [0; 7]);
/// let corners = ring(&east, &north, &mut easts, &mut norths, &mut Scratch::of(7)).unwrap();
/// assert_eq!((&easts[..corners], &norths[..corners]), (&[0, 2, 4, 4, 0][..], &[3, 5, 3, 0, 0][..]));
/// ```
pub fn ring(east: &[i32], north: &[i32], out_east: &mut [i32], out_north: &mut [i32], scratch: &mut [u32]) -> Result<usize, Refusal> {
    let r = face::ring(east, north, out_east, out_north, scratch);
    unless_refused(r.number, r.place, r.count)
}
