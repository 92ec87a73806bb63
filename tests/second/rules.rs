//! The rules once more, written from the rules and the later requests alone and by other methods than the library's: every number is picked by sorting, every
//! chain is built by a sweep over sorted positions, a covered stream is given its weights, a sum lists all pairs or sorts all sides, every property is tested as
//! it is defined.
//!
//! Each entry here takes what the library's entry is lent and leaves it as the library must: so a refusal's number and place, the answer, and the final
//! content of every lent list are all said by one function.

pub mod chain;
pub mod door;
pub mod mean;
pub mod program;
pub mod rank;
pub mod record;
pub mod round;
pub mod sum;
pub mod using;

/// A part lies from -LIMIT to LIMIT.
pub const LIMIT: i32 = 1_000_000;

/// At most so many samples, list items, corners or corners of two rings.
pub const MOST: usize = 65_536;

/// A number for no, and its place.
#[derive(Clone, Copy, PartialEq, Eq, Debug)]
pub struct Refusal {
    pub number: u32,
    pub place: usize,
}

pub type Answer<T> = Result<T, Refusal>;

pub fn refuse<T>(number: u32, place: usize) -> Answer<T> {
    Err(Refusal { number, place })
}

/// The scratch that an entry over `count` samples, list items or corners of two rings needs.
pub const fn scratch_for(count: usize) -> usize {
    16 * count + 64
}

/// Refusal 1.
pub fn same_length(first: usize, second: usize) -> Answer<()> {
    if first == second {
        Ok(())
    } else {
        refuse(1, 0)
    }
}

/// Refusal 2.
pub fn not_too_many(count: usize) -> Answer<()> {
    if count <= MOST {
        Ok(())
    } else {
        refuse(2, 0)
    }
}

pub fn within(part: i32) -> bool {
    (-LIMIT..=LIMIT).contains(&part)
}

/// Refusal 3 over two lists of one length.
pub fn parts_within(east: &[i32], north: &[i32]) -> Answer<()> {
    let bad = |place: &usize| !within(east[*place]) || !within(north[*place]);
    match (0..east.len()).find(bad) {
        None => Ok(()),
        Some(place) => refuse(3, place),
    }
}

/// Refusals 1, 2 and 3 of samples or of a ring, in their order.
pub fn two_lists(east: &[i32], north: &[i32]) -> Answer<()> {
    same_length(east.len(), north.len())?;
    not_too_many(east.len())?;
    parts_within(east, north)
}

/// Refusal 4.
pub fn scratch_enough(scratch: &[u32], count: usize) -> Answer<()> {
    if scratch.len() >= scratch_for(count) {
        Ok(())
    } else {
        refuse(4, 0)
    }
}

/// Refusal 6, over the easts of the samples that count.
pub fn has_bridge(easts: impl Iterator<Item = i32>, a: i32) -> Answer<()> {
    let (at_most, above): (Vec<i32>, Vec<i32>) = easts.partition(|&east| east <= a);
    if at_most.is_empty() || above.is_empty() {
        refuse(6, 0)
    } else {
        Ok(())
    }
}

/// Refusal 5.
pub fn output_enough(output: usize, result: usize) -> Answer<()> {
    if output >= result {
        Ok(())
    } else {
        refuse(5, 0)
    }
}
