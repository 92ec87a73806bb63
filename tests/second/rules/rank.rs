//! The rank picker, by sorting.

use super::{not_too_many, refuse, scratch_enough, Answer};

pub fn pick(numbers: &[i32], rank: usize, scratch: &mut [u32]) -> Answer<i32> {
    not_too_many(numbers.len())?;
    if rank == 0 || rank > numbers.len() {
        return refuse(8, 0);
    }
    scratch_enough(scratch, numbers.len())?;
    let mut sorted = numbers.to_vec();
    sorted.sort_unstable();
    scratch.fill(0);
    Ok(sorted[rank - 1])
}
