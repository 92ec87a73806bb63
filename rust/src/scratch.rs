//! Scratch.

use crate::MOST;
use std::ops::{Deref, DerefMut};

/// How many words of scratch an entry over so many samples, list items or corners of both rings asks for: 16 for each, and 64 more.
///
/// ```
/// assert_eq!(nuoskelma::scratch_words(7), 176);
/// ```
pub const fn scratch_words(count: usize) -> usize {
    count.saturating_mul(16).saturating_add(64)
}

/// Scratch enough for calls over so many samples, list items or corners of both rings, to be lent again and again. It stands for a `[u32]`; a caller with words
/// of its own can lend these instead.
///
/// ```
/// use nuoskelma::{pick, Scratch};
///
/// let mut scratch = Scratch::of(4);
/// assert_eq!(pick(&[30, 10, 20, 10], 3, &mut scratch), Ok(20));
/// assert_eq!(pick(&[7, 5], 1, &mut scratch), Ok(5));
/// ```
#[derive(Clone, Debug)]
pub struct Scratch {
    words: Vec<u32>,
}

impl Scratch {
    /// Scratch for so many. More than [`MOST`] are refused whatever the scratch (2), so there is never more than they ask for.
    pub fn of(count: usize) -> Scratch {
        Scratch { words: vec![0; scratch_words(count.min(MOST))] }
    }
}

impl Deref for Scratch {
    type Target = [u32];

    fn deref(&self) -> &[u32] {
        &self.words
    }
}

impl DerefMut for Scratch {
    fn deref_mut(&mut self) -> &mut [u32] {
        &mut self.words
    }
}
