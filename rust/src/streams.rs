//! The streams of an owned list, and the room that an owned list lends.

use crate::MOST;
use std::iter::{Copied, FusedIterator, Zip};
use std::slice::Iter;

/// The streams of [`Samples`](crate::Samples) or of an [`Envelope`](crate::Envelope), each an east and a north part, in their order.
///
/// ```
/// let samples = nuoskelma::Samples::from_iter([(0, 3), (2, 5)]);
/// let mut streams = samples.iter();
/// assert_eq!(streams.len(), 2);
/// assert_eq!(streams.next_back(), Some((2, 5)));
/// assert_eq!(streams.next(), Some((0, 3)));
/// assert_eq!(streams.next(), None);
/// ```
#[derive(Clone, Debug)]
pub struct Streams<'a> {
    both: Zip<Copied<Iter<'a, i32>>, Copied<Iter<'a, i32>>>,
}

impl<'a> Streams<'a> {
    pub(crate) fn of(easts: &'a [i32], norths: &'a [i32]) -> Streams<'a> {
        Streams { both: easts.iter().copied().zip(norths.iter().copied()) }
    }
}

impl Iterator for Streams<'_> {
    type Item = (i32, i32);

    fn next(&mut self) -> Option<(i32, i32)> {
        self.both.next()
    }

    fn size_hint(&self) -> (usize, Option<usize>) {
        self.both.size_hint()
    }
}

impl DoubleEndedIterator for Streams<'_> {
    fn next_back(&mut self) -> Option<(i32, i32)> {
        self.both.next_back()
    }
}

impl ExactSizeIterator for Streams<'_> {}

impl FusedIterator for Streams<'_> {}

/// An output for so many items. More than [`MOST`] are refused whatever the output, so there is never more than they ask for.
pub(crate) fn room<T: Clone + Default>(items: usize) -> Vec<T> {
    vec![T::default(); items.min(MOST)]
}

/// What a call wrote at the front of an output, without the room behind it.
pub(crate) fn written<T>(mut output: Vec<T>, items: usize) -> Vec<T> {
    output.truncate(items);
    output.shrink_to_fit();
    output
}
