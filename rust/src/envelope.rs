//! Envelopes that are owned.

use crate::streams::{room, written, Streams};
use crate::{record_bytes, Edge, Hand, Refusal, Scratch, StrongestSet, Version};
use std::iter::FusedIterator;

/// An envelope that is owned: the corners of a ring, in ring order. There is none that is not the ring of its own positions, so no use of it is refused with 9.
///
/// Two are equal exactly if they have the same corners, which is to say that they outline the same.
///
/// ```
/// use nuoskelma::Envelope;
///
/// let flood = Envelope::of(&[2, 2], &[5, 1])?;
/// let ebb = Envelope::of(&[0, 4, 2], &[0, 0, 0])?;
/// let both = flood.join(&ebb)?;
/// assert!(both.corners().eq([(0, 0), (2, 5), (4, 0)]));
/// assert_eq!(both, ebb.join(&flood)?);
///
/// let best = both.strongest(-1, 1)?;
/// assert_eq!((best.set, both.corner(best.place)), (3, Some((2, 5))));
/// assert!(both.covers(2, 1)?);
/// assert!(!both.turned().covers(2, 1)?);
/// # Ok::<(), nuoskelma::Refusal>(())
/// ```
#[derive(Clone, Debug, Default, PartialEq, Eq, Hash)]
pub struct Envelope {
    easts: Vec<i32>,
    norths: Vec<i32>,
}

/// [`join`](crate::join) or [`sum`](crate::sum).
type OfTwo = fn(&[i32], &[i32], &[i32], &[i32], &mut [i32], &mut [i32], &mut [u32]) -> Result<usize, Refusal>;

impl Envelope {
    /// The envelope of samples: see [`ring`](crate::ring).
    ///
    /// # Errors
    /// 1, the two lists differ in length; 2, over 65,536 samples; 3, a part beyond the limit, at its first place. (18, a chain step's list has no bridge over
    /// its a: a law says that this never happens.)
    ///
    /// ```
    /// use nuoskelma::Envelope;
    ///
    /// let envelope = Envelope::of(&[0, 4, 4, 0, 2, 2, 4], &[0, 0, 3, 3, 1, 5, 0])?;
    /// assert!(envelope.corners().eq([(0, 3), (2, 5), (4, 3), (4, 0), (0, 0)]));
    /// # Ok::<(), nuoskelma::Refusal>(())
    /// ```
    pub fn of(east: &[i32], north: &[i32]) -> Result<Envelope, Refusal> {
        // a ring has at most as many corners as there are samples
        Envelope::of_call(east.len(), |easts, norths| crate::ring(east, north, easts, norths, &mut Scratch::of(east.len())))
    }

    /// A ring that is an envelope already, taken as it is.
    ///
    /// # Errors
    /// 1, the two lists differ in length; 2, over 65,536 corners; 3, a part beyond the limit, at its first place; 9, not an envelope.
    ///
    /// ```
    /// use nuoskelma::Envelope;
    ///
    /// assert_eq!(Envelope::from_ring(vec![0, 2, 4], vec![0, 5, 0]), Envelope::of(&[4, 2, 0], &[0, 5, 0]));
    /// // (1, 1) is no corner
    /// assert_eq!(Envelope::from_ring(vec![0, 1, 2], vec![0, 1, 2]).unwrap_err().number, 9);
    /// ```
    pub fn from_ring(easts: Vec<i32>, norths: Vec<i32>) -> Result<Envelope, Refusal> {
        // the cover test of a stream within the limit refuses exactly the rings that are to be refused here
        crate::cover(&easts, &norths, 0, 0)?;
        Ok(Envelope { easts, norths })
    }

    /// The going-to envelope that a record means, in whatever version and sense it comes: see [`read_record`](crate::read_record).
    ///
    /// # Errors
    /// 17, no bytes; 16, a version other than 1 or 2; 17, under 5 bytes; 21, length not a multiple of 8, in version 2 not one more, at place 1; 17, the bytes end
    /// early, at the first missing byte, or 20, bytes follow the end, at the first extra byte; 22, a sense above 1, at place 5. Then of the corners as they are stored:
    /// 2, over 65,536; 3, a part beyond the limit, at the first corner that has one; 9, not an envelope.
    ///
    /// ```
    /// use nuoskelma::Envelope;
    ///
    /// let envelope = Envelope::read(&[1, 0, 0, 0, 8, 0, 0, 0, 2, 255, 255, 255, 255])?;
    /// assert!(envelope.corners().eq([(2, -1)]));
    /// let cut = Envelope::read(&[1, 0, 0, 0, 8, 0, 0]).unwrap_err();
    /// assert_eq!(cut.to_string(), "refused 17 7: the record's bytes end early: those from this place on are missing");
    /// # Ok::<(), nuoskelma::Refusal>(())
    /// ```
    pub fn read(bytes: &[u8]) -> Result<Envelope, Refusal> {
        // a corner takes 8 bytes
        Envelope::of_call(bytes.len() / 8, |easts, norths| crate::read_record(bytes, easts, norths))
    }

    /// Its record in a version, the bytes that [`Envelope::read`] reads as it: see [`write_record`](crate::write_record). It is never refused.
    ///
    /// ```
    /// use nuoskelma::{Envelope, Sense, Version};
    ///
    /// let envelope = Envelope::of(&[2], &[-1])?;
    /// assert_eq!(envelope.record(Version::One), [1, 0, 0, 0, 8, 0, 0, 0, 2, 255, 255, 255, 255]);
    /// assert_eq!(envelope.record(Version::Two(Sense::GoingTo)), [2, 0, 0, 0, 9, 0, 0, 0, 0, 2, 255, 255, 255, 255]);
    /// assert_eq!(envelope.record(Version::Two(Sense::ComingFrom)), [2, 0, 0, 0, 9, 1, 255, 255, 255, 254, 0, 0, 0, 1]);
    /// for version in Version::ALL {
    ///     assert_eq!(Envelope::read(&envelope.record(version))?, envelope);
    /// }
    /// # Ok::<(), nuoskelma::Refusal>(())
    /// ```
    #[must_use]
    pub fn record(&self, version: Version) -> Vec<u8> {
        let mut record = vec![0; record_bytes(version, self.len())];
        // 16 and 22 are refusals of what is no version, 1, 2, 3 and 9 of lists that are no envelope, and 5 of less room than its record takes
        crate::write_record(version, &self.easts, &self.norths, &mut record).expect("an envelope with room for its record is written");
        record
    }

    /// The envelope of no samples: joined with any other it gives the other, and added to any other it gives no corner.
    ///
    /// ```
    /// use nuoskelma::Envelope;
    ///
    /// let other = Envelope::of(&[2, 2], &[5, 1])?;
    /// assert_eq!(Envelope::empty().join(&other)?, other);
    /// assert!(Envelope::empty().plus(&other)?.is_empty());
    /// # Ok::<(), nuoskelma::Refusal>(())
    /// ```
    pub const fn empty() -> Envelope {
        Envelope { easts: Vec::new(), norths: Vec::new() }
    }

    /// The ring that a call writes, with room for so many corners.
    fn of_call(most: usize, call: impl FnOnce(&mut [i32], &mut [i32]) -> Result<usize, Refusal>) -> Result<Envelope, Refusal> {
        let (mut easts, mut norths) = (room(most), room(most));
        let corners = call(&mut easts, &mut norths)?;
        Ok(Envelope { easts: written(easts, corners), norths: written(norths, corners) })
    }

    /// How many corners it has.
    ///
    /// ```
    /// assert_eq!(nuoskelma::Envelope::of(&[0, 1, 2], &[0, 1, 2])?.len(), 2);
    /// # Ok::<(), nuoskelma::Refusal>(())
    /// ```
    pub fn len(&self) -> usize {
        self.easts.len()
    }

    /// Has it no corner?
    ///
    /// ```
    /// assert!(nuoskelma::Envelope::empty().is_empty());
    /// ```
    pub fn is_empty(&self) -> bool {
        self.easts.is_empty()
    }

    /// The corners in ring order: the upper chain, then the lower chain right to left, without an end that both chains have.
    ///
    /// ```
    /// let envelope = nuoskelma::Envelope::of(&[4, 2, 0], &[0, 5, 0])?;
    /// assert_eq!(envelope.corners().collect::<Vec<_>>(), [(0, 0), (2, 5), (4, 0)]);
    /// # Ok::<(), nuoskelma::Refusal>(())
    /// ```
    pub fn corners(&self) -> Streams<'_> {
        Streams::of(&self.easts, &self.norths)
    }

    /// The corner at a ring place, from 0.
    ///
    /// ```
    /// let envelope = nuoskelma::Envelope::of(&[4, 2, 0], &[0, 5, 0])?;
    /// assert_eq!(envelope.corner(1), Some((2, 5)));
    /// assert_eq!(envelope.corner(3), None);
    /// # Ok::<(), nuoskelma::Refusal>(())
    /// ```
    pub fn corner(&self, place: usize) -> Option<(i32, i32)> {
        Some((*self.easts.get(place)?, *self.norths.get(place)?))
    }

    /// The corners' east parts, in ring order.
    ///
    /// ```
    /// assert_eq!(nuoskelma::Envelope::of(&[4, 2, 0], &[0, 5, 0])?.easts(), [0, 2, 4]);
    /// # Ok::<(), nuoskelma::Refusal>(())
    /// ```
    pub fn easts(&self) -> &[i32] {
        &self.easts
    }

    /// The corners' north parts, in ring order.
    ///
    /// ```
    /// assert_eq!(nuoskelma::Envelope::of(&[4, 2, 0], &[0, 5, 0])?.norths(), [0, 5, 0]);
    /// # Ok::<(), nuoskelma::Refusal>(())
    /// ```
    pub fn norths(&self) -> &[i32] {
        &self.norths
    }

    /// The edges, once round from place 0, by the ring hand; none if there is no corner, and 0 to 0 if there is one.
    ///
    /// ```
    /// let envelope = nuoskelma::Envelope::of(&[4, 2, 0], &[0, 5, 0])?;
    /// assert!(envelope.edges().map(|edge| (edge.from, edge.to)).eq([(0, 1), (1, 2), (2, 0)]));
    /// # Ok::<(), nuoskelma::Refusal>(())
    /// ```
    pub fn edges(&self) -> Edges {
        Edges { hand: Hand { count: self.len(), place: 0 }, left: self.len() }
    }

    /// The envelope of both envelopes' positions: see [`join`](crate::join).
    ///
    /// # Errors
    /// 2, over 65,536 corners together.
    ///
    /// ```
    /// use nuoskelma::Envelope;
    ///
    /// let joined = Envelope::of(&[2, 2], &[5, 1])?.join(&Envelope::of(&[0, 4], &[0, 0])?)?;
    /// assert!(joined.corners().eq([(0, 0), (2, 5), (4, 0)]));
    /// # Ok::<(), nuoskelma::Refusal>(())
    /// ```
    pub fn join(&self, other: &Envelope) -> Result<Envelope, Refusal> {
        self.with(other, crate::join)
    }

    /// The sum of both envelopes, that of every stream behind the one added to every stream behind the other: see [`sum`](crate::sum). Adding an empty one gives
    /// an empty one.
    ///
    /// # Errors
    /// 2, over 65,536 corners together; 19, a corner of the sum is beyond the limit: on the course (1, 0), (-1, 0), (0, 1) or (0, -1) the strongest sets of both
    /// add up to more than it. No envelope has such a corner, but strongest sets can still be added, course by course.
    ///
    /// ```
    /// use nuoskelma::{Envelope, LIMIT};
    ///
    /// let tide = Envelope::of(&[0, 2, 4], &[0, 5, 0])?;
    /// let surge = Envelope::of(&[1, 3], &[2, 2])?;
    /// let water = tide.plus(&surge)?;
    /// assert!(water.corners().eq([(1, 2), (3, 7), (5, 7), (7, 2)]));
    /// assert_eq!(water, surge.plus(&tide)?);
    ///
    /// // the strongest sets on a course add up
    /// assert_eq!(water.strongest(1, 1)?.set, tide.strongest(1, 1)?.set + surge.strongest(1, 1)?.set);
    ///
    /// assert_eq!(tide.plus(&Envelope::of(&[0], &[LIMIT])?).unwrap_err().number, 19);
    /// # Ok::<(), nuoskelma::Refusal>(())
    /// ```
    pub fn plus(&self, other: &Envelope) -> Result<Envelope, Refusal> {
        self.with(other, crate::sum)
    }

    /// The ring that a call of two rings writes: it has at most the corners of both.
    fn with(&self, other: &Envelope, call: OfTwo) -> Result<Envelope, Refusal> {
        let both = self.len() + other.len();
        Envelope::of_call(both, |easts, norths| call(&self.easts, &self.norths, &other.easts, &other.norths, easts, norths, &mut Scratch::of(both)))
    }

    /// The envelope turned about, that of all its positions with both signs changed: see [`turn_about`](crate::turn_about). It is never refused.
    ///
    /// ```
    /// let envelope = nuoskelma::Envelope::of(&[0, 2, 4], &[0, 5, 0])?;
    /// assert!(envelope.turned().corners().eq([(-4, 0), (0, 0), (-2, -5)]));
    /// assert_eq!(envelope.turned().turned(), envelope);
    /// # Ok::<(), nuoskelma::Refusal>(())
    /// ```
    #[must_use = "the envelope itself stays as it is"]
    pub fn turned(&self) -> Envelope {
        // 1, 2, 3 and 9 are refusals of lists that are no envelope, and 5 of less room than it has corners
        Envelope::of_call(self.len(), |easts, norths| crate::turn_about(&self.easts, &self.norths, easts, norths))
            .expect("an envelope with room for its corners is turned about")
    }

    /// The strongest set on the course (x, y), and the first ring place that has it: see [`strongest`](crate::strongest).
    ///
    /// # Errors
    /// 3, a part of the course beyond the limit; 10, an empty envelope; 11, the course (0, 0).
    ///
    /// ```
    /// use nuoskelma::{Envelope, StrongestSet};
    ///
    /// let envelope = Envelope::of(&[0, 2, 4, 4, 0], &[3, 5, 3, 0, 0])?;
    /// assert_eq!(envelope.strongest(-1, 1), Ok(StrongestSet { set: 3, place: 0 }));
    /// assert_eq!(envelope.strongest(0, 0).unwrap_err().number, 11);
    /// # Ok::<(), nuoskelma::Refusal>(())
    /// ```
    pub fn strongest(&self, x: i32, y: i32) -> Result<StrongestSet, Refusal> {
        crate::strongest(&self.easts, &self.norths, x, y)
    }

    /// Is the stream (x, y) a weighted mean of the corners, inside the outline or on it? See [`cover`](crate::cover).
    ///
    /// # Errors
    /// 3, a part of the stream beyond the limit.
    ///
    /// ```
    /// let envelope = nuoskelma::Envelope::of(&[0, 2, 4, 4, 0], &[3, 5, 3, 0, 0])?;
    /// assert_eq!(envelope.covers(2, 1), Ok(true));
    /// assert_eq!(envelope.covers(-1, 1), Ok(false));
    /// // what was measured is covered: each corner is
    /// assert!(envelope.corners().all(|(east, north)| envelope.covers(east, north) == Ok(true)));
    /// # Ok::<(), nuoskelma::Refusal>(())
    /// ```
    pub fn covers(&self, x: i32, y: i32) -> Result<bool, Refusal> {
        crate::cover(&self.easts, &self.norths, x, y)
    }
}

impl<'a> IntoIterator for &'a Envelope {
    type Item = (i32, i32);
    type IntoIter = Streams<'a>;

    fn into_iter(self) -> Streams<'a> {
        self.corners()
    }
}

/// The edges of an [`Envelope`], each as two ring places: see [`Envelope::edges`].
///
/// ```
/// use nuoskelma::{Edge, Envelope};
///
/// let mut edges = Envelope::of(&[0, 1], &[0, 1])?.edges();
/// assert_eq!(edges.len(), 2);
/// assert_eq!(edges.next(), Some(Edge { from: 0, to: 1 }));
/// assert_eq!(edges.next(), Some(Edge { from: 1, to: 0 }));
/// assert_eq!(edges.next(), None);
/// # Ok::<(), nuoskelma::Refusal>(())
/// ```
#[derive(Clone, Debug)]
pub struct Edges {
    hand: Hand,
    left: usize,
}

impl Iterator for Edges {
    type Item = Edge;

    fn next(&mut self) -> Option<Edge> {
        self.left = self.left.checked_sub(1)?;
        // of an envelope of a corner or more, so its count is within the most and its place below the count
        let (edge, next) = self.hand.step().expect("a hand of an envelope is stepped");
        self.hand = next;
        Some(edge)
    }

    fn size_hint(&self) -> (usize, Option<usize>) {
        (self.left, Some(self.left))
    }
}

impl ExactSizeIterator for Edges {}

impl FusedIterator for Edges {}
