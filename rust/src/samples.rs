//! Samples that are owned.

use crate::streams::{room, written, Streams};
use crate::{Bridge, DoorRefusal, Envelope, Refusal, Scratch};

/// Samples that are owned: any streams in any order, repeats too. A sample's number is its place from 0.
///
/// They are tested by the call that works on them: then a part beyond the limit is refused (3), and more than [`MOST`](crate::MOST) of them (2).
///
/// ```
/// use nuoskelma::{Bridge, Samples};
///
/// let mut samples = Samples::new();
/// samples.push(0, 0);
/// samples.extend([(4, 0), (4, 3), (0, 3), (2, 1), (2, 5), (4, 0)]);
/// assert_eq!(samples.bridge(2), Ok(Bridge { left: 5, right: 2 }));
/// assert_eq!(samples.envelope()?.len(), 5);
/// # Ok::<(), nuoskelma::Refusal>(())
/// ```
#[derive(Clone, Debug, Default, PartialEq, Eq, Hash)]
pub struct Samples {
    easts: Vec<i32>,
    norths: Vec<i32>,
}

/// Both chains of [`Samples`], left to right, as sample numbers: see [`Samples::chains`].
///
/// ```
/// use nuoskelma::{BothChains, Samples};
///
/// let samples = Samples::from_iter([(1, 0), (0, 0), (2, 0), (1, 1)]);
/// assert_eq!(samples.chains(), Ok(BothChains { upper: vec![1, 3, 2], lower: vec![1, 2] }));
/// ```
#[derive(Clone, Debug, Default, PartialEq, Eq, Hash)]
pub struct BothChains {
    /// The upper chain.
    pub upper: Vec<u32>,
    /// The lower chain.
    pub lower: Vec<u32>,
}

impl Samples {
    /// No samples.
    ///
    /// ```
    /// assert!(nuoskelma::Samples::new().is_empty());
    /// ```
    pub const fn new() -> Samples {
        Samples { easts: Vec::new(), norths: Vec::new() }
    }

    /// The samples of readings, through the float door: see [`readings`](crate::readings).
    ///
    /// # Errors
    /// 1, the two lists differ in length; 2, over 65,536 readings; by the first bad reading, east before north: 12, not a number; 13, beyond the limit,
    /// infinities included; 14, a fraction. 13 and 14 hand back the float itself.
    ///
    /// ```
    /// use nuoskelma::{DoorRefusal, Samples};
    ///
    /// assert_eq!(Samples::from_readings(&[1.0, 2.0], &[-0.0, 3.0]), Ok(Samples::from_iter([(1, 0), (2, 3)])));
    /// let bad = Samples::from_readings(&[1.0, 2.0], &[0.0, 0.5]);
    /// assert_eq!(bad, Err(DoorRefusal { number: 14, place: 1, back: Some(0.5) }));
    /// ```
    pub fn from_readings(east: &[f64], north: &[f64]) -> Result<Samples, DoorRefusal> {
        let (mut easts, mut norths) = (room(east.len()), room(east.len()));
        let count = crate::readings(east, north, &mut easts, &mut norths)?;
        Ok(Samples { easts: written(easts, count), norths: written(norths, count) })
    }

    /// Adds a sample, which gets the next number.
    ///
    /// ```
    /// let mut samples = nuoskelma::Samples::new();
    /// samples.push(25, -40);
    /// assert_eq!((samples.easts(), samples.norths()), (&[25][..], &[-40][..]));
    /// ```
    pub fn push(&mut self, east: i32, north: i32) {
        self.easts.push(east);
        self.norths.push(north);
    }

    /// How many samples there are.
    ///
    /// ```
    /// assert_eq!(nuoskelma::Samples::from_iter([(2, 1), (2, 1)]).len(), 2);
    /// ```
    pub fn len(&self) -> usize {
        self.easts.len()
    }

    /// Are there none?
    ///
    /// ```
    /// assert!(!nuoskelma::Samples::from_iter([(0, 0)]).is_empty());
    /// ```
    pub fn is_empty(&self) -> bool {
        self.easts.is_empty()
    }

    /// The samples in their order.
    ///
    /// ```
    /// let samples = nuoskelma::Samples::from_iter([(1, 2), (3, 4)]);
    /// assert!(samples.iter().eq([(1, 2), (3, 4)]));
    /// ```
    pub fn iter(&self) -> Streams<'_> {
        Streams::of(&self.easts, &self.norths)
    }

    /// The east parts, one for each sample.
    ///
    /// ```
    /// assert_eq!(nuoskelma::Samples::from_iter([(1, 2), (3, 4)]).easts(), [1, 3]);
    /// ```
    pub fn easts(&self) -> &[i32] {
        &self.easts
    }

    /// The north parts, one for each sample.
    ///
    /// ```
    /// assert_eq!(nuoskelma::Samples::from_iter([(1, 2), (3, 4)]).norths(), [2, 4]);
    /// ```
    pub fn norths(&self) -> &[i32] {
        &self.norths
    }

    /// Both chains: see [`chains`](crate::chains).
    ///
    /// # Errors
    /// 2, over 65,536 samples; 3, a part beyond the limit, at its first place. (18, a chain step's list has no bridge over its a: a law says that this never
    /// happens.)
    ///
    /// ```
    /// let samples = nuoskelma::Samples::from_iter([(0, 0), (4, 0), (4, 3), (0, 3), (2, 1), (2, 5), (4, 0)]);
    /// let chains = samples.chains()?;
    /// assert_eq!(chains.upper, [3, 5, 2]);
    /// assert_eq!(chains.lower, [0, 1]);
    /// # Ok::<(), nuoskelma::Refusal>(())
    /// ```
    pub fn chains(&self) -> Result<BothChains, Refusal> {
        let (mut upper, mut lower) = (room(self.len()), room(self.len()));
        let counts = crate::chains(&self.easts, &self.norths, &mut upper, &mut lower, &mut Scratch::of(self.len()))?;
        Ok(BothChains { upper: written(upper, counts.upper), lower: written(lower, counts.lower) })
    }

    /// The bridge over a: see [`bridge`](crate::bridge).
    ///
    /// # Errors
    /// 2, over 65,536 samples; 3, a part beyond the limit, at its first place; 6, no sample has east at most a, or none has east above it.
    ///
    /// ```
    /// use nuoskelma::{Bridge, Samples};
    ///
    /// let samples = Samples::from_iter([(4, 0), (0, 3), (2, 5)]);
    /// assert_eq!(samples.bridge(1), Ok(Bridge { left: 1, right: 2 }));
    /// assert_eq!(samples.bridge(4).unwrap_err().number, 6);
    /// ```
    pub fn bridge(&self, a: i32) -> Result<Bridge, Refusal> {
        crate::bridge(&self.easts, &self.norths, a, &mut Scratch::of(self.len()))
    }

    /// The envelope of the samples.
    ///
    /// # Errors
    /// 2, over 65,536 samples; 3, a part beyond the limit, at its first place. (18 as for the chains: a law says that this never happens.)
    ///
    /// ```
    /// let samples = nuoskelma::Samples::from_iter([(0, 0), (4, 0), (2, 1), (2, 5)]);
    /// assert!(samples.envelope()?.corners().eq([(0, 0), (2, 5), (4, 0)]));
    /// # Ok::<(), nuoskelma::Refusal>(())
    /// ```
    pub fn envelope(&self) -> Result<Envelope, Refusal> {
        Envelope::of(&self.easts, &self.norths)
    }
}

impl Extend<(i32, i32)> for Samples {
    fn extend<I: IntoIterator<Item = (i32, i32)>>(&mut self, streams: I) {
        let streams = streams.into_iter();
        let (at_least, _) = streams.size_hint();
        self.easts.reserve(at_least);
        self.norths.reserve(at_least);
        streams.for_each(|(east, north)| self.push(east, north));
    }
}

impl FromIterator<(i32, i32)> for Samples {
    fn from_iter<I: IntoIterator<Item = (i32, i32)>>(streams: I) -> Samples {
        let mut samples = Samples::new();
        samples.extend(streams);
        samples
    }
}

impl<'a> IntoIterator for &'a Samples {
    type Item = (i32, i32);
    type IntoIter = Streams<'a>;

    fn into_iter(self) -> Streams<'a> {
        self.iter()
    }
}
