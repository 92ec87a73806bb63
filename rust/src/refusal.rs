//! Numbers for no.

use std::error::Error;
use std::fmt;

/// A refusal: its number, and its place, which is 0 where the number names none.
///
/// | No. | Given exactly when | Place |
/// |---|---|---|
/// | 1 | the two lists differ in length | |
/// | 2 | over 65,536 samples, list items, corners or joined corners | |
/// | 3 | a part beyond the limit | first place; 0 for a course or single stream |
/// | 4 | scratch too short | |
/// | 5 | an output list shorter than the result | |
/// | 6 | no bridge over a | |
/// | 7 | a listed number not below the sample count | first list place |
/// | 8 | rank 0 or above n | |
/// | 9 | not an envelope | |
/// | 10 | empty ring given to hand or strongest set; a hand whose place is not below its count | |
/// | 11 | course (0, 0) | |
/// | 12, 13, 14 | float door: not a number, beyond the limit, a fraction | reading |
/// | 16 | a version other than 1 or 2 | |
/// | 17 | the bytes end early | offset of the first missing byte |
/// | 18 | a chain step's list has no bridge over its a | |
/// | 19 | a corner of the sum beyond the limit | |
/// | 20 | bytes follow the end | offset of the first extra byte |
/// | 21 | the length is not a multiple of 8, in version 2 not one more | 1, the offset of the length |
/// | 22 | a sense above 1 | 5, the offset of the sense |
///
/// A refusal alters nothing that was lent, except that 5 and 18 of a function with scratch leave all the scratch zero.
///
/// ```
/// use nuoskelma::{Envelope, Refusal};
///
/// let refusal = Envelope::of(&[0, 1_000_001], &[0, 0]).unwrap_err();
/// assert_eq!(refusal, Refusal { number: 3, place: 1 });
/// assert_eq!(refusal.to_string(), "refused 3 1: a part beyond the limit");
/// ```
#[derive(Clone, Copy, Debug, PartialEq, Eq, Hash)]
pub struct Refusal {
    /// The number for no.
    pub number: u32,
    /// The place.
    pub place: usize,
}

/// A refusal of the float door, with the float that it hands back: 13 and 14 hand back the offending float itself, the others nothing. It
/// is a [`Refusal`] too, without the float, so `?` takes it where a refusal is asked for.
///
/// ```
/// use nuoskelma::{Envelope, Refusal, Samples};
///
/// fn envelope(east: &[f64], north: &[f64]) -> Result<Envelope, Refusal> {
///     Samples::from_readings(east, north)?.envelope()
/// }
/// assert_eq!(envelope(&[0.0, 2.0], &[0.0, 0.5]), Err(Refusal { number: 14, place: 1 }));
/// ```
#[derive(Clone, Copy, Debug, PartialEq)]
pub struct DoorRefusal {
    /// The number for no.
    pub number: u32,
    /// The place: the reading.
    pub place: usize,
    /// The offending float.
    pub back: Option<f64>,
}

impl From<DoorRefusal> for Refusal {
    fn from(door: DoorRefusal) -> Refusal {
        Refusal { number: door.number, place: door.place }
    }
}

impl Refusal {
    /// What the number says, in the words of the rules.
    ///
    /// ```
    /// assert_eq!(nuoskelma::Refusal { number: 9, place: 0 }.words(), "not an envelope");
    /// ```
    pub fn words(&self) -> &'static str {
        match self.number {
            1 => "the two lists differ in length",
            2 => "over 65,536 samples, list items, corners or joined corners",
            3 => "a part beyond the limit",
            4 => "scratch too short",
            5 => "an output list shorter than the result",
            6 => "no bridge over a",
            7 => "a listed number not below the sample count",
            8 => "rank 0 or above n",
            9 => "not an envelope",
            10 => "an empty ring, or a hand whose place is not below its count",
            11 => "course (0, 0)",
            12 => "not a number",
            13 => "a float beyond the limit",
            14 => "a fraction",
            16 => "a version other than 1 or 2",
            17 => "the record's bytes end early: those from this place on are missing",
            18 => "a chain step's list has no bridge over its a",
            19 => "a corner of the sum beyond the limit: no ring has it, but the strongest sets of both rings can be added",
            20 => "bytes follow the record's end: those from this place on are not its own",
            21 => "the record's length counts no whole corners: it is to be a multiple of 8, in version 2 one more",
            22 => "the record's sense is above 1: 0 is going to, 1 is coming from",
            _ => "no number of the rules",
        }
    }
}

impl fmt::Display for Refusal {
    fn fmt(&self, f: &mut fmt::Formatter<'_>) -> fmt::Result {
        write!(f, "refused {} {}: {}", self.number, self.place, self.words())
    }
}

impl fmt::Display for DoorRefusal {
    fn fmt(&self, f: &mut fmt::Formatter<'_>) -> fmt::Result {
        Refusal::from(*self).fmt(f)?;
        match self.back {
            Some(float) => write!(f, ": {float}"),
            None => Ok(()),
        }
    }
}

impl Error for Refusal {}

impl Error for DoorRefusal {}

/// What a call gives: the value if the number is 0, and otherwise the refusal.
pub(crate) fn unless_refused<T>(number: u32, place: usize, value: T) -> Result<T, Refusal> {
    match number {
        0 => Ok(value),
        _ => Err(Refusal { number, place }),
    }
}

/// The same for the float door.
pub(crate) fn unless_refused_at_the_door<T>(number: u32, place: usize, back: f64, value: T) -> Result<T, DoorRefusal> {
    match number {
        0 => Ok(value),
        13 | 14 => Err(DoorRefusal { number, place, back: Some(back) }),
        _ => Err(DoorRefusal { number, place, back: None }),
    }
}
