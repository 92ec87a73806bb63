//! The record.

use crate::face;
use crate::refusal::{unless_refused, Refusal};

/// The sense of a record: whether its streams tell where the water goes to, as those of every ring here do, or where it comes from, as winds are told. Its number
/// is the byte that says it.
#[derive(Clone, Copy, Debug, PartialEq, Eq, Hash)]
pub enum Sense {
    /// Going to: the record stores the ring as it is.
    GoingTo = 0,
    /// Coming from: the record stores the ring turned about.
    ComingFrom = 1,
}

/// The version of a record that is written. A ring has one record for each, three in all. What there is not, a coming-from record of version 1, cannot be asked for.
///
/// ```
/// use nuoskelma::{Envelope, Sense, Version};
///
/// let leg = Envelope::of(&[-1, 0], &[-2, 0])?;
/// let told = leg.record(Version::Two(Sense::ComingFrom));
/// assert_eq!(told, [2, 0, 0, 0, 17, 1, 0, 0, 0, 0, 0, 0, 0, 0, 0, 0, 0, 1, 0, 0, 0, 2]);
/// // read, it is the same ring, going to
/// assert_eq!(Envelope::read(&told)?, leg);
/// # Ok::<(), nuoskelma::Refusal>(())
/// ```
#[derive(Clone, Copy, Debug, PartialEq, Eq, Hash)]
pub enum Version {
    /// Version 1, which is always going to.
    One,
    /// Version 2, which says its sense.
    Two(Sense),
}

impl Version {
    /// Every version and sense in which a ring has a record.
    pub const ALL: [Version; 3] = [Version::One, Version::Two(Sense::GoingTo), Version::Two(Sense::ComingFrom)];

    /// The number of the version, the first byte of its records.
    ///
    /// ```
    /// assert_eq!(nuoskelma::Version::One.number(), 1);
    /// ```
    pub const fn number(self) -> u8 {
        match self {
            Version::One => 1,
            Version::Two(_) => 2,
        }
    }

    /// The sense of its records.
    ///
    /// ```
    /// use nuoskelma::{Sense, Version};
    ///
    /// assert_eq!(Version::One.sense(), Sense::GoingTo);
    /// assert_eq!(Version::Two(Sense::ComingFrom).sense(), Sense::ComingFrom);
    /// ```
    pub const fn sense(self) -> Sense {
        match self {
            Version::One => Sense::GoingTo,
            Version::Two(sense) => sense,
        }
    }
}

/// Record reader: the ring that a record means at the front of two output lists, whose rest stays; and how many corners it has. It is going to, whatever the sense
/// of the record: a coming-from ring is turned about, as by [`turn_about`](crate::turn_about).
///
/// Byte 0 is the version, 1 or 2; bytes 1 to 4 are the length in bytes of the rest. In version 2 byte 5 is the sense, counted in the length: 0 going to, 1 coming
/// from. Then 4 bytes east and 4 bytes north for each corner, in ring order. All big-endian, two's complement. Length 0 is the empty ring, in version 2 length 1.
///
/// # Errors
/// 17, no bytes; 16, a version other than 1 or 2; 17, under 5 bytes; 21, length not a multiple of 8, in version 2 not one more, at place 1; 17, the bytes end early,
/// or 20, bytes follow the end; 22, a sense above 1, at place 5. Then of the corners as they are stored, before any turning about: 2, over 65,536; 3, a part beyond
/// the limit, at the first corner that has one; 9, not an envelope. Then 5, an output list is shorter than the corners. The place of 17 is the offset of the first
/// missing byte, that of 20 the offset of the first extra byte.
///
/// ```
/// use nuoskelma::read_record;
///
/// let (mut easts, mut norths) = ([0], [0]);
/// let record = [1, 0, 0, 0, 8, 0, 0, 0, 2, 255, 255, 255, 255];
/// assert_eq!(read_record(&record, &mut easts, &mut norths), Ok(1));
/// assert_eq!((easts, norths), ([2], [-1]));
///
/// // the same corner, coming from
/// let record = [2, 0, 0, 0, 9, 1, 0, 0, 0, 2, 255, 255, 255, 255];
/// assert_eq!(read_record(&record, &mut easts, &mut norths), Ok(1));
/// assert_eq!((easts, norths), ([-2], [1]));
/// ```
pub fn read_record(bytes: &[u8], out_east: &mut [i32], out_north: &mut [i32]) -> Result<usize, Refusal> {
    let r = face::record(bytes, out_east, out_north);
    unless_refused(r.number, r.place, r.count)
}

/// The bytes of the record of a ring of so many corners: 5, or 6 in version 2, and 8 for each.
///
/// ```
/// use nuoskelma::{record_bytes, Sense, Version};
///
/// assert_eq!(record_bytes(Version::One, 2), 21);
/// assert_eq!(record_bytes(Version::Two(Sense::GoingTo), 2), 22);
/// ```
pub const fn record_bytes(version: Version, corners: usize) -> usize {
    match version {
        Version::One => 8 * corners + 5,
        Version::Two(_) => 8 * corners + 6,
    }
}

/// Record writer: the record of a going-to ring in a version, in the form that [`read_record`] reads, at the front of an output of bytes, whose rest stays; and how
/// many bytes it has, [`record_bytes`] of its corners. A ring has one record for each version and sense: each is read as the ring, and what is read of a record is
/// written, in its version and sense, as the same bytes.
///
/// # Errors
/// 1, the two lists differ in length; 2, over 65,536 corners; 3, a part beyond the limit, at its first place; 9, not an envelope; 5, the output is shorter than
/// the record. (16 and 22 are refusals of versions and senses that [`Version`] has not.)
///
/// ```
/// use nuoskelma::{write_record, Sense, Version};
///
/// let mut record = [9; 14];
/// assert_eq!(write_record(Version::One, &[2], &[-1], &mut record), Ok(13));
/// assert_eq!(record, [1, 0, 0, 0, 8, 0, 0, 0, 2, 255, 255, 255, 255, 9]);
/// assert_eq!(write_record(Version::Two(Sense::ComingFrom), &[2], &[-1], &mut record), Ok(14));
/// assert_eq!(record, [2, 0, 0, 0, 9, 1, 255, 255, 255, 254, 0, 0, 0, 1]);
/// ```
pub fn write_record(version: Version, east: &[i32], north: &[i32], out: &mut [u8]) -> Result<usize, Refusal> {
    let r = face::write_record(version.number(), version.sense() as u8, east, north, out);
    unless_refused(r.number, r.place, r.count)
}
