//! The float door.

use crate::face;
use crate::refusal::{unless_refused_at_the_door, DoorRefusal};

/// Float door, one part: taken exactly if its value is a whole number within the limit; minus zero is taken as 0.
///
/// # Errors
/// In this order: 12, not a number; 13, beyond the limit, infinities included; 14, a fraction. 13 and 14 hand back the float itself.
///
/// ```
/// use nuoskelma::{part, DoorRefusal};
///
/// assert_eq!(part(-25.0), Ok(-25));
/// assert_eq!(part(0.5), Err(DoorRefusal { number: 14, place: 0, back: Some(0.5) }));
/// ```
pub fn part(x: f64) -> Result<i32, DoorRefusal> {
    let r = face::part(x);
    unless_refused_at_the_door(r.number, 0, r.back, r.value)
}

/// Float door, two lists: the readings' parts at the front of two output lists, whose rest stays; and how many readings there are.
///
/// # Errors
/// 1, the two lists differ in length; 2, over 65,536 readings; 12 to 14 as for one part, by the first bad reading, east before north, with the reading as
/// place; 5, an output list is shorter than the readings.
///
/// ```
/// use nuoskelma::{readings, DoorRefusal};
///
/// let (mut easts, mut norths) = ([0; 2], [0; 2]);
/// assert_eq!(readings(&[1.0, 2.0], &[-0.0, 3.0], &mut easts, &mut norths), Ok(2));
/// assert_eq!((easts, norths), ([1, 2], [0, 3]));
/// let bad = readings(&[1.0, 2.0], &[0.0, 1e9], &mut easts, &mut norths);
/// assert_eq!(bad, Err(DoorRefusal { number: 13, place: 1, back: Some(1e9) }));
/// ```
pub fn readings(east: &[f64], north: &[f64], out_east: &mut [i32], out_north: &mut [i32]) -> Result<usize, DoorRefusal> {
    let r = face::readings(east, north, out_east, out_north);
    unless_refused_at_the_door(r.number, r.place, r.back, r.count)
}
