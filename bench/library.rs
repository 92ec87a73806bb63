//! The library's entries that are timed, through its C face.
//!
//! An answer of more than 16 bytes is written where a first argument points. On x86-64 that is how C hands it back; the compiled module says so outright, so
//! for Arm it has the same plain first argument, where C would use a register of its own. Declared like this the entries are called rightly on both.

/// The words of scratch that n samples or numbers need.
pub fn scratch_for(n: usize) -> usize {
    16 * n + 64
}

#[cfg(has_library)]
mod picker {
    #[repr(C)]
    struct Picked {
        number: u32,
        place: usize,
        value: i32,
    }

    extern "C" {
        fn nuoskelma_pick(
            answer: *mut Picked,
            numbers: *const i32,
            numbers_len: usize,
            rank: usize,
            scratch: *mut u32,
            scratch_len: usize,
        ) -> *mut Picked;
    }

    /// The number of a rank, or the refusal's number.
    pub fn pick(numbers: &[i32], rank: usize, scratch: &mut [u32]) -> Result<i32, u32> {
        let mut answer = Picked { number: 0, place: 0, value: 0 };
        // the lists are lent for the call alone, each with its length, and the entry takes any input
        unsafe { nuoskelma_pick(&mut answer, numbers.as_ptr(), numbers.len(), rank, scratch.as_mut_ptr(), scratch.len()) };
        if answer.number == 0 {
            Ok(answer.value)
        } else {
            Err(answer.number)
        }
    }
}

#[cfg(has_library)]
pub use picker::pick;

#[cfg(has_library)]
mod bridges {
    use crate::inputs::Sheet;

    #[repr(C)]
    struct Bridged {
        number: u32,
        place: usize,
        left: u32,
        right: u32,
    }

    extern "C" {
        fn nuoskelma_bridge(
            answer: *mut Bridged,
            east: *const i32,
            east_len: usize,
            north: *const i32,
            north_len: usize,
            a: i32,
            scratch: *mut u32,
            scratch_len: usize,
        ) -> *mut Bridged;
    }

    /// The bridge over a, or the refusal's number.
    pub fn bridge(sheet: &Sheet, a: i32, scratch: &mut [u32]) -> Result<(u32, u32), u32> {
        let mut answer = Bridged { number: 0, place: 0, left: 0, right: 0 };
        let (east, north) = (&sheet.east, &sheet.north);
        // as for pick
        unsafe { nuoskelma_bridge(&mut answer, east.as_ptr(), east.len(), north.as_ptr(), north.len(), a, scratch.as_mut_ptr(), scratch.len()) };
        if answer.number == 0 {
            Ok((answer.left, answer.right))
        } else {
            Err(answer.number)
        }
    }
}

#[cfg(has_library)]
pub use bridges::bridge;

#[cfg(has_library)]
mod both_chains {
    use crate::inputs::Sheet;

    #[repr(C)]
    struct Chained {
        number: u32,
        place: usize,
        upper: usize,
        lower: usize,
    }

    extern "C" {
        fn nuoskelma_chains(
            answer: *mut Chained,
            east: *const i32,
            east_len: usize,
            north: *const i32,
            north_len: usize,
            upper: *mut u32,
            upper_len: usize,
            lower: *mut u32,
            lower_len: usize,
            scratch: *mut u32,
            scratch_len: usize,
        ) -> *mut Chained;
    }

    /// Room for the chains of a sheet.
    pub struct Room {
        pub upper: Vec<u32>,
        pub lower: Vec<u32>,
        pub scratch: Vec<u32>,
    }

    impl Room {
        pub fn new(n: usize) -> Room {
            Room { upper: vec![0; n], lower: vec![0; n], scratch: vec![0; super::scratch_for(n)] }
        }
    }

    /// How many corners of each chain stand at the front of the room's lists, or the refusal's number.
    pub fn chains(sheet: &Sheet, room: &mut Room) -> Result<(usize, usize), u32> {
        let mut answer = Chained { number: 0, place: 0, upper: 0, lower: 0 };
        let (east, north) = (&sheet.east, &sheet.north);
        let Room { upper, lower, scratch } = room;
        // as for pick
        unsafe {
            nuoskelma_chains(
                &mut answer,
                east.as_ptr(),
                east.len(),
                north.as_ptr(),
                north.len(),
                upper.as_mut_ptr(),
                upper.len(),
                lower.as_mut_ptr(),
                lower.len(),
                scratch.as_mut_ptr(),
                scratch.len(),
            )
        };
        if answer.number == 0 {
            Ok((answer.upper, answer.lower))
        } else {
            Err(answer.number)
        }
    }
}

#[cfg(has_library)]
pub use both_chains::{chains, Room};

#[cfg(has_library)]
mod counted {
    use crate::inputs::Sheet;
    use crate::writing::Form;

    #[repr(C)]
    struct Counted {
        number: u32,
        place: usize,
        count: usize,
    }

    extern "C" {
        fn nuoskelma_ring(
            answer: *mut Counted,
            east: *const i32,
            east_len: usize,
            north: *const i32,
            north_len: usize,
            out_east: *mut i32,
            out_east_len: usize,
            out_north: *mut i32,
            out_north_len: usize,
            scratch: *mut u32,
            scratch_len: usize,
        ) -> *mut Counted;

        fn nuoskelma_turn_about(
            answer: *mut Counted,
            east: *const i32,
            east_len: usize,
            north: *const i32,
            north_len: usize,
            out_east: *mut i32,
            out_east_len: usize,
            out_north: *mut i32,
            out_north_len: usize,
        ) -> *mut Counted;

        fn nuoskelma_record(
            answer: *mut Counted,
            bytes: *const u8,
            bytes_len: usize,
            out_east: *mut i32,
            out_east_len: usize,
            out_north: *mut i32,
            out_north_len: usize,
        ) -> *mut Counted;

        fn nuoskelma_write_record(
            answer: *mut Counted,
            version: u8,
            sense: u8,
            east: *const i32,
            east_len: usize,
            north: *const i32,
            north_len: usize,
            out: *mut u8,
            out_len: usize,
        ) -> *mut Counted;
    }

    impl Counted {
        const NONE: Counted = Counted { number: 0, place: 0, count: 0 };

        fn told(self) -> Result<usize, u32> {
            if self.number == 0 {
                Ok(self.count)
            } else {
                Err(self.number)
            }
        }
    }

    /// How many corners of the ring of samples stand at the front of the output, or the refusal's number.
    pub fn ring(sheet: &Sheet, out: &mut Sheet, scratch: &mut [u32]) -> Result<usize, u32> {
        let mut answer = Counted::NONE;
        // as for pick
        unsafe {
            nuoskelma_ring(
                &mut answer,
                sheet.east.as_ptr(),
                sheet.east.len(),
                sheet.north.as_ptr(),
                sheet.north.len(),
                out.east.as_mut_ptr(),
                out.east.len(),
                out.north.as_mut_ptr(),
                out.north.len(),
                scratch.as_mut_ptr(),
                scratch.len(),
            )
        };
        answer.told()
    }

    /// An entry that makes a ring of two rings: it answers how many of its corners stand at the front of the output, or the refusal's number.
    macro_rules! of_two {
        ($name:ident, $entry:ident) => {
            pub fn $name(first: &Sheet, second: &Sheet, out: &mut Sheet, scratch: &mut [u32]) -> Result<usize, u32> {
                extern "C" {
                    fn $entry(
                        answer: *mut Counted,
                        east: *const i32,
                        east_len: usize,
                        north: *const i32,
                        north_len: usize,
                        east2: *const i32,
                        east2_len: usize,
                        north2: *const i32,
                        north2_len: usize,
                        out_east: *mut i32,
                        out_east_len: usize,
                        out_north: *mut i32,
                        out_north_len: usize,
                        scratch: *mut u32,
                        scratch_len: usize,
                    ) -> *mut Counted;
                }
                let mut answer = Counted::NONE;
                // as for pick
                unsafe {
                    $entry(
                        &mut answer,
                        first.east.as_ptr(),
                        first.east.len(),
                        first.north.as_ptr(),
                        first.north.len(),
                        second.east.as_ptr(),
                        second.east.len(),
                        second.north.as_ptr(),
                        second.north.len(),
                        out.east.as_mut_ptr(),
                        out.east.len(),
                        out.north.as_mut_ptr(),
                        out.north.len(),
                        scratch.as_mut_ptr(),
                        scratch.len(),
                    )
                };
                answer.told()
            }
        };
    }

    of_two!(join, nuoskelma_join);
    of_two!(sum, nuoskelma_sum);

    /// How many corners of a ring turned about stand at the front of the output, or the refusal's number.
    pub fn turn_about(ring: &Sheet, out: &mut Sheet) -> Result<usize, u32> {
        let mut answer = Counted::NONE;
        let Sheet { east, north } = out;
        // as for pick
        unsafe {
            nuoskelma_turn_about(
                &mut answer,
                ring.east.as_ptr(),
                ring.east.len(),
                ring.north.as_ptr(),
                ring.north.len(),
                east.as_mut_ptr(),
                east.len(),
                north.as_mut_ptr(),
                north.len(),
            )
        };
        answer.told()
    }

    /// How many corners of a record stand at the front of the output, or the refusal's number.
    pub fn read_record(bytes: &[u8], out: &mut Sheet) -> Result<usize, u32> {
        let mut answer = Counted::NONE;
        let Sheet { east, north } = out;
        // as for pick
        unsafe { nuoskelma_record(&mut answer, bytes.as_ptr(), bytes.len(), east.as_mut_ptr(), east.len(), north.as_mut_ptr(), north.len()) };
        answer.told()
    }

    /// How many bytes of a ring's record stand at the front of the output, or the refusal's number.
    pub fn write_record(form: Form, ring: &Sheet, out: &mut [u8]) -> Result<usize, u32> {
        let mut answer = Counted::NONE;
        let (east, north) = (&ring.east, &ring.north);
        // as for pick
        unsafe {
            nuoskelma_write_record(
                &mut answer,
                form.version,
                form.sense,
                east.as_ptr(),
                east.len(),
                north.as_ptr(),
                north.len(),
                out.as_mut_ptr(),
                out.len(),
            )
        };
        answer.told()
    }
}

#[cfg(has_library)]
pub use counted::{join, read_record, ring, sum, turn_about, write_record};

#[cfg(has_library)]
mod asked {
    use crate::inputs::Sheet;

    #[repr(C)]
    struct StrongestSet {
        number: u32,
        place: usize,
        set: i64,
        at: usize,
    }

    #[repr(C)]
    struct Covered {
        number: u32,
        place: usize,
        covered: u32,
    }

    extern "C" {
        fn nuoskelma_strongest(
            answer: *mut StrongestSet,
            east: *const i32,
            east_len: usize,
            north: *const i32,
            north_len: usize,
            x: i32,
            y: i32,
        ) -> *mut StrongestSet;

        fn nuoskelma_cover(
            answer: *mut Covered,
            east: *const i32,
            east_len: usize,
            north: *const i32,
            north_len: usize,
            x: i32,
            y: i32,
        ) -> *mut Covered;
    }

    /// The strongest set on a course and its first place, or the refusal's number.
    pub fn strongest(ring: &Sheet, (x, y): (i32, i32)) -> Result<(i64, usize), u32> {
        let mut answer = StrongestSet { number: 0, place: 0, set: 0, at: 0 };
        let (east, north) = (&ring.east, &ring.north);
        // as for pick
        unsafe { nuoskelma_strongest(&mut answer, east.as_ptr(), east.len(), north.as_ptr(), north.len(), x, y) };
        if answer.number == 0 {
            Ok((answer.set, answer.at))
        } else {
            Err(answer.number)
        }
    }

    /// Whether a ring covers a stream, or the refusal's number.
    pub fn cover(ring: &Sheet, (x, y): (i32, i32)) -> Result<bool, u32> {
        let mut answer = Covered { number: 0, place: 0, covered: 0 };
        let (east, north) = (&ring.east, &ring.north);
        // as for pick
        unsafe { nuoskelma_cover(&mut answer, east.as_ptr(), east.len(), north.as_ptr(), north.len(), x, y) };
        if answer.number == 0 {
            Ok(answer.covered == 1)
        } else {
            Err(answer.number)
        }
    }
}

#[cfg(has_library)]
pub use asked::{cover, strongest};
