//! The C face, in the order of `include/nuoskelma.h`, and the only `unsafe` of the crate.
//!
//! A function here lends its slices as pointers and lengths and hands back the C face's own result. That is sound whatever is lent: the library takes any
//! input, a slice's pointer is aligned and never null, what is lent to be written overlaps nothing else, and the library keeps no pointer.

#[repr(C)]
pub struct Picked {
    pub number: u32,
    pub place: usize,
    pub value: i32,
}

#[repr(C)]
pub struct RoundSaid {
    pub number: u32,
    pub place: usize,
    pub kind: u32,
    pub left: u32,
    pub right: u32,
    pub kept: usize,
}

#[repr(C)]
pub struct Bridged {
    pub number: u32,
    pub place: usize,
    pub left: u32,
    pub right: u32,
}

#[repr(C)]
pub struct Chained {
    pub number: u32,
    pub place: usize,
    pub upper: usize,
    pub lower: usize,
}

#[repr(C)]
pub struct Counted {
    pub number: u32,
    pub place: usize,
    pub count: usize,
}

#[repr(C)]
#[derive(Clone, Copy)]
pub struct Hand {
    pub count: usize,
    pub place: usize,
}

#[repr(C)]
pub struct HandMade {
    pub number: u32,
    pub place: usize,
    pub hand: Hand,
}

#[repr(C)]
pub struct HandStepped {
    pub number: u32,
    pub place: usize,
    pub from: usize,
    pub to: usize,
    pub hand: Hand,
}

#[repr(C)]
pub struct StrongestSet {
    pub number: u32,
    pub place: usize,
    pub set: i64,
    pub at: usize,
}

#[repr(C)]
pub struct CoverTold {
    pub number: u32,
    pub place: usize,
    pub covered: u32,
}

#[repr(C)]
pub struct PartTaken {
    pub number: u32,
    pub value: i32,
    pub back: f64,
}

#[repr(C)]
pub struct ReadingsTaken {
    pub number: u32,
    pub place: usize,
    pub count: usize,
    pub back: f64,
}

extern "C" {
    fn nuoskelma_pick(numbers: *const i32, numbers_len: usize, rank: usize, scratch: *mut u32, scratch_len: usize) -> Picked;
    fn nuoskelma_round(
        east: *const i32, east_len: usize, north: *const i32, north_len: usize, list: *const u32, list_len: usize, a: i32, output: *mut u32,
        output_len: usize, scratch: *mut u32, scratch_len: usize,
    ) -> RoundSaid;
    fn nuoskelma_bridge(
        east: *const i32, east_len: usize, north: *const i32, north_len: usize, a: i32, scratch: *mut u32, scratch_len: usize,
    ) -> Bridged;
    fn nuoskelma_chains(
        east: *const i32, east_len: usize, north: *const i32, north_len: usize, upper: *mut u32, upper_len: usize, lower: *mut u32, lower_len: usize,
        scratch: *mut u32, scratch_len: usize,
    ) -> Chained;
    fn nuoskelma_ring(
        east: *const i32, east_len: usize, north: *const i32, north_len: usize, out_east: *mut i32, out_east_len: usize, out_north: *mut i32,
        out_north_len: usize, scratch: *mut u32, scratch_len: usize,
    ) -> Counted;
    fn nuoskelma_hand_for(corners: usize) -> HandMade;
    fn nuoskelma_hand_step(hand: Hand) -> HandStepped;
    fn nuoskelma_strongest(east: *const i32, east_len: usize, north: *const i32, north_len: usize, x: i32, y: i32) -> StrongestSet;
    fn nuoskelma_cover(east: *const i32, east_len: usize, north: *const i32, north_len: usize, x: i32, y: i32) -> CoverTold;
    fn nuoskelma_turn_about(
        east: *const i32, east_len: usize, north: *const i32, north_len: usize, out_east: *mut i32, out_east_len: usize, out_north: *mut i32,
        out_north_len: usize,
    ) -> Counted;
    fn nuoskelma_join(
        east: *const i32, east_len: usize, north: *const i32, north_len: usize, east2: *const i32, east2_len: usize, north2: *const i32,
        north2_len: usize, out_east: *mut i32, out_east_len: usize, out_north: *mut i32, out_north_len: usize, scratch: *mut u32, scratch_len: usize,
    ) -> Counted;
    fn nuoskelma_sum(
        east: *const i32, east_len: usize, north: *const i32, north_len: usize, east2: *const i32, east2_len: usize, north2: *const i32,
        north2_len: usize, out_east: *mut i32, out_east_len: usize, out_north: *mut i32, out_north_len: usize, scratch: *mut u32, scratch_len: usize,
    ) -> Counted;
    fn nuoskelma_part(x: f64) -> PartTaken;
    fn nuoskelma_readings(
        east: *const f64, east_len: usize, north: *const f64, north_len: usize, out_east: *mut i32, out_east_len: usize, out_north: *mut i32,
        out_north_len: usize,
    ) -> ReadingsTaken;
    fn nuoskelma_record(
        bytes: *const u8, bytes_len: usize, out_east: *mut i32, out_east_len: usize, out_north: *mut i32, out_north_len: usize,
    ) -> Counted;
    fn nuoskelma_write_record(
        version: u8, sense: u8, east: *const i32, east_len: usize, north: *const i32, north_len: usize, out: *mut u8, out_len: usize,
    ) -> Counted;
}

pub fn pick(numbers: &[i32], rank: usize, scratch: &mut [u32]) -> Picked {
    unsafe { nuoskelma_pick(numbers.as_ptr(), numbers.len(), rank, scratch.as_mut_ptr(), scratch.len()) }
}

pub fn round(east: &[i32], north: &[i32], list: &[u32], a: i32, output: &mut [u32], scratch: &mut [u32]) -> RoundSaid {
    unsafe {
        nuoskelma_round(
            east.as_ptr(),
            east.len(),
            north.as_ptr(),
            north.len(),
            list.as_ptr(),
            list.len(),
            a,
            output.as_mut_ptr(),
            output.len(),
            scratch.as_mut_ptr(),
            scratch.len(),
        )
    }
}

pub fn bridge(east: &[i32], north: &[i32], a: i32, scratch: &mut [u32]) -> Bridged {
    unsafe { nuoskelma_bridge(east.as_ptr(), east.len(), north.as_ptr(), north.len(), a, scratch.as_mut_ptr(), scratch.len()) }
}

pub fn chains(east: &[i32], north: &[i32], upper: &mut [u32], lower: &mut [u32], scratch: &mut [u32]) -> Chained {
    unsafe {
        nuoskelma_chains(
            east.as_ptr(),
            east.len(),
            north.as_ptr(),
            north.len(),
            upper.as_mut_ptr(),
            upper.len(),
            lower.as_mut_ptr(),
            lower.len(),
            scratch.as_mut_ptr(),
            scratch.len(),
        )
    }
}

pub fn ring(east: &[i32], north: &[i32], out_east: &mut [i32], out_north: &mut [i32], scratch: &mut [u32]) -> Counted {
    unsafe {
        nuoskelma_ring(
            east.as_ptr(),
            east.len(),
            north.as_ptr(),
            north.len(),
            out_east.as_mut_ptr(),
            out_east.len(),
            out_north.as_mut_ptr(),
            out_north.len(),
            scratch.as_mut_ptr(),
            scratch.len(),
        )
    }
}

pub fn hand_for(corners: usize) -> HandMade {
    unsafe { nuoskelma_hand_for(corners) }
}

pub fn hand_step(hand: Hand) -> HandStepped {
    unsafe { nuoskelma_hand_step(hand) }
}

pub fn strongest(east: &[i32], north: &[i32], x: i32, y: i32) -> StrongestSet {
    unsafe { nuoskelma_strongest(east.as_ptr(), east.len(), north.as_ptr(), north.len(), x, y) }
}

pub fn cover(east: &[i32], north: &[i32], x: i32, y: i32) -> CoverTold {
    unsafe { nuoskelma_cover(east.as_ptr(), east.len(), north.as_ptr(), north.len(), x, y) }
}

pub fn turn_about(east: &[i32], north: &[i32], out_east: &mut [i32], out_north: &mut [i32]) -> Counted {
    unsafe {
        nuoskelma_turn_about(
            east.as_ptr(),
            east.len(),
            north.as_ptr(),
            north.len(),
            out_east.as_mut_ptr(),
            out_east.len(),
            out_north.as_mut_ptr(),
            out_north.len(),
        )
    }
}

/// The join and the sum: each makes a ring of two.
macro_rules! of_two_rings {
    ($name:ident, $call:ident) => {
        pub fn $name(
            east: &[i32], north: &[i32], east2: &[i32], north2: &[i32], out_east: &mut [i32], out_north: &mut [i32], scratch: &mut [u32],
        ) -> Counted {
            unsafe {
                $call(
                    east.as_ptr(),
                    east.len(),
                    north.as_ptr(),
                    north.len(),
                    east2.as_ptr(),
                    east2.len(),
                    north2.as_ptr(),
                    north2.len(),
                    out_east.as_mut_ptr(),
                    out_east.len(),
                    out_north.as_mut_ptr(),
                    out_north.len(),
                    scratch.as_mut_ptr(),
                    scratch.len(),
                )
            }
        }
    };
}

of_two_rings!(join, nuoskelma_join);
of_two_rings!(sum, nuoskelma_sum);

pub fn part(x: f64) -> PartTaken {
    unsafe { nuoskelma_part(x) }
}

pub fn readings(east: &[f64], north: &[f64], out_east: &mut [i32], out_north: &mut [i32]) -> ReadingsTaken {
    unsafe {
        nuoskelma_readings(
            east.as_ptr(),
            east.len(),
            north.as_ptr(),
            north.len(),
            out_east.as_mut_ptr(),
            out_east.len(),
            out_north.as_mut_ptr(),
            out_north.len(),
        )
    }
}

pub fn record(bytes: &[u8], out_east: &mut [i32], out_north: &mut [i32]) -> Counted {
    unsafe { nuoskelma_record(bytes.as_ptr(), bytes.len(), out_east.as_mut_ptr(), out_east.len(), out_north.as_mut_ptr(), out_north.len()) }
}

pub fn write_record(version: u8, sense: u8, east: &[i32], north: &[i32], out: &mut [u8]) -> Counted {
    unsafe { nuoskelma_write_record(version, sense, east.as_ptr(), east.len(), north.as_ptr(), north.len(), out.as_mut_ptr(), out.len()) }
}
