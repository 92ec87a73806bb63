//! Peers of the chains and of the sum from other libraries: those of bench/peers.cpp, or none where it is not linked.

use crate::inputs::Sheet;
use std::ffi::{c_char, c_void, CStr};

/// As bench/peers.cpp has it.
#[repr(C)]
struct Lists {
    east: *const i32,
    north: *const i32,
    n: usize,
}

/// As bench/peers.cpp has it.
#[repr(C)]
#[derive(Clone, Copy)]
pub struct Peer {
    name: *const c_char,
    make: extern "C" fn(*const Lists) -> *mut c_void,
    corners: extern "C" fn(*mut c_void, *mut f64) -> usize,
    drop: extern "C" fn(*mut c_void),
}

#[cfg(has_peers)]
mod linked {
    use super::Peer;

    extern "C" {
        fn bench_peers(count: *mut usize) -> *const Peer;
        fn bench_sum_peers(count: *mut usize) -> *const Peer;
    }

    fn listed(list: unsafe extern "C" fn(*mut usize) -> *const Peer) -> Vec<Peer> {
        let mut count = 0;
        let first = unsafe { list(&mut count) };
        // an empty list may have no address; the list is never changed or dropped
        (0..count).map(|place| unsafe { *first.add(place) }).collect()
    }

    pub fn peers() -> Vec<Peer> {
        listed(bench_peers)
    }

    pub fn sum_peers() -> Vec<Peer> {
        listed(bench_sum_peers)
    }
}

#[cfg(not(has_peers))]
mod linked {
    pub fn peers() -> Vec<super::Peer> {
        Vec::new()
    }

    pub fn sum_peers() -> Vec<super::Peer> {
        Vec::new()
    }
}

pub use linked::{peers, sum_peers};

impl Peer {
    pub fn name(&self) -> String {
        unsafe { CStr::from_ptr(self.name) }.to_string_lossy().into_owned()
    }

    /// Of one sheet, or of two rings for a sum.
    pub fn take(&self, sheets: &[&Sheet]) -> Taken {
        let lists: Vec<Lists> = sheets.iter().map(|sheet| Lists { east: sheet.east.as_ptr(), north: sheet.north.as_ptr(), n: sheet.len() }).collect();
        let all: usize = lists.iter().map(|list| list.n).sum();
        Taken { peer: *self, samples: (self.make)(lists.as_ptr()), out: vec![0.0; 2 * (all + 1)] }
    }
}

/// Sheets in a peer's own kind of list, and room for its corners.
pub struct Taken {
    peer: Peer,
    samples: *mut c_void,
    out: Vec<f64>,
}

impl Taken {
    /// Works out the corners, and says how many they are.
    pub fn run(&mut self) -> usize {
        (self.peer.corners)(self.samples, self.out.as_mut_ptr())
    }

    /// The corners' positions, in order.
    pub fn corners(&mut self) -> Vec<(i32, i32)> {
        let count = self.run();
        let mut corners: Vec<(i32, i32)> = self.out[..2 * count].chunks_exact(2).map(|corner| (corner[0] as i32, corner[1] as i32)).collect();
        corners.sort_unstable();
        corners
    }
}

impl Drop for Taken {
    fn drop(&mut self) {
        (self.peer.drop)(self.samples);
    }
}

/// The positions of both chains' corners, each once, in order.
pub fn corners(sheet: &Sheet, (upper, lower): &(Vec<u32>, Vec<u32>)) -> Vec<(i32, i32)> {
    let mut corners: Vec<(i32, i32)> = upper.iter().chain(lower).map(|&number| sheet.position(number)).collect();
    corners.sort_unstable();
    corners.dedup();
    corners
}
