//! The record of a ring in plain Rust: the tests of the ring, each corner looked at with the two before it, then its bytes.

use crate::andrew;
use crate::inputs::Sheet;

pub const MOST: usize = 65_536;
pub const LIMIT: i32 = 1_000_000;
const HEAD: usize = 5;
const CORNER: usize = 8;

/// A record's version, and its sense: 0 going to, 1 coming from.
#[derive(Clone, Copy)]
pub struct Form {
    pub version: u8,
    pub sense: u8,
}

impl Form {
    /// Where the corners start.
    fn start(self) -> usize {
        if self.version == 2 {
            HEAD + 1
        } else {
            HEAD
        }
    }

    /// How many bytes a record of so many corners has.
    pub fn size(self, corners: usize) -> usize {
        self.start() + CORNER * corners
    }
}

/// The forms that are timed.
pub const FORMS: [(&str, Form); 2] = [("version 1", Form { version: 1, sense: 0 }), ("coming from", Form { version: 2, sense: 1 })];

/// The ring of samples, by Andrew's chains: the upper one, then the lower one from right to left without an end that both have.
pub fn ring(sheet: &Sheet) -> Sheet {
    let (upper, lower) = andrew::chains(sheet);
    let mut corners: Vec<(i32, i32)> = upper.iter().chain(lower.iter().rev()).map(|&number| sheet.position(number)).collect();
    corners.dedup();
    if corners.len() > 1 && corners.first() == corners.last() {
        corners.pop();
    }
    let mut ring = Sheet::default();
    corners.iter().for_each(|&(east, north)| ring.push(east as f64, north as f64));
    ring
}

/// The corners one after another, in one sign or the other.
fn put(east: &[i32], north: &[i32], sign: i32, out: &mut [u8]) {
    for ((east, north), place) in east.iter().zip(north).zip(out.chunks_exact_mut(CORNER)) {
        place[..4].copy_from_slice(&(sign * east).to_be_bytes());
        place[4..].copy_from_slice(&(sign * north).to_be_bytes());
    }
}

/// The bytes of a ring that has passed its tests. Coming from, both signs are changed, and the corner farthest east, of those the farthest south, is the first.
pub fn bytes(form: Form, ring: &Sheet, out: &mut [u8]) {
    let n = ring.len();
    out[0] = form.version;
    out[1..HEAD].copy_from_slice(&((form.size(n) - HEAD) as u32).to_be_bytes());
    if form.version == 2 {
        out[HEAD] = form.sense;
    }
    let out = &mut out[form.start()..];
    if form.sense == 1 {
        let first = (0..n).max_by_key(|&place| (ring.east[place], -ring.north[place])).unwrap_or(0);
        put(&ring.east[first..], &ring.north[first..], -1, out);
        put(&ring.east[..first], &ring.north[..first], -1, &mut out[CORNER * (n - first)..]);
    } else {
        put(&ring.east, &ring.north, 1, out);
    }
}

/// The number with which a list is refused that is no ring.
pub fn tested(ring: &Sheet) -> Result<(), u32> {
    let within = |part: &i32| (-LIMIT..=LIMIT).contains(part);
    if ring.east.len() != ring.north.len() {
        return Err(1);
    }
    if ring.len() > MOST {
        return Err(2);
    }
    if !ring.east.iter().chain(&ring.north).all(within) {
        return Err(3);
    }
    if !is_envelope(ring) {
        return Err(9);
    }
    Ok(())
}

/// How many bytes were written, or the refusal's number.
pub fn write(form: Form, ring: &Sheet, out: &mut [u8]) -> Result<usize, u32> {
    if form.version != 1 && form.version != 2 {
        return Err(16);
    }
    if form.sense > form.version - 1 {
        return Err(22);
    }
    tested(ring)?;
    let size = form.size(ring.len());
    if out.len() < size {
        return Err(5);
    }
    bytes(form, ring, out);
    Ok(size)
}

type Position = (i32, i32);

/// On the way from p to q, r lies strictly right.
fn right(p: Position, q: Position, r: Position) -> bool {
    let (east, north) = ((q.0 - p.0) as i64, (q.1 - p.1) as i64);
    east * ((r.1 - p.1) as i64) < north * ((r.0 - p.0) as i64)
}

fn is_envelope(ring: &Sheet) -> bool {
    let n = ring.len();
    let at = |place: usize| ring.position(place as u32);
    if n < 2 {
        return true;
    }
    if n == 2 {
        let (p, q) = (at(0), at(1));
        return p.0 < q.0 || (p.0 == q.0 && q.1 < p.1);
    }
    let turns = |p: Position, q: Position, r: Position| right(p, q, r) && (p.0 < q.0 || r.0 < q.0);
    let (before, last, first) = (at(n - 2), at(n - 1), at(0));
    first.0 < at(1).0 && (2..n).all(|place| turns(at(place - 2), at(place - 1), at(place))) && right(before, last, first) && first.0 <= last.0
}
