//! The method's rules as they are written, over lists of sample numbers: rounds, the bridge, the chain step, both chains. Every list is a new one, every
//! rank is found by the plain picker, every test is a branch.

use crate::inputs::Sheet;
use crate::picking::pick;
use std::cmp::Ordering;

/// Rise over run, the run above zero.
#[derive(Clone, Copy)]
struct Slope {
    rise: i64,
    run: i64,
}

fn order(j: &Slope, k: &Slope) -> Ordering {
    (j.rise * k.run).cmp(&(k.rise * j.run))
}

/// What a round says: the bridge, or the numbers it keeps.
enum Said {
    Bridge(u32, u32),
    Kept(Vec<u32>),
}

/// A pair in the order of its easts; none where they are equal.
fn by_east(sheet: &Sheet, pair: &[u32]) -> Option<(u32, u32)> {
    let (p, q) = (pair[0], pair[1]);
    match sheet.position(p).0.cmp(&sheet.position(q).0) {
        Ordering::Less => Some((p, q)),
        Ordering::Equal => None,
        Ordering::Greater => Some((q, p)),
    }
}

/// Of a pair of equal east, the one of greater north, or the earlier.
fn higher(sheet: &Sheet, pair: &[u32]) -> u32 {
    if sheet.position(pair[1]).1 > sheet.position(pair[0]).1 {
        pair[1]
    } else {
        pair[0]
    }
}

fn slope(sheet: &Sheet, (left, right): (u32, u32)) -> Slope {
    let (l, r) = (sheet.position(left), sheet.position(right));
    Slope { rise: r.1 as i64 - l.1 as i64, run: r.0 as i64 - l.0 as i64 }
}

/// Of the samples of greatest north minus k times east, that of least and that of greatest east, each the earliest in the list.
fn tops(sheet: &Sheet, list: &[u32], k: Slope) -> (u32, u32) {
    let height = |number: u32| {
        let (east, north) = sheet.position(number);
        north as i64 * k.run - k.rise * east as i64
    };
    let (mut best, mut least, mut greatest) = (height(list[0]), list[0], list[0]);
    for &number in &list[1..] {
        let h = height(number);
        if h > best {
            (best, least, greatest) = (h, number, number);
        } else if h == best {
            if sheet.position(number).0 < sheet.position(least).0 {
                least = number;
            }
            if sheet.position(number).0 > sheet.position(greatest).0 {
                greatest = number;
            }
        }
    }
    (least, greatest)
}

/// The numbers kept of a list: of a pair of equal east the higher; of any other pair what `keeps` says of it; an odd last one.
fn kept(sheet: &Sheet, list: &[u32], keeps: impl Fn((u32, u32)) -> Option<u32>) -> Vec<u32> {
    let mut kept = Vec::new();
    let pairs = list.chunks_exact(2);
    let odd = pairs.remainder();
    for pair in pairs {
        match by_east(sheet, pair) {
            None => kept.push(higher(sheet, pair)),
            Some(ordered) => match keeps(ordered) {
                Some(one) => kept.push(one),
                None => kept.extend_from_slice(pair),
            },
        }
    }
    kept.extend_from_slice(odd);
    kept
}

fn round(sheet: &Sheet, list: &[u32], a: i32) -> Said {
    if list.len() == 2 {
        let (left, right) = by_east(sheet, list).unwrap_or((list[0], list[1]));
        return Said::Bridge(left, right);
    }
    let slopes: Vec<Slope> = list.chunks_exact(2).filter_map(|pair| by_east(sheet, pair)).map(|pair| slope(sheet, pair)).collect();
    if slopes.is_empty() {
        return Said::Kept(kept(sheet, list, |_| None));
    }
    let rank = slopes.len().div_ceil(2);
    let k = pick(slopes, rank, order);
    let (least, greatest) = tops(sheet, list, k);
    if sheet.position(greatest).0 <= a {
        Said::Kept(kept(sheet, list, |pair| order(&slope(sheet, pair), &k).is_ge().then_some(pair.1)))
    } else if sheet.position(least).0 > a {
        Said::Kept(kept(sheet, list, |pair| order(&slope(sheet, pair), &k).is_le().then_some(pair.0)))
    } else {
        Said::Bridge(least, greatest)
    }
}

/// The bridge over a, of a list that has samples on both sides of it.
fn rounds(sheet: &Sheet, list: &[u32], a: i32) -> (u32, u32) {
    let mut said = round(sheet, list, a);
    loop {
        match said {
            Said::Bridge(left, right) => return (left, right),
            Said::Kept(kept) => said = round(sheet, &kept, a),
        }
    }
}

/// The bridge over a; none exactly where it is refused with 6.
pub fn bridge(sheet: &Sheet, a: i32) -> Option<(u32, u32)> {
    if !sheet.east.iter().any(|&east| east <= a) || !sheet.east.iter().any(|&east| east > a) {
        return None;
    }
    let list: Vec<u32> = (0..sheet.len() as u32).collect();
    Some(rounds(sheet, &list, a))
}

/// The chain step: the corners from the left end to the right end of a list, both included.
fn step(sheet: &Sheet, list: &[u32], ends: (u32, u32), corners: &mut Vec<u32>) {
    let east = |number: u32| sheet.position(number).0;
    let a = pick(list.iter().map(|&number| east(number)).collect(), list.len() / 2, i32::cmp);
    let (i, j) = rounds(sheet, list, a);
    if sheet.position(i) == sheet.position(ends.0) {
        corners.push(i);
    } else {
        let left: Vec<u32> = std::iter::once(i).chain(list.iter().copied().filter(|&number| east(number) < east(i))).collect();
        step(sheet, &left, (ends.0, i), corners);
    }
    if sheet.position(j) == sheet.position(ends.1) {
        corners.push(j);
    } else {
        let right: Vec<u32> = std::iter::once(j).chain(list.iter().copied().filter(|&number| east(number) > east(j))).collect();
        step(sheet, &right, (j, ends.1), corners);
    }
}

/// The upper chain's ends, by the lowest number at their position.
fn ends(sheet: &Sheet) -> (u32, u32) {
    let (mut left, mut right) = (0, 0);
    for number in 1..sheet.len() as u32 {
        let ((east, north), l, r) = (sheet.position(number), sheet.position(left), sheet.position(right));
        if east < l.0 || (east == l.0 && north > l.1) {
            left = number;
        }
        if east > r.0 || (east == r.0 && north > r.1) {
            right = number;
        }
    }
    (left, right)
}

fn upper(sheet: &Sheet) -> Vec<u32> {
    let mut corners = Vec::new();
    if sheet.len() == 0 {
        return corners;
    }
    let (left, right) = ends(sheet);
    if sheet.position(left) == sheet.position(right) {
        corners.push(left);
        return corners;
    }
    let (from, to) = (sheet.position(left).0, sheet.position(right).0);
    let between = (0..sheet.len() as u32).filter(|&number| from < sheet.position(number).0 && sheet.position(number).0 < to);
    let first: Vec<u32> = [left, right].into_iter().chain(between).collect();
    step(sheet, &first, (left, right), &mut corners);
    corners
}

/// The upper and the lower chain; the lower is the upper with every north negated.
pub fn chains(sheet: &Sheet) -> (Vec<u32>, Vec<u32>) {
    let negated = Sheet { east: sheet.east.clone(), north: sheet.north.iter().map(|north| -north).collect() };
    (upper(sheet), upper(&negated))
}
