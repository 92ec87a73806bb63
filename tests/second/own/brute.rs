//! The plainest ways: everything is tried.

use std::collections::BTreeSet;

use crate::rules::chain::{at, Position};
use crate::rules::round::Said;

/// Twice the area of the triangle p, q, r, by the areas below its sides: above zero where it is gone round to the left, and r lies left of the way from p to q.
fn side(p: Position, q: Position, r: Position) -> i128 {
    let below = |from: Position, to: Position| (from.east as i128 - to.east as i128) * (from.north as i128 + to.north as i128);
    below(p, q) + below(q, r) + below(r, p)
}

/// The number that has fewer than `rank` below it and at least `rank` at or below it.
pub fn rank(numbers: &[i32], rank: usize) -> i32 {
    let has_rank = |v: i32| {
        let below = numbers.iter().filter(|&&x| x < v).count();
        let up_to = numbers.iter().filter(|&&x| x <= v).count();
        below < rank && rank <= up_to
    };
    numbers.iter().copied().find(|&v| has_rank(v)).expect("a rank from 1 to the count has its number")
}

pub fn lowest(positions: &[Position], p: Position) -> u32 {
    positions.iter().position(|&q| q == p).expect("a corner is a sample") as u32
}

/// A position is on the upper chain if it is an end, or stands strictly above every line from a position left of it to one right of it.
pub fn upper(positions: &[Position]) -> Vec<Position> {
    let top = |east: i64| positions.iter().filter(|q| q.east == east).map(|q| q.north).max();
    let is_corner = |p: &Position| {
        let lefts = || positions.iter().filter(|q| q.east < p.east);
        let rights = || positions.iter().filter(|q| q.east > p.east);
        top(p.east) == Some(p.north) && lefts().all(|&l| rights().all(|&r| side(l, r, *p) > 0))
    };
    let corners: BTreeSet<Position> = positions.iter().copied().filter(is_corner).collect();
    corners.into_iter().collect()
}

/// Of all pairs with an end on each side of a and no sample above their line, the widest.
pub fn bridge(positions: &[Position], a: i32) -> Option<(u32, u32)> {
    let mut widest: Option<(Position, Position)> = None;
    for &left in positions.iter().filter(|p| p.east <= a as i64) {
        for &right in positions.iter().filter(|p| p.east > a as i64) {
            let none_above = positions.iter().all(|&p| side(left, right, p) <= 0);
            if none_above && widest.map_or(true, |(l, r)| right.east - left.east > r.east - l.east) {
                widest = Some((left, right));
            }
        }
    }
    widest.map(|(left, right)| (lowest(positions, left), lowest(positions, right)))
}

/// A round, by asking of each place whether it is kept.
pub fn round(east: &[i32], north: &[i32], list: &[u32], a: i32) -> Said {
    let listed: Vec<Position> = list.iter().map(|&k| at(east[k as usize].into(), north[k as usize].into())).collect();
    let count = list.len();
    if count == 2 {
        let left = usize::from(listed[0].east > listed[1].east);
        return Said::Bridge(list[left], list[1 - left]);
    }
    // the slope of the pair of a place, if it has a partner of another east: run above zero
    let slope = |place: usize| -> Option<(i128, i128)> {
        let partner = place ^ 1;
        let (p, q) = (listed[place], *listed.get(partner)?);
        let (rise, run) = ((q.north - p.north) as i128, (q.east - p.east) as i128);
        (run != 0).then_some((rise * run.signum(), run.abs()))
    };
    let less = |s: (i128, i128), t: (i128, i128)| s.0 * t.1 < t.0 * s.1;
    let slopes: Vec<(i128, i128)> = (0..count).step_by(2).filter_map(slope).collect();
    let wanted = slopes.len().div_ceil(2);
    let of_rank = |k: &&(i128, i128)| {
        let below = slopes.iter().filter(|&&s| less(s, **k)).count();
        let above = slopes.iter().filter(|&&s| less(**k, s)).count();
        below < wanted && wanted <= slopes.len() - above
    };
    let k = slopes.iter().find(of_rank);

    let mut drop_left = false;
    let mut drop_right = false;
    if let Some(&(rise, run)) = k {
        let farthest = |&place: &usize| {
            let p = listed[place];
            listed.iter().all(|s| (p.north - s.north) as i128 * run >= rise * (p.east - s.east) as i128)
        };
        let reached: Vec<usize> = (0..count).filter(farthest).collect();
        let left_of_a: Vec<usize> = reached.iter().copied().filter(|&place| listed[place].east <= a as i64).collect();
        drop_left = left_of_a.len() == reached.len();
        drop_right = left_of_a.is_empty();
        if !drop_left && !drop_right {
            let is = |place: usize, better: fn(i64, i64) -> bool| reached.iter().all(|&other| !better(listed[other].east, listed[place].east));
            let left = reached.iter().copied().find(|&place| is(place, |x, y| x < y)).expect("one has the least east");
            let right = reached.iter().copied().find(|&place| is(place, |x, y| x > y)).expect("one has the greatest east");
            return Said::Bridge(list[left], list[right]);
        }
    }
    let kept = |&place: &usize| {
        let Some(&partner) = listed.get(place ^ 1) else {
            return true;
        };
        let own = listed[place];
        match (slope(place), k) {
            (Some(slope), Some(&k)) if own.east < partner.east => !(drop_left && !less(slope, k)),
            (Some(slope), Some(&k)) => !(drop_right && !less(k, slope)),
            _ => own.north > partner.north || (own.north == partner.north && place % 2 == 0),
        }
    };
    Said::Kept((0..count).filter(kept).map(|place| list[place]).collect())
}

/// Whether p is in the line from u to v, ends included.
fn in_line(p: Position, u: Position, v: Position) -> bool {
    side(u, v, p) == 0
        && (u.east.min(v.east)..=u.east.max(v.east)).contains(&p.east)
        && (u.north.min(v.north)..=u.north.max(v.north)).contains(&p.north)
}

/// Whether p is in the triangle u, v, w, its lines included.
fn in_triangle(p: Position, u: Position, v: Position, w: Position) -> bool {
    let sides = [side(u, v, p), side(v, w, p), side(w, u, p)];
    side(u, v, w) != 0 && (sides.iter().all(|&s| s >= 0) || sides.iter().all(|&s| s <= 0))
}

/// A stream is covered if it is in the line between two corners, which may be one corner twice, or in the triangle of three.
pub fn cover(corners: &[Position], stream: Position) -> bool {
    let line = |&u: &Position| corners.iter().any(|&v| in_line(stream, u, v));
    let triangle = |&u: &Position| corners.iter().any(|&v| corners.iter().any(|&w| in_triangle(stream, u, v, w)));
    corners.iter().any(line) || corners.iter().any(triangle)
}

/// The positions that are in no line between two others and in no triangle of three others.
pub fn extreme(positions: &[Position]) -> BTreeSet<Position> {
    let all: BTreeSet<Position> = positions.iter().copied().collect();
    let is_extreme = |p: &Position| !cover(&all.iter().copied().filter(|q| q != p).collect::<Vec<_>>(), *p);
    all.iter().copied().filter(is_extreme).collect()
}

/// Two corners or fewer that differ and start at the left, the upper one first; or more, each edge with all other corners strictly to its right.
pub fn is_envelope(list: &[Position]) -> bool {
    let comes_first = |p: Position, q: Position| p.east < q.east || (p.east == q.east && p.north > q.north);
    let starts_well = list.iter().skip(1).all(|&corner| comes_first(list[0], corner));
    let edge_stands = |place: usize| {
        let next = (place + 1) % list.len();
        let others = (0..list.len()).filter(|&other| other != place && other != next);
        others.into_iter().all(|other| side(list[place], list[next], list[other]) < 0)
    };
    starts_well && (list.len() < 3 || (0..list.len()).all(edge_stands))
}

pub fn strongest(corners: &[Position], x: i32, y: i32) -> Option<(i64, usize)> {
    let set = |corner: Position| corner.east * x as i64 + corner.north * y as i64;
    let mut best = (set(*corners.first()?), 0);
    for (place, &corner) in corners.iter().enumerate() {
        if set(corner) > best.0 {
            best = (set(corner), place);
        }
    }
    Some(best)
}

/// Whether a stream is the mean of corners by some weights from 0 to the most, one for each corner: all are tried, as a number counts on.
pub fn mean(corners: &[Position], stream: Position, most: i64) -> bool {
    let mut weights = vec![0; corners.len()];
    loop {
        let weighed = |part: fn(&Position) -> i64| -> i64 { corners.iter().zip(&weights).map(|(corner, weight)| weight * part(corner)).sum() };
        let total = weighed(|_| 1);
        if total > 0 && weighed(|p| p.east) == total * stream.east && weighed(|p| p.north) == total * stream.north {
            return true;
        }
        let Some(place) = weights.iter().position(|&weight| weight < most) else {
            return false;
        };
        weights[..place].fill(0);
        weights[place] += 1;
    }
}

/// Turning by half a circle keeps the order of the corners; only the start is another one.
pub fn turned(ring: &[Position]) -> Vec<Position> {
    let mut list: Vec<Position> = ring.iter().map(|p| at(-p.east, -p.north)).collect();
    let start = (0..list.len()).min_by_key(|&place| (list[place].east, -list[place].north)).unwrap_or(0);
    list.rotate_left(start);
    list
}

/// Number, value and the bits handed back.
pub fn part(float: f64) -> (u32, i32, u64) {
    if float.is_nan() {
        (12, 0, 0)
    } else if float.abs() > 1_000_000.0 {
        (13, 0, float.to_bits())
    } else if float.trunc() != float {
        (14, 0, float.to_bits())
    } else {
        (0, float as i32, 0)
    }
}

/// Where in a line the text stands.
#[derive(Clone, Copy, PartialEq)]
enum At {
    Start,
    Minus,
    Zero,
    Digits(u32),
}

/// The program, byte by byte.
pub fn program(text: &[u8]) -> String {
    let (mut now, mut negative, mut value, mut east) = (At::Start, false, 0i64, None);
    let mut samples: Vec<Position> = Vec::new();
    let mut open = false;
    for &byte in text {
        if samples.len() == 512 {
            return "refused 2 0\n".to_string();
        }
        open = byte != b'\n';
        let ended = matches!(now, At::Zero | At::Digits(_));
        now = match (byte, now) {
            (b'-', At::Start) => {
                negative = true;
                At::Minus
            }
            (b'0', At::Start) => At::Zero,
            (b'1'..=b'9', At::Start | At::Minus) => At::Digits(1),
            (b'0'..=b'9', At::Digits(count)) if count < 7 => At::Digits(count + 1),
            (b' ', _) if ended && east.is_none() => At::Start,
            (b'\n', _) if ended && east.is_some() => At::Start,
            _ => return format!("refused 15 {}\n", samples.len() + 1),
        };
        if byte.is_ascii_digit() {
            value = 10 * value + i64::from(byte - b'0');
        } else if byte != b'-' {
            let part = if negative { -value } else { value };
            match east.take() {
                None => east = Some(part),
                Some(east) => samples.push(at(east, part)),
            }
            (negative, value) = (false, 0);
        }
    }
    if open {
        return format!("refused 15 {}\n", samples.len() + 1);
    }
    if let Some(place) = samples.iter().position(|p| p.east.abs().max(p.north.abs()) > 1_000_000) {
        return format!("refused 3 {place}\n");
    }
    ring_text(&samples)
}

/// The upper chain, then the lower chain right to left without what the upper one has.
fn ring_text(samples: &[Position]) -> String {
    let mut ring = upper(samples);
    let negated: Vec<Position> = samples.iter().map(|p| at(p.east, -p.north)).collect();
    for p in upper(&negated).iter().rev().map(|p| at(p.east, -p.north)) {
        if !ring.contains(&p) {
            ring.push(p);
        }
    }
    let mut text = format!("ring {}\n", ring.len());
    for p in ring {
        text += &format!("{} {}\n", p.east, p.north);
    }
    text
}
