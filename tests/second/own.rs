//! The rules of this program held against a still plainer way: every corner, bridge and rank by trying all, on short lists. Then the soundings, the program's
//! texts, and the order of refusals.

mod brute;
mod refusals;
mod soundings;

use std::collections::BTreeSet;
use std::time::Instant;

use crate::cases;
use crate::cases::cover::{beside, often_stretched, Lying, LYINGS};
use crate::driver::fail;
use crate::gen::{almost_ring, cut, large_ring, ring, samples, smallest_rings, stretched, Chance, Samples};
use crate::rules::chain::{at, bridge, chains_of, lower, ring_of, upper, Position};
use crate::rules::door::{part, readings};
use crate::rules::program::program;
use crate::rules::rank::pick;
use crate::rules::record::{record, record_of, write_record, FORMS};
use crate::rules::round::{said, Said};
use crate::rules::sum::{laid, pairs, summed};
use crate::rules::using::{cover, hand_for, hand_step, is_envelope, joined, strongest, turned};
use crate::rules::{has_bridge, scratch_for};

/// Ends the program unless two ways agree.
fn agree<T: PartialEq + std::fmt::Debug>(rules: T, other: T, about: impl Fn() -> String) {
    if rules != other {
        fail(format!("DIFFERENCE: the rules say {rules:?}, the other way {other:?}\n{}", about()))
    }
}

type Check = fn() -> u64;

const CHECKS: [(&str, Check); 20] = [
    ("soundings, one by one", soundings::check),
    ("refusals, taken away one by one", refusals::check),
    ("ranks by counting", ranks),
    ("chains by all pairs around each position", chains),
    ("bridges by all pairs", bridges),
    ("rounds place by place", rounds),
    ("rounds down to the bridge", rounds_to_bridge),
    ("chain steps down to the chain", steps),
    ("rings by all triangles", rings),
    ("envelopes by their sides", envelopes),
    ("strongest sets by all corners", strongest_sets),
    ("covers by all triangles of corners", covers),
    ("covers by all small weights", covers_by_weights),
    ("joins in two groupings, turned about by rotation", joins),
    ("sums of the smallest rings by strongest sets", smallest_sums),
    ("sums by all pairs and by all sides, in two orders and groupings, over joins, turned about", sums),
    ("floats by float arithmetic", floats),
    ("records written and read, turned about by rotation", records),
    ("records byte by byte", frames),
    ("texts byte by byte", texts),
];

pub fn check() {
    for (name, check) in CHECKS {
        let start = Instant::now();
        let count = check();
        println!("self: {name}: {count} agree ({:.1} s)", start.elapsed().as_secs_f64());
    }
}

fn ranks() -> u64 {
    let mut chance = Chance::new(101);
    for _ in 0..100_000 {
        let n = 1 + chance.below(20);
        let reach = chance.of(&[0, 2, 50, i32::MAX as i64]);
        let numbers: Vec<i32> = (0..n).map(|_| chance.between(-reach, reach) as i32).collect();
        let rank = 1 + chance.below(n);
        let more = chance.below(3);
        let mut scratch = chance.noise_u32(scratch_for(n) + more);
        agree(pick(&numbers, rank, &mut scratch), Ok(brute::rank(&numbers, rank)), || format!("rank {rank} of {numbers:?}"));
        agree(scratch.iter().any(|&word| word != 0), false, || "scratch".to_string());
    }
    100_000
}

/// Short lists of every kind.
fn short(chance: &mut Chance, most: usize) -> Samples {
    let n = chance.below(most + 1);
    samples(chance, n).1
}

fn chains() -> u64 {
    let mut chance = Chance::new(102);
    for _ in 0..100_000 {
        let samples = short(&mut chance, 12);
        let positions = samples.positions();
        agree(upper(&positions), brute::upper(&positions), || format!("upper chain of {samples:?}"));
        let negated: Vec<Position> = positions.iter().map(|p| at(p.east, -p.north)).collect();
        let below: Vec<Position> = brute::upper(&negated).iter().map(|p| at(p.east, -p.north)).collect();
        agree(lower(&positions), below, || format!("lower chain of {samples:?}"));
        let numbers = chains_of(&positions);
        let lowest = |chain: Vec<Position>| -> Vec<u32> { chain.iter().map(|p| brute::lowest(&positions, *p)).collect() };
        agree(numbers.upper, lowest(upper(&positions)), || format!("upper numbers of {samples:?}"));
        agree(numbers.lower, lowest(lower(&positions)), || format!("lower numbers of {samples:?}"));
    }
    100_000
}

fn bridges() -> u64 {
    let mut chance = Chance::new(103);
    for _ in 0..120_000 {
        let samples = short(&mut chance, 12);
        let a = cut(&mut chance, &samples.east);
        let found = bridge(&samples.east, &samples.north, a, &mut vec![7; scratch_for(samples.east.len())]);
        agree(found.ok(), brute::bridge(&samples.positions(), a), || format!("bridge over {a} of {samples:?}"));
    }
    120_000
}

/// A list of numbers of samples, with repeats or without.
fn numbers(chance: &mut Chance, count: usize) -> Vec<u32> {
    let mut list: Vec<u32> = (0..count as u32).collect();
    if count > 0 && chance.one_in(2) {
        list = (0..chance.below(2 * count)).map(|_| chance.below(count) as u32).collect();
    }
    list
}

fn rounds() -> u64 {
    let mut chance = Chance::new(104);
    let mut count = 0;
    for _ in 0..250_000 {
        let Samples { east, north } = short(&mut chance, 16);
        let list = numbers(&mut chance, east.len());
        let a = cut(&mut chance, &east);
        if has_bridge(list.iter().map(|&number| east[number as usize]), a).is_ok() {
            let about = || format!("round of {list:?} over {a} of {east:?}, {north:?}");
            agree(said(&east, &north, &list, a), brute::round(&east, &north, &list, a), about);
            count += 1;
        }
    }
    count
}

/// The positions of the bridge that the rounds come down to. No round may keep more than the rules let it, or lose the bridge.
fn by_rounds(samples: &Samples, first: Vec<u32>, a: i32) -> (u32, u32) {
    let mut list = first;
    loop {
        match said(&samples.east, &samples.north, &list, a) {
            Said::Bridge(left, right) => return (left, right),
            Said::Kept(kept) => {
                let dropped = list.len() - kept.len();
                agree(dropped >= (list.len() / 2).div_ceil(2), true, || format!("{dropped} dropped of {list:?} over {a} of {samples:?}"));
                list = kept;
            }
        }
    }
}

fn rounds_to_bridge() -> u64 {
    let mut chance = Chance::new(105);
    let mut count = 0;
    for _ in 0..120_000 {
        let n = chance.length();
        let (_, samples) = samples(&mut chance, n);
        let a = cut(&mut chance, &samples.east);
        if let Ok((left, right)) = bridge(&samples.east, &samples.north, a, &mut vec![7; scratch_for(n)]) {
            let found = by_rounds(&samples, (0..n as u32).collect(), a);
            let positions = samples.positions();
            let lowest = |number: u32| brute::lowest(&positions, positions[number as usize]);
            agree((left, right), (lowest(found.0), lowest(found.1)), || format!("bridge over {a} of {samples:?}"));
            count += 1;
        }
    }
    count
}

/// The chain step on a list whose ends differ: the positions from its left end up to, and without, its right end.
fn step(samples: &Samples, list: &[u32], ends: (Position, Position), corners: &mut Vec<Position>) {
    let positions = samples.positions();
    let of = |number: u32| positions[number as usize];
    let easts: Vec<i32> = list.iter().map(|&number| of(number).east as i32).collect();
    let a = brute::rank(&easts, list.len() / 2);
    let (i, j) = by_rounds(samples, list.to_vec(), a);
    let left: Vec<u32> = std::iter::once(i).chain(list.iter().copied().filter(|&k| of(k).east < of(i).east)).collect();
    let right: Vec<u32> = std::iter::once(j).chain(list.iter().copied().filter(|&k| of(k).east > of(j).east)).collect();
    agree(left.len().max(right.len()) <= list.len().div_ceil(2), true, || format!("lists {left:?} and {right:?} of {list:?} of {samples:?}"));
    if of(i) != ends.0 {
        agree(left.len() < list.len(), true, || format!("list {left:?} of {list:?} of {samples:?}"));
        step(samples, &left, (ends.0, of(i)), corners);
    }
    corners.push(of(i));
    if of(j) != ends.1 {
        agree(right.len() < list.len(), true, || format!("list {right:?} of {list:?} of {samples:?}"));
        step(samples, &right, (of(j), ends.1), corners);
    }
}

/// The rules' own method, by rounds and steps, comes to the same chain.
fn steps() -> u64 {
    let mut chance = Chance::new(106);
    for _ in 0..40_000 {
        let n = 1 + chance.length();
        let (_, samples) = samples(&mut chance, n);
        let positions = samples.positions();
        let chain = upper(&positions);
        let (left, right) = (chain[0], chain[chain.len() - 1]);
        let mut corners = Vec::new();
        if left != right {
            let between = |&k: &u32| left.east < positions[k as usize].east && positions[k as usize].east < right.east;
            let ends = [left, right].map(|end| brute::lowest(&positions, end));
            let first: Vec<u32> = ends.into_iter().chain((0..n as u32).filter(between)).collect();
            step(&samples, &first, (left, right), &mut corners);
        }
        corners.push(right);
        agree(chain, corners, || format!("chain of {samples:?}"));
    }
    40_000
}

fn rings() -> u64 {
    let mut chance = Chance::new(107);
    for _ in 0..30_000 {
        let samples = short(&mut chance, 9);
        let positions = samples.positions();
        let ring = ring_of(&positions);
        let corners: BTreeSet<Position> = ring.iter().copied().collect();
        agree(corners, brute::extreme(&positions), || format!("corners of {samples:?}"));
        agree(brute::is_envelope(&ring), true, || format!("order of {ring:?}"));
    }
    let large = large_ring(1_001);
    agree((large.len(), brute::is_envelope(&large)), (1_001, true), || "a large ring".to_string());
    30_001
}

fn envelopes() -> u64 {
    let mut chance = Chance::new(108);
    for _ in 0..100_000 {
        let list = match chance.below(3) {
            0 => ring(&mut chance).1,
            1 => almost_ring(&mut chance).1,
            _ => short(&mut chance, 5).positions(),
        };
        agree(is_envelope(&list), brute::is_envelope(&list), || format!("envelope {list:?}"));
    }
    100_000
}

fn strongest_sets() -> u64 {
    let mut chance = Chance::new(109);
    for _ in 0..60_000 {
        let (_, corners) = ring(&mut chance);
        let (x, y) = (chance.between(-5, 5) as i32, chance.between(-5, 5) as i32);
        if (x, y) != (0, 0) {
            let Samples { east, north } = Samples::of(&corners);
            agree(strongest(&east, &north, x, y).ok(), brute::strongest(&corners, x, y), || format!("strongest on ({x}, {y}) of {corners:?}"));
        }
    }
    60_000
}

/// Streams beside rings and by nothing. Wherever one can lie, it lies so beside rings of one corner, of two, of three and of more.
fn covers() -> u64 {
    let mut chance = Chance::new(110);
    let mut had = BTreeSet::new();
    for _ in 0..200_000 {
        let corners = ring_of(&short(&mut chance, 10).positions());
        let corners = often_stretched(&mut chance, corners);
        let Samples { east, north } = Samples::of(&corners);
        if corners.is_empty() {
            agree(cover(&east, &north, 0, 0), Ok(false), || "cover by nothing".to_string());
            continue;
        }
        let Lying { words, position, covered } = beside(&mut chance, &corners);
        if position.east.abs().max(position.north.abs()) <= 1_000_000 {
            let other = brute::cover(&corners, position);
            let about = || format!("cover of {position:?}, {words}, by {corners:?}");
            agree(cover(&east, &north, position.east as i32, position.north as i32), Ok(other), about);
            agree(other, covered.unwrap_or(other), about);
            had.insert((words, corners.len().min(4)));
        }
    }
    // the edge of one corner alone has no middle
    agree(had.len(), 4 * LYINGS - 1, || format!("where streams lay, and beside how many corners: {had:?}"));
    200_000
}

/// Every ring of nine positions, and those of three corners or fewer twice as large. Where a stream is a mean, it is one of three corners by twice the areas
/// that it has with each two of them: so weights up to twice the area of the largest triangle are enough.
fn covers_by_weights() -> u64 {
    let mut count = 0;
    for (by, corners, most) in [(1, 9, 4), (2, 3, 16)] {
        for ring in smallest_rings().iter().filter(|ring| ring.len() <= corners) {
            let ring = stretched(ring, by);
            let Samples { east, north } = Samples::of(&ring);
            for stream in (-2 * by..=2 * by).flat_map(|east| (-2 * by..=2 * by).map(move |north| at(east, north))) {
                let rules = cover(&east, &north, stream.east as i32, stream.north as i32);
                agree(rules, Ok(brute::mean(&ring, stream, most)), || format!("weights of {stream:?} by {ring:?}"));
                count += 1;
            }
        }
    }
    count
}

fn joins() -> u64 {
    let mut chance = Chance::new(111);
    for _ in 0..40_000 {
        let rings = [ring(&mut chance).1, ring(&mut chance).1, ring(&mut chance).1];
        let [first, second, third] = &rings;
        let all = ring_of(&rings.concat());
        agree(&joined(&joined(first, second), third), &all, || format!("join of {rings:?}"));
        agree(&joined(third, &joined(second, first)), &all, || format!("join of {rings:?}"));
        let turn = turned(&all);
        agree(&turn, &brute::turned(&all), || format!("turning about {all:?}"));
        agree(turned(&turn), all, || "turning about twice".to_string());
    }
    40_000
}

/// Every two rings of nine positions. Their sums have parts from -2 to 2, so that no side is longer than 4 either way: two rings that have the same strongest
/// sets on every course of such parts are one.
fn smallest_sums() -> u64 {
    let rings = smallest_rings();
    let courses: Vec<(i32, i32)> = (-4..=4).flat_map(|x| (-4..=4).map(move |y| (x, y))).collect();
    for first in &rings {
        for second in &rings {
            let sum = summed(first, second);
            agree(brute::is_envelope(&sum), true, || format!("order of {sum:?}"));
            for &(x, y) in &courses {
                let set = |ring: &[Position]| brute::strongest(ring, x, y).map(|(set, _)| set);
                let added = set(first).zip(set(second)).map(|(one, other)| one + other);
                agree(set(&sum), added, || format!("strongest on ({x}, {y}) of the sum of {first:?} and {second:?}"));
            }
        }
    }
    (rings.len() * rings.len()) as u64
}

fn sums() -> u64 {
    let mut chance = Chance::new(115);
    for _ in 0..20_000 {
        let rings = [ring(&mut chance).1, ring(&mut chance).1, ring(&mut chance).1];
        let [first, second, third] = &rings;
        let about = || format!("sum of {rings:?}");
        let sum = summed(first, second);
        agree(ring_of(&pairs(first, second)), ring_of(&laid(first, second)), about);
        agree(&sum, &summed(second, first), about);
        agree(summed(&sum, third), summed(first, &summed(second, third)), about);
        agree(summed(&joined(first, second), third), joined(&summed(first, third), &summed(second, third)), about);
        agree(turned(&sum), summed(&turned(first), &turned(second)), about);
        agree(summed(first, &[]), Vec::new(), about);
    }
    20_000
}

fn floats() -> u64 {
    let mut chance = Chance::new(112);
    let mut count = 0;
    let mut hold = |bits: u64| {
        let rules = part(bits);
        agree((rules.number(), rules.value(), rules.back()), brute::part(f64::from_bits(bits)), || format!("float {bits:#x}"));
        count += 1;
    };
    for float in cases::part::SPECIAL {
        hold(float.to_bits());
        hold((-float).to_bits());
    }
    cases::part::NOT_NUMBERS.into_iter().for_each(&mut hold);
    for _ in 0..500_000 {
        hold(chance.bits());
        let near = (chance.between(-1_000_100, 1_000_100) as f64).to_bits();
        hold(near);
        hold(near.wrapping_add(1));
        hold((chance.between(-2_000_200, 2_000_200) as f64 / 2.0).to_bits());
    }
    // readings are parts, two and two
    for _ in 0..20_000 {
        let n = chance.below(4);
        let mut list = || -> Vec<u64> { (0..n).map(|_| (chance.between(-6, 60) as f64 / 4.0).floor().to_bits()).collect() };
        let (east, north) = (list(), list());
        let (mut out_east, mut out_north) = (vec![9; n], vec![9; n]);
        let taken = readings(&east, &north, &mut out_east, &mut out_north);
        agree(taken, Ok(n), || format!("readings {east:?} {north:?}"));
        let whole = |list: &[u64]| -> Vec<i32> { list.iter().map(|&bits| f64::from_bits(bits) as i32).collect() };
        agree((out_east, out_north), (whole(&east), whole(&north)), || "readings".to_string());
    }
    count + 20_000
}

fn records() -> u64 {
    let mut chance = Chance::new(113);
    for _ in 0..40_000 {
        let (_, stored) = if chance.one_in(2) { ring(&mut chance) } else { almost_ring(&mut chance) };
        let (form, count) = (chance.of(&FORMS), stored.len());
        let bytes = record_of(form, &stored);
        agree(bytes.len(), 4 + form.version as usize + 8 * count, || "length".to_string());
        let (mut east, mut north) = (vec![9; count + 1], vec![9; count + 1]);
        let answer = record(&bytes, &mut east, &mut north);
        let within = stored.iter().all(|p| p.east.abs() <= 1_000_000 && p.north.abs() <= 1_000_000);
        agree(answer.ok(), (within && brute::is_envelope(&stored)).then_some(count), || format!("record {form:?} of {stored:?}"));
        // what is no envelope is not taken by the writer either
        let meant = if answer.is_ok() && form.sense == 1 { brute::turned(&stored) } else { stored.clone() };
        let parts = Samples::of(&meant);
        let mut out = vec![9; bytes.len() + 1];
        agree(write_record(form, &parts.east, &parts.north, &mut out).ok(), answer.ok().map(|_| bytes.len()), || {
            format!("written: {form:?} {meant:?}")
        });
        let written = if answer.is_ok() { [&bytes[..], &[9]].concat() } else { vec![9; bytes.len() + 1] };
        agree(out, written, || format!("bytes of {form:?} {meant:?}"));
        if answer.is_ok() {
            let read = Samples { east: east[..count].to_vec(), north: north[..count].to_vec() };
            agree(read.positions(), meant, || format!("record {form:?} of {stored:?}"));
        }
    }
    40_000
}

/// What is wrong with a record, by its bytes one after another: each that is to be there is looked for at its offset.
fn wrong(bytes: &[u8]) -> Option<(u32, usize)> {
    let missing = |mut offsets: std::ops::Range<usize>| offsets.find(|&at| bytes.get(at).is_none()).map(|at| (17, at));
    if bytes.is_empty() {
        return Some((17, 0));
    }
    if bytes[0] != 1 && bytes[0] != 2 {
        return Some((16, 0));
    }
    if let Some(wrong) = missing(1..5) {
        return Some(wrong);
    }
    // the low bits of the length: 0, or in version 2 the one byte of the sense
    if bytes[4] & 7 != bytes[0] - 1 {
        return Some((21, 1));
    }
    let end = 5 + u32::from_be_bytes([bytes[1], bytes[2], bytes[3], bytes[4]]) as usize;
    let wrong = missing(5..end).or_else(|| bytes.get(end).map(|_| (20, end)));
    wrong.or_else(|| (bytes[0] == 2 && bytes[5] & !1 != 0).then_some((22, 5)))
}

fn frames() -> u64 {
    let mut count = 0;
    cases::record::frames(|_, bytes| {
        let (mut east, mut north) = (vec![9; bytes.len()], vec![9; bytes.len()]);
        let answer = record(&bytes, &mut east, &mut north).map_err(|no| (no.number, no.place));
        agree(answer.err(), wrong(&bytes), || format!("record {bytes:?}"));
        count += 1;
    });
    count
}

fn texts() -> u64 {
    let mut chance = Chance::new(114);
    let mut texts = cases::program::texts();
    for _ in 0..40_000 {
        let bytes = b"00011999 \n\n--  x";
        texts.push((0..chance.below(12)).map(|_| chance.of(bytes)).collect());
        let line = |chance: &mut Chance| chance.of(&cases::program::LINES);
        texts.push((0..chance.below(4)).flat_map(|_| [line(&mut chance), b"\n"].concat()).collect());
    }
    for text in &texts {
        agree(program(text), brute::program(text), || format!("text {:?}", String::from_utf8_lossy(text)));
    }
    for corners in 1..=200 {
        let mut hand = hand_for(corners).expect("a ring has a hand");
        for place in 0..=corners {
            let ((from, to), next) = hand_step(hand).expect("a hand steps");
            let wrapped = |place: usize| if place >= corners { place - corners } else { place };
            agree((from, to), (wrapped(place), if corners == 1 { 0 } else { wrapped(place + 1) }), || format!("hand of {corners} at {place}"));
            hand = next;
        }
    }
    texts.len() as u64
}
