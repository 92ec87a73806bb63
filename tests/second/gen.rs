//! Chance that is the same at every run with one seed, and what is made by it: samples of every kind, rings, lists that are almost rings, noise.

use std::collections::BTreeSet;
use std::sync::OnceLock;

use crate::rules::chain::{at, ring_of, Position};
use crate::rules::{LIMIT, MOST};

/// The seed that is given from outside, as SEED=n; without one 0, so that every run has the same cases.
pub fn seed() -> u64 {
    static SEED: OnceLock<u64> = OnceLock::new();
    *SEED.get_or_init(|| match std::env::var("SEED") {
        Err(_) => 0,
        Ok(word) => word.parse().unwrap_or_else(|_| {
            println!("SEED is no number from 0 to 2^64 - 1: {word}");
            std::process::exit(2)
        }),
    })
}

/// So many cases by chance; where few are asked for, a hundredth of them.
pub fn times(count: usize) -> usize {
    if FEW.get().is_some() {
        count / 100
    } else {
        count
    }
}

static FEW: OnceLock<()> = OnceLock::new();

/// From here on few cases are asked for.
pub fn ask_for_few() {
    let _ = FEW.set(());
}

/// xoshiro256**, its state filled by splitmix64.
pub struct Chance {
    state: [u64; 4],
}

impl Chance {
    /// A number for each use, so that none has the chance of another; the seed from outside makes all of them others.
    pub fn new(number: u64) -> Chance {
        let mut mixed = number.wrapping_add(seed().wrapping_mul(0xd134_2543_de82_ef95));
        let mut splitmix = || {
            mixed = mixed.wrapping_add(0x9e37_79b9_7f4a_7c15);
            let z = (mixed ^ mixed >> 30).wrapping_mul(0xbf58_476d_1ce4_e5b9);
            let z = (z ^ z >> 27).wrapping_mul(0x94d0_49bb_1331_11eb);
            z ^ z >> 31
        };
        Chance { state: [splitmix(), splitmix(), splitmix(), splitmix()] }
    }

    pub fn bits(&mut self) -> u64 {
        let [a, b, c, d] = self.state;
        let (c, d) = (c ^ a, d ^ b);
        self.state = [a ^ d, b ^ c, c ^ b << 17, d.rotate_left(45)];
        b.wrapping_mul(5).rotate_left(7).wrapping_mul(9)
    }

    pub fn below(&mut self, end: usize) -> usize {
        ((self.bits() as u128 * end as u128) >> 64) as usize
    }

    /// From least to greatest, both included.
    pub fn between(&mut self, least: i64, greatest: i64) -> i64 {
        least + self.below((greatest - least + 1) as usize) as i64
    }

    pub fn one_in(&mut self, times: usize) -> bool {
        self.below(times) == 0
    }

    pub fn of<T: Copy>(&mut self, list: &[T]) -> T {
        list[self.below(list.len())]
    }

    pub fn shuffle<T>(&mut self, list: &mut [T]) {
        for end in (1..list.len()).rev() {
            list.swap(end, self.below(end + 1));
        }
    }

    /// From -1 to 1.
    fn swing(&mut self) -> f64 {
        self.bits() as i64 as f64 / i64::MAX as f64
    }

    pub fn noise_u32(&mut self, length: usize) -> Vec<u32> {
        (0..length).map(|_| self.bits() as u32).collect()
    }

    pub fn noise_i32(&mut self, length: usize) -> Vec<i32> {
        (0..length).map(|_| self.bits() as i32).collect()
    }

    pub fn noise_u8(&mut self, length: usize) -> Vec<u8> {
        (0..length).map(|_| self.bits() as u8).collect()
    }

    /// A length of 0 to 255, mostly below 13: the ends are where lists differ most.
    pub fn length(&mut self) -> usize {
        match self.below(20) {
            0..=2 => self.below(4),
            3..=13 => 4 + self.below(9),
            14..=18 => 13 + self.below(18),
            _ => 31 + self.below(225),
        }
    }

    /// A length from 2 to the least to 2 to the greatest power, both included, in one of so many equal shares of the way between the powers; now and then at
    /// a power of two or beside it.
    pub fn length_of_share(&mut self, powers: (u32, u32), share: usize, shares: usize) -> usize {
        let (least, greatest) = powers;
        let way = (share as f64 + 0.5 + 0.5 * self.swing()) / shares as f64;
        let power = least as f64 + (greatest - least) as f64 * way;
        let length = if self.one_in(8) { 2f64.powf(power.round()) + self.between(-1, 1) as f64 } else { 2f64.powf(power) };
        (length.round() as usize).clamp(1 << least, 1 << greatest)
    }
}

#[derive(Clone, Debug, Default)]
pub struct Samples {
    pub east: Vec<i32>,
    pub north: Vec<i32>,
}

impl Samples {
    pub fn of(list: &[Position]) -> Samples {
        Samples { east: list.iter().map(|p| p.east as i32).collect(), north: list.iter().map(|p| p.north as i32).collect() }
    }

    pub fn positions(&self) -> Vec<Position> {
        crate::rules::chain::positions(&self.east, &self.north)
    }
}

/// Input A of the soundings.
pub fn input_a() -> Samples {
    Samples { east: vec![0, 4, 4, 0, 2, 2, 4], north: vec![0, 0, 3, 3, 1, 5, 0] }
}

type Maker = fn(&mut Chance, usize) -> Vec<Position>;

/// The kinds of samples, each with the words for it.
pub const KINDS: [(&str, Maker); 15] = [
    ("tiny grid", |chance, n| grid(chance, n, 2)),
    ("small grid", |chance, n| grid(chance, n, 6)),
    ("middle grid", |chance, n| grid(chance, n, 100)),
    ("square", |chance, n| grid(chance, n, LIMIT as i64)),
    ("ends of the sheet", ends),
    ("one line", one_line),
    ("almost one line", almost_one_line),
    ("all equal", all_equal),
    ("few easts", few_easts),
    ("vertical pairs", vertical_pairs),
    ("circle", circle),
    ("arch", arch),
    ("bowl", |chance, n| arch(chance, n).iter().map(|p| at(p.east, -p.north)).collect()),
    ("close slopes", close_slopes),
    ("tide", tide),
];

/// More kinds, for lists that are long.
pub const LONG_KINDS: [(&str, Maker); 12] = [
    ("gauss", gauss),
    ("three easts", |chance, n| (0..n).map(|_| at(chance.between(-1, 1), chance.between(-1_000_000, 1_000_000))).collect()),
    ("tide on few easts", |chance, n| tide(chance, n).iter().map(|p| at(p.east / 20_000 * 20_000, p.north)).collect()),
    ("circle of the limit", |chance, n| circle_of(chance, n, LIMIT as f64)),
    ("most corners", most_corners),
    ("ascending", ascending),
    ("descending", |chance, n| ascending(chance, n).iter().map(|p| at(-p.east, p.north)).collect()),
    ("one line, ascending", |_, n| (0..n as i64).map(|place| at(30 * place - 983_040, 7 * place - 229_376)).collect()),
    ("deep to the left", |chance, n| deep(chance, n, 1, 1)),
    ("deep to the right", |chance, n| deep(chance, n, -1, 1)),
    ("deep to the left below", |chance, n| deep(chance, n, 1, -1)),
    ("deep to the right below", |chance, n| deep(chance, n, -1, -1)),
];

/// Samples of every kind, so many of each.
pub fn of_every_kind(chance: &mut Chance, n: usize) -> Vec<(&'static str, Samples)> {
    KINDS.iter().chain(&LONG_KINDS).map(|(words, maker)| (*words, Samples::of(&maker(chance, n)))).collect()
}

/// Samples of the kinds that differ most: tides, as many corners as a circle has, few easts, one line, one position.
pub fn of_some_kinds(chance: &mut Chance, n: usize) -> Vec<(&'static str, Samples)> {
    let some = ["tide", "circle of the limit", "three easts", "one line, ascending", "all equal"];
    of_every_kind(chance, n).into_iter().filter(|(words, _)| some.contains(words)).collect()
}

fn grid(chance: &mut Chance, n: usize, reach: i64) -> Vec<Position> {
    (0..n).map(|_| at(chance.between(-reach, reach), chance.between(-reach, reach))).collect()
}

/// Parts at the limit and beside it, so that every difference is as large as it can be.
fn ends(chance: &mut Chance, n: usize) -> Vec<Position> {
    let limit = LIMIT as i64;
    let parts = [-limit, -limit + 1, -1, 0, 1, limit - 1, limit];
    (0..n).map(|_| at(chance.of(&parts), chance.of(&parts))).collect()
}

fn one_line(chance: &mut Chance, n: usize) -> Vec<Position> {
    let reach = chance.of(&[1, 3, 1000]);
    let step = at(chance.between(-reach, reach), chance.between(-reach, reach));
    let start = at(chance.between(-1000, 1000), chance.between(-1000, 1000));
    let spread = (n as i64).min(900);
    (0..n)
        .map(|_| {
            let times = chance.between(-spread, spread);
            at(start.east + times * step.east, start.north + times * step.north)
        })
        .collect()
}

fn almost_one_line(chance: &mut Chance, n: usize) -> Vec<Position> {
    let line = one_line(chance, n);
    line.iter().map(|p| at(p.east + chance.between(-1, 1), p.north + chance.between(-1, 1))).collect()
}

fn all_equal(chance: &mut Chance, n: usize) -> Vec<Position> {
    vec![grid(chance, 1, LIMIT as i64)[0]; n]
}

fn few_easts(chance: &mut Chance, n: usize) -> Vec<Position> {
    let easts: Vec<i64> = (0..chance.between(1, 4)).map(|_| chance.between(-5, 5)).collect();
    (0..n).map(|_| at(chance.of(&easts), chance.between(-4, 4))).collect()
}

/// Neighbours in the list of one east: a round pairs them.
fn vertical_pairs(chance: &mut Chance, n: usize) -> Vec<Position> {
    let mut list = grid(chance, n, 4);
    for pair in list.chunks_exact_mut(2) {
        if !chance.one_in(4) {
            pair[1].east = pair[0].east;
        }
    }
    list
}

fn circle(chance: &mut Chance, n: usize) -> Vec<Position> {
    let radius = chance.of(&[3, 10, 1000, LIMIT]) as f64;
    circle_of(chance, n, radius)
}

fn circle_of(chance: &mut Chance, n: usize, radius: f64) -> Vec<Position> {
    (0..n)
        .map(|_| {
            let turn = chance.swing() * std::f64::consts::PI;
            at((radius * turn.cos()).round() as i64, (radius * turn.sin()).round() as i64)
        })
        .collect()
}

/// Every position a corner of the upper chain.
fn arch(chance: &mut Chance, n: usize) -> Vec<Position> {
    let step = chance.between(1, 3);
    (0..n)
        .map(|place| {
            let k = (place as i64 - n as i64 / 2).clamp(-999, 999);
            at(step * k, -k * k)
        })
        .collect()
}

/// Slopes that differ by as little as fractions of this size can, as 1/3 and 333,333/1,000,000 do.
fn close_slopes(chance: &mut Chance, n: usize) -> Vec<Position> {
    let (rise, run): (i64, i64) = chance.of(&[(1, 3), (1, 1), (2, 7), (-1, 3), (-5, 8), (0, 1)]);
    (0..n)
        .map(|_| {
            let east = chance.of(&[0, 3, 8, 7 * 999, 333_333, 999_999, 1_000_000, -999_999, -1_000_000]);
            let north = (east * rise).div_euclid(run) + chance.between(-1, 1);
            at(east, north.clamp(-1_000_000, 1_000_000))
        })
        .collect()
}

/// Some ellipses of different size and turn, one after another in time, with noise.
pub fn tide(chance: &mut Chance, n: usize) -> Vec<Position> {
    let mut waves = Vec::new();
    for size in [500_000.0, 200_000.0, 90_000.0] {
        let pace = 0.05 + 0.4 * chance.swing().abs();
        waves.push((size * (0.5 + 0.5 * chance.swing().abs()), chance.swing(), 3.2 * chance.swing(), pace));
    }
    (0..n)
        .map(|hour| {
            let (mut east, mut north) = (5_000.0 * chance.swing(), 5_000.0 * chance.swing());
            for &(size, flat, turn, pace) in &waves {
                let (along, across) = (size * (pace * hour as f64).cos(), size * flat * (pace * hour as f64).sin());
                east += along * turn.cos() - across * turn.sin();
                north += along * turn.sin() + across * turn.cos();
            }
            at(east.round() as i64, north.round() as i64)
        })
        .map(|p| at(p.east.clamp(-1_000_000, 1_000_000), p.north.clamp(-1_000_000, 1_000_000)))
        .collect()
}

/// Dense in the middle: each part is the sum of twelve by chance.
fn gauss(chance: &mut Chance, n: usize) -> Vec<Position> {
    let mut part = || (0..12).map(|_| chance.between(-80_000, 80_000)).sum();
    (0..n).map(|_| at(part(), part())).collect()
}

/// A ring of as many corners as there is room for, out of order, with repeats.
fn most_corners(chance: &mut Chance, n: usize) -> Vec<Position> {
    let mut list = large_ring(n.min(MOST_CORNERS));
    let repeats = n - list.len();
    list.extend_from_within(..repeats);
    chance.shuffle(&mut list);
    list
}

/// Easts in order.
fn ascending(chance: &mut Chance, n: usize) -> Vec<Position> {
    (0..n as i64).map(|place| at(30 * place - 983_040, chance.between(-1_000_000, 1_000_000))).collect()
}

/// The chain step calls itself as often as it can, one call inside the other, 16 for 65,536 samples: those of rank 1, 2, 4, 8 and so on by east are the
/// corners of the upper chain, so each list is half the one before and its left end is not yet reached. Mirrored in east or north by a sign.
fn deep(chance: &mut Chance, n: usize, east: i64, north: i64) -> Vec<Position> {
    let one = |rank: i64| {
        let corner = rank & (rank - 1) == 0;
        let height = if corner { 50_000 * rank.ilog2() as i64 } else { -chance.between(1, 100_000) };
        at(east * (30 * rank - 983_070), north * height)
    };
    let mut list: Vec<Position> = (1..=n as i64).map(one).collect();
    chance.shuffle(&mut list);
    list
}

/// Often out of order and with repeats.
fn mixed(chance: &mut Chance, mut list: Vec<Position>) -> Vec<Position> {
    let n = list.len();
    if chance.one_in(3) {
        for _ in 0..n / 3 {
            list[chance.below(n)] = list[chance.below(n)];
        }
    }
    if chance.one_in(3) {
        chance.shuffle(&mut list);
    }
    list
}

/// Samples of some kind, often out of order and with repeats.
pub fn samples(chance: &mut Chance, n: usize) -> (&'static str, Samples) {
    let (words, maker) = chance.of(&KINDS);
    let list = maker(chance, n);
    (words, Samples::of(&mixed(chance, list)))
}

/// The middle sizes: from 2 to the 8 to 2 to the 16.
pub const MIDDLE: (u32, u32) = (8, 16);

/// Lists of every kind, often out of order and with repeats, so many of each kind. Their lengths are spread evenly over the powers of two: those of each kind,
/// and those of all kinds.
pub fn of_sizes(chance: &mut Chance, powers: (u32, u32), of_each: usize, mut each: impl FnMut(&mut Chance, &'static str, Vec<Position>)) {
    let mut kinds: Vec<(&'static str, Maker)> = KINDS.iter().chain(&LONG_KINDS).copied().collect();
    for turn in 0..of_each {
        chance.shuffle(&mut kinds);
        for (place, (words, maker)) in kinds.iter().enumerate() {
            let n = chance.length_of_share(powers, turn * kinds.len() + place, of_each * kinds.len());
            let list = maker(chance, n);
            let list = mixed(chance, list);
            each(chance, words, list);
        }
    }
}

/// Lists of middle sizes: 12 of each kind, or one where few are asked for.
pub fn of_middle_sizes(chance: &mut Chance, each: impl FnMut(&mut Chance, &'static str, Vec<Position>)) {
    of_sizes(chance, MIDDLE, times(1_200).div_ceil(100), each);
}

/// Rings of middle sizes: those of the lists above, and of each kind one of exactly as many corners as its list is long, if there is one; beside each the list
/// itself, which is hardly ever a ring, and the ring changed by a little.
pub fn rings_of_middle_sizes(chance: &mut Chance, mut each: impl FnMut(&mut Chance, &'static str, Vec<Position>)) {
    of_middle_sizes(chance, |chance, words, list| {
        let ring = ring_of(&list);
        let (_, almost) = changed(chance, ring.clone());
        let wide = large_ring(list.len().min(MOST_CORNERS));
        let (_, almost_wide) = changed(chance, wide.clone());
        for list in [ring, almost, list, almost_wide, wide] {
            each(chance, words, list);
        }
    });
}

/// A place of a list that is not empty: any one, or, as often, one of its last four.
pub fn place(chance: &mut Chance, length: usize) -> usize {
    if chance.one_in(2) {
        chance.below(length)
    } else {
        length - 1 - chance.below(length.min(4))
    }
}

/// Makes one or two parts lie beyond the limit.
pub fn spoil_parts(chance: &mut Chance, samples: &mut Samples) {
    let beyond = [LIMIT + 1, -LIMIT - 1, i32::MAX, i32::MIN];
    for _ in 0..1 + chance.below(2) {
        let list = if chance.one_in(2) { &mut samples.east } else { &mut samples.north };
        if !list.is_empty() {
            let place = place(chance, list.len());
            list[place] = chance.of(&beyond);
        }
    }
}

/// Spoils parts, lengths, both, or, mostly, nothing.
pub fn spoil(chance: &mut Chance, samples: &mut Samples) {
    if chance.one_in(4) {
        spoil_parts(chance, samples);
    }
    if chance.one_in(8) {
        spoil_lengths(chance, samples);
    }
}

/// Makes the two lists differ in length.
pub fn spoil_lengths(chance: &mut Chance, samples: &mut Samples) {
    let list = if chance.one_in(2) { &mut samples.east } else { &mut samples.north };
    if list.is_empty() || chance.one_in(2) {
        list.push(chance.between(-5, 5) as i32);
    } else {
        list.pop();
    }
}

/// Samples of which there are too many: one too many; one too many in one of the two lists alone; one too many, with parts beyond the limit.
pub fn too_many() -> [Samples; 4] {
    let list = |part: i32, count: usize| vec![part; count];
    [
        Samples { east: list(3, MOST + 1), north: list(-4, MOST + 1) },
        Samples { east: list(3, MOST + 1), north: list(-4, MOST) },
        Samples { east: list(3, 2), north: list(-4, MOST + 1) },
        Samples { east: list(LIMIT + 1, MOST + 1), north: list(i32::MIN, MOST + 1) },
    ]
}

/// A number to cut at: at an east, beside one, or at an end of 32 bits.
pub fn cut(chance: &mut Chance, easts: &[i32]) -> i32 {
    let near = if easts.is_empty() { 0 } else { chance.of(easts) };
    match chance.below(16) {
        0 => i32::MIN,
        1 => i32::MAX,
        2 => chance.bits() as i32,
        3 | 4 => near.saturating_add(1),
        5 | 6 => near.saturating_sub(1),
        _ => near,
    }
}

/// The ring of samples of some kind.
pub fn ring(chance: &mut Chance) -> (&'static str, Vec<Position>) {
    let n = chance.length().min(40);
    let (words, samples) = samples(chance, n);
    (words, ring_of(&samples.positions()))
}

/// A ring, changed by a little: mostly no ring any more.
pub fn almost_ring(chance: &mut Chance) -> (&'static str, Vec<Position>) {
    let (_, list) = ring(chance);
    changed(chance, list)
}

/// A ring changed by a little, and how.
pub fn changed(chance: &mut Chance, mut list: Vec<Position>) -> (&'static str, Vec<Position>) {
    let corners = list.len();
    if corners == 0 {
        return ("empty ring", list);
    }
    let place = chance.below(corners);
    let words = match chance.below(8) {
        0 => {
            list.rotate_left(place);
            "rotated ring"
        }
        1 => {
            list.reverse();
            "reversed ring"
        }
        2 => {
            list[1..].reverse();
            "ring run the other way from its start"
        }
        3 => {
            list.insert(chance.below(corners + 1), list[place]);
            "ring with a corner twice"
        }
        4 => {
            let (p, q) = (list[place], list[(place + 1) % corners]);
            list.insert(place + 1, at((p.east + q.east).div_euclid(2), (p.north + q.north).div_euclid(2)));
            "ring with a corner in an edge"
        }
        5 => {
            let corner = &mut list[place];
            let by = chance.of(&[-1, 1]);
            *(if chance.one_in(2) { &mut corner.east } else { &mut corner.north }) += by;
            "ring with a corner moved by one"
        }
        6 => {
            list.remove(place);
            "ring without a corner"
        }
        _ => {
            let other = chance.below(corners);
            list.swap(place, other);
            "ring with two corners exchanged"
        }
    };
    (words, list)
}

/// Every ring of positions with parts from -1 to 1: of no corner, of one, of two (flat, upright and slanting) and of more.
pub fn smallest_rings() -> Vec<Vec<Position>> {
    let nine: Vec<Position> = (-1..=1).flat_map(|east| (-1..=1).map(move |north| at(east, north))).collect();
    let of = |choice: u32| ring_of(&(0..9).filter(|k| choice >> k & 1 == 1).map(|k| nine[k]).collect::<Vec<_>>());
    (0..1 << 9).map(of).collect::<BTreeSet<_>>().into_iter().collect()
}

/// The parts of all corners so many times as great: it stays a ring, with so many steps of one length in every edge.
pub fn stretched(corners: &[Position], by: i64) -> Vec<Position> {
    corners.iter().map(|p| at(by * p.east, by * p.north)).collect()
}

/// The greatest number that divides both; 1 where both are 0.
pub fn common(a: i64, b: i64) -> i64 {
    if b == 0 {
        a.abs().max(1)
    } else {
        common(b, a % b)
    }
}

/// So many corners has the largest ring below.
pub const MOST_CORNERS: usize = 55_940;

/// A ring of exactly so many corners, up to MOST_CORNERS: its edges are the shortest of different directions, in the order of their turn.
pub fn large_ring(corners: usize) -> Vec<Position> {
    let mut edges: Vec<(i64, i64)> = Vec::new();
    let mut sum = 1;
    while edges.len() < corners.div_ceil(4) {
        edges.extend((1..=sum).map(|east| (east, sum - east)).filter(|&(east, north)| common(east, north) == 1));
        sum += 1;
    }
    edges.truncate(corners.div_ceil(4));
    // flattest first, so that the outline turns left all the way
    edges.sort_by(|first, second| (first.1 * second.0).cmp(&(second.1 * first.0)));
    let mut outline = Vec::new();
    let mut corner = at(0, 0);
    for quarter in 0..4 {
        for &(along, across) in &edges {
            let (east, north) = [(along, across), (-across, along), (-along, -across), (across, -along)][quarter];
            corner = at(corner.east + east, corner.north + north);
            outline.push(corner);
        }
    }
    let middle = |parts: Vec<i64>| (parts.iter().max().unwrap_or(&0) + parts.iter().min().unwrap_or(&0)) / 2;
    let (east, north) = (middle(outline.iter().map(|p| p.east).collect()), middle(outline.iter().map(|p| p.north).collect()));
    outline.truncate(corners);
    ring_of(&outline.iter().map(|p| at(p.east - east, p.north - north)).collect::<Vec<_>>())
}
