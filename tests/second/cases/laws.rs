//! Laws through the C face with the library alone: what it hands back is lent to it again, and two ways must come to the same. The rules of this program are
//! not asked what the library should answer.

use std::collections::BTreeMap;
use std::fmt::Debug;
use std::time::Instant;

use super::cover::beside;
use crate::driver::{
    fail, Entry, Lent, Library, BRIDGE, CHAINS, COVER, HAND_FOR, HAND_STEP, JOIN, PICK, READINGS, RECORD, RING, ROUND, STRONGEST, SUM, TURN_ABOUT,
    WRITE_RECORD,
};
use crate::gen::{of_sizes, samples, times, Chance, Samples};
use crate::rules::chain::{at, positions};
use crate::rules::{scratch_for, LIMIT};

/// The lists of middle size have 256 to 32,768 samples, so that no two rings made of some of them have too many corners together.
const MIDDLE: (u32, u32) = (8, 15);

struct Laws {
    library: Library,
    chance: Chance,
    held: BTreeMap<&'static str, u64>,
}

/// A ring, as the library wrote it.
#[derive(Clone, PartialEq, Eq, Debug, Default)]
struct Ring {
    east: Vec<i32>,
    north: Vec<i32>,
}

/// What a round said: its kind, the two ends, the kept list.
type Round = (i64, u32, u32, Vec<u32>);

fn i32s(left: &Lent, count: usize) -> Vec<i32> {
    match left {
        Lent::I32(list) => list[..count].to_vec(),
        _ => unreachable!("a list of parts comes back as one"),
    }
}

fn u32s(left: &Lent, count: usize) -> Vec<u32> {
    match left {
        Lent::U32(list) => list[..count].to_vec(),
        _ => unreachable!("a list of numbers comes back as one"),
    }
}

fn bytes(left: &Lent, count: usize) -> Vec<u8> {
    match left {
        Lent::Bytes(list) => list[..count].to_vec(),
        _ => unreachable!("bytes come back as bytes"),
    }
}

fn negated(list: &[i32]) -> Vec<i32> {
    list.iter().map(|part| -part).collect()
}

fn reversed(list: &[u32]) -> Vec<u32> {
    list.iter().rev().copied().collect()
}

fn short<T: Debug>(thing: &T) -> String {
    format!("{thing:?}").chars().take(4_000).collect()
}

impl Laws {
    fn hold<T: PartialEq + Debug>(&mut self, law: &'static str, one: T, other: T, about: &impl Debug) {
        if one != other {
            fail(format!("LAW BROKEN: {law}\n  one way:  {}\n  another:  {}\n  of: {}", short(&one), short(&other), short(about)));
        }
        *self.held.entry(law).or_default() += 1;
    }

    /// A call that must not be refused.
    fn done(&mut self, entry: &'static Entry, scalars: &[i64], lent: Vec<Lent>) -> (Vec<i64>, Vec<Lent>) {
        let (said, left) = self.library.call(entry, scalars, &lent);
        if said[0] != 0 {
            fail(format!("LAW BROKEN: {} refused with {} at {}, where nothing is wrong", entry.name, said[0], said[1]));
        }
        (said, left)
    }

    fn scratch(&mut self, count: usize) -> Lent {
        Lent::U32(self.chance.noise_u32(scratch_for(count)))
    }

    /// An output of parts, full of noise.
    fn room(&mut self, count: usize) -> Lent {
        Lent::I32(self.chance.noise_i32(count))
    }

    fn ring(&mut self, samples: &Samples) -> Ring {
        let n = samples.east.len();
        let lent = vec![Lent::I32(samples.east.clone()), Lent::I32(samples.north.clone()), self.room(n), self.room(n), self.scratch(n)];
        let (said, left) = self.done(&RING, &[], lent);
        let corners = said[2] as usize;
        Ring { east: i32s(&left[2], corners), north: i32s(&left[3], corners) }
    }

    /// What is lent to an entry over two rings.
    fn two_rings(&mut self, first: &Ring, second: &Ring) -> Vec<Lent> {
        let n = first.east.len() + second.east.len();
        let mut lent: Vec<Lent> = [&first.east, &first.north, &second.east, &second.north].map(|list| Lent::I32(list.clone())).into();
        lent.extend([self.room(n), self.room(n), self.scratch(n)]);
        lent
    }

    /// The ring that an entry makes of two.
    fn of_two(&mut self, entry: &'static Entry, first: &Ring, second: &Ring) -> Ring {
        let lent = self.two_rings(first, second);
        let (said, left) = self.done(entry, &[], lent);
        let corners = said[2] as usize;
        Ring { east: i32s(&left[4], corners), north: i32s(&left[5], corners) }
    }

    fn join(&mut self, first: &Ring, second: &Ring) -> Ring {
        self.of_two(&JOIN, first, second)
    }

    fn sum(&mut self, first: &Ring, second: &Ring) -> Ring {
        self.of_two(&SUM, first, second)
    }

    fn turned(&mut self, ring: &Ring) -> Ring {
        let n = ring.east.len();
        let lent = vec![Lent::I32(ring.east.clone()), Lent::I32(ring.north.clone()), self.room(n), self.room(n)];
        let (said, left) = self.done(&TURN_ABOUT, &[], lent);
        let corners = said[2] as usize;
        Ring { east: i32s(&left[2], corners), north: i32s(&left[3], corners) }
    }

    /// The strongest set and its place; of the empty ring none.
    fn strongest(&mut self, ring: &Ring, course: (i64, i64)) -> Option<(i64, usize)> {
        if ring.east.is_empty() {
            return None;
        }
        let (said, _) = self.done(&STRONGEST, &[course.0, course.1], vec![Lent::I32(ring.east.clone()), Lent::I32(ring.north.clone())]);
        Some((said[2], said[3] as usize))
    }

    fn covers(&mut self, ring: &Ring, stream: (i32, i32)) -> bool {
        let lent = vec![Lent::I32(ring.east.clone()), Lent::I32(ring.north.clone())];
        self.done(&COVER, &[stream.0 as i64, stream.1 as i64], lent).0[2] == 1
    }

    fn chains(&mut self, samples: &Samples) -> (Vec<u32>, Vec<u32>) {
        let n = samples.east.len();
        let (upper, lower) = (Lent::U32(self.chance.noise_u32(n)), Lent::U32(self.chance.noise_u32(n)));
        let lent = vec![Lent::I32(samples.east.clone()), Lent::I32(samples.north.clone()), upper, lower, self.scratch(n)];
        let (said, left) = self.done(&CHAINS, &[], lent);
        (u32s(&left[2], said[2] as usize), u32s(&left[3], said[3] as usize))
    }

    fn bridge(&mut self, samples: &Samples, a: i32) -> (u32, u32) {
        let lent = vec![Lent::I32(samples.east.clone()), Lent::I32(samples.north.clone()), self.scratch(samples.east.len())];
        let (said, _) = self.done(&BRIDGE, &[a as i64], lent);
        (said[2] as u32, said[3] as u32)
    }

    fn round(&mut self, samples: &Samples, list: &[u32], a: i32) -> Round {
        let output = Lent::U32(self.chance.noise_u32(list.len()));
        let lists = vec![Lent::I32(samples.east.clone()), Lent::I32(samples.north.clone()), Lent::U32(list.to_vec())];
        let lent = lists.into_iter().chain([output, self.scratch(list.len())]).collect();
        let (said, left) = self.done(&ROUND, &[a as i64], lent);
        (said[2], said[3] as u32, said[4] as u32, u32s(&left[3], said[5] as usize))
    }

    fn pick(&mut self, numbers: &[i32], rank: usize) -> i64 {
        let lent = vec![Lent::I32(numbers.to_vec()), self.scratch(numbers.len())];
        self.done(&PICK, &[rank as i64], lent).0[2]
    }

    /// The record of a ring in a version and a sense.
    fn record(&mut self, version: u8, sense: u8, ring: &Ring) -> Vec<u8> {
        let room = 8 * ring.east.len() + 9;
        let lent = vec![Lent::I32(ring.east.clone()), Lent::I32(ring.north.clone()), Lent::Bytes(self.chance.noise_u8(room))];
        let (said, left) = self.done(&WRITE_RECORD, &[version as i64, sense as i64], lent);
        bytes(&left[2], said[2] as usize)
    }

    /// The ring of a record, which may be refused.
    fn read(&mut self, record: &[u8]) -> Option<Ring> {
        let lent = vec![Lent::Bytes(record.to_vec()), self.room(record.len() / 8), self.room(record.len() / 8)];
        let (said, left) = self.library.call(&RECORD, &[], &lent);
        let corners = said[2] as usize;
        (said[0] == 0).then(|| Ring { east: i32s(&left[1], corners), north: i32s(&left[2], corners) })
    }

    /// All laws on one list of samples, which is cut into so many parts.
    fn all(&mut self, samples: &Samples, parts: usize) {
        self.of_chains(samples);
        self.of_ranks(samples);
        self.of_readings(samples);
        let n = samples.east.len();
        let part = |k: usize| k * n / parts..(k + 1) * n / parts;
        let parts = (0..parts).map(|k| Samples { east: samples.east[part(k)].to_vec(), north: samples.north[part(k)].to_vec() });
        let rings: Vec<Ring> = parts.map(|part| self.ring(&part)).collect();
        let all = self.of_joins(samples, &rings);
        self.of_turning(&rings[0], &rings[rings.len() - 1]);
        self.of_sets(&rings[0], &rings[rings.len() - 1]);
        self.of_cover(samples, &all, &rings[0]);
        self.of_sums(samples);
        self.of_limit(&rings[0], &rings[rings.len() - 1]);
        for (version, sense) in [(1, 0), (2, 0), (2, 1)] {
            self.of_records(&all, version, sense);
        }
        self.of_senses(samples, &rings[0], &all);
        self.of_hands(all.east.len());
    }

    fn of_joins(&mut self, samples: &Samples, rings: &[Ring]) -> Ring {
        let all = self.ring(samples);
        let in_order = rings.iter().fold(Ring::default(), |joined, ring| self.join(&joined, ring));
        self.hold("rings joined one by one are the ring of all samples", &in_order, &all, samples);
        let mut pool = rings.to_vec();
        pool.extend([rings[self.chance.below(rings.len())].clone(), rings[self.chance.below(rings.len())].clone(), Ring::default()]);
        while pool.len() > 1 {
            let first = pool.swap_remove(self.chance.below(pool.len()));
            let second = pool.swap_remove(self.chance.below(pool.len()));
            pool.push(self.join(&first, &second));
        }
        self.hold("rings joined in another order and grouping, with repeats and an empty one", &pool[0], &in_order, samples);
        let of_ring = self.ring(&Samples { east: all.east.clone(), north: all.north.clone() });
        self.hold("the ring of a ring's corners is itself", &of_ring, &all, samples);
        let mut order: Vec<usize> = (0..samples.east.len()).collect();
        self.chance.shuffle(&mut order);
        let by = |list: &[i32]| order.iter().map(|&place| list[place]).collect();
        let shuffled = self.ring(&Samples { east: by(&samples.east), north: by(&samples.north) });
        self.hold("samples in another order have the same ring", &shuffled, &all, samples);
        all
    }

    /// Three rings, of a third of the samples each and a third as large, so that all three may be added.
    fn of_sums(&mut self, samples: &Samples) {
        let n = samples.east.len();
        let third = |list: &[i32], k: usize| -> Vec<i32> { list[k * n / 3..(k + 1) * n / 3].iter().map(|part| part / 3).collect() };
        let parts = [0, 1, 2].map(|k| Samples { east: third(&samples.east, k), north: third(&samples.north, k) });
        let [first, second, other] = [0, 1, 2].map(|k| self.ring(&parts[k]));
        let about = (&first, &second, &other);
        let sum = self.sum(&first, &second);
        let (exchanged, other_sum) = (self.sum(&second, &first), self.sum(&second, &other));
        self.hold("two rings added in either order have one sum", &exchanged, &sum, &about);
        let (one, another) = (self.sum(&sum, &other), self.sum(&first, &other_sum));
        self.hold("rings added in another grouping have the same sum", one, another, &about);
        let joined = self.join(&first, &second);
        let first_sum = self.sum(&first, &other);
        let (one, another) = (self.sum(&joined, &other), self.join(&first_sum, &other_sum));
        self.hold("a ring added to a join is the join of the sums", one, another, &about);
        let turned = (self.turned(&first), self.turned(&second));
        let (one, another) = (self.turned(&sum), self.sum(&turned.0, &turned.1));
        self.hold("a sum turned is the turned rings added", one, another, &about);
        let none = self.sum(&first, &Ring::default());
        self.hold("a ring added to the empty ring is empty", none, Ring::default(), &about);
        self.of_streams_added(&parts[0], &parts[1], &sum);
        self.of_sets_added(&first, &second, &sum);
    }

    /// The sum is the ring of every stream behind one ring added to every stream behind the other.
    fn of_streams_added(&mut self, first: &Samples, second: &Samples, sum: &Ring) {
        let (one, other) = (first.east.len(), second.east.len());
        if one * other == 0 {
            return;
        }
        let (p, q) = (self.chance.below(one), self.chance.below(other));
        let stream = (first.east[p] + second.east[q], first.north[p] + second.north[q]);
        let covered = self.covers(sum, stream);
        self.hold("a sum covers every stream of one added to one of the other", covered, true, &(stream, sum));
        if one * other <= 4_096 {
            let added = |first: &[i32], second: &[i32]| first.iter().flat_map(|one| second.iter().map(move |other| one + other)).collect();
            let all = self.ring(&Samples { east: added(&first.east, &second.east), north: added(&first.north, &second.north) });
            self.hold("a sum is the ring of every stream of one added to every one of the other", &all, sum, &(first, second));
        }
    }

    fn of_sets_added(&mut self, first: &Ring, second: &Ring, sum: &Ring) {
        for reach in [1, 5, 1_000_000] {
            let course = (self.chance.between(-reach, reach), self.chance.between(-reach, reach));
            if course == (0, 0) {
                continue;
            }
            let sets = [self.strongest(first, course), self.strongest(second, course), self.strongest(sum, course)];
            let [first_set, second_set, both] = sets.map(|set| set.map(|(set, _)| set));
            let added = first_set.zip(second_set).map(|(one, other)| one + other);
            self.hold("a sum's strongest set is both rings' added", both, added, &(course, first, second));
        }
    }

    /// Of rings as they come: their strongest sets to the four sides tell whether the sum is beyond the limit.
    fn of_limit(&mut self, first: &Ring, second: &Ring) {
        let beyond = [(1, 0), (-1, 0), (0, 1), (0, -1)].map(|course| {
            let sets = self.strongest(first, course).zip(self.strongest(second, course));
            sets.is_some_and(|((one, _), (other, _))| one + other > LIMIT as i64)
        });
        let beyond = beyond.contains(&true);
        let lent = self.two_rings(first, second);
        let (said, left) = self.library.call(&SUM, &[], &lent);
        self.hold("a sum is refused 19 exactly if the strongest sets to some side add up beyond the limit", said[0] == 19, beyond, &(first, second));
        if beyond {
            self.hold("19 leaves everything lent as it was", left == lent, true, &(first, second));
        }
    }

    fn of_turning(&mut self, first: &Ring, second: &Ring) {
        let turned = (self.turned(first), self.turned(second));
        let back = self.turned(&turned.0);
        self.hold("a ring turned twice is itself", &back, first, first);
        let joined = self.join(first, second);
        let (one, other) = (self.turned(&joined), self.join(&turned.0, &turned.1));
        self.hold("a join turned is the turned rings joined", one, other, &(first, second));
    }

    fn of_sets(&mut self, first: &Ring, second: &Ring) {
        let (joined, turned) = (self.join(first, second), self.turned(first));
        for reach in [1, 5, 1_000_000] {
            let course = (self.chance.between(-reach, reach), self.chance.between(-reach, reach));
            if course == (0, 0) {
                continue;
            }
            let sets = [self.strongest(first, course), self.strongest(second, course), self.strongest(&joined, course)];
            let [first_set, second_set, both] = sets.map(|set| set.map(|(set, _)| set));
            self.hold("a join's strongest set is the greater of both", both, first_set.max(second_set), &(course, first, second));
            if let Some((set, at)) = sets[0] {
                let of_corner = course.0 * first.east[at] as i64 + course.1 * first.north[at] as i64;
                self.hold("a strongest set is that of its corner", set, of_corner, &(course, first));
                let opposite = self.strongest(&turned, (-course.0, -course.1)).map(|(set, _)| set);
                self.hold("a turned ring has the same strongest set on the opposite course", opposite, Some(set), &(course, first));
            }
        }
    }

    /// A stream within the limit beside a ring.
    fn near(&mut self, ring: &Ring) -> (i32, i32) {
        let corners = positions(&ring.east, &ring.north);
        let beside = if corners.is_empty() { at(0, 0) } else { beside(&mut self.chance, &corners).position };
        let part = |part: i64| part.clamp(-LIMIT as i64, LIMIT as i64) as i32;
        (part(beside.east), part(beside.north))
    }

    /// Of the ring of samples, and of the ring of a part of them.
    fn of_cover(&mut self, samples: &Samples, ring: &Ring, part: &Ring) {
        if !samples.east.is_empty() {
            let place = self.chance.below(samples.east.len());
            let sample = (samples.east[place], samples.north[place]);
            let covered = self.covers(ring, sample);
            self.hold("a ring covers every sample that it is the ring of", covered, true, &(sample, samples));
        }
        for _ in 0..4 {
            let stream = self.near(ring);
            let covered = self.covers(ring, stream);
            let joined = self.join(ring, &Ring { east: vec![stream.0], north: vec![stream.1] });
            if covered {
                self.hold("a ring joined with a stream that it covers is itself", &joined, ring, &stream);
            }
            if joined == *ring {
                self.hold("a stream that changes nothing when it is joined is covered", covered, true, &(stream, ring));
            }
            let stream = self.near(part);
            let (narrow, wide) = (self.covers(part, stream), self.covers(ring, stream));
            self.hold("what a ring covers, a wider one covers", narrow && !wide, false, &(stream, ring, part));
            let turned = self.turned(ring);
            let turned = self.covers(&turned, (-stream.0, -stream.1));
            self.hold("a turned ring covers the turned streams", turned, wide, &(stream, ring));
        }
    }

    fn of_chains(&mut self, samples: &Samples) {
        let (upper, lower) = self.chains(samples);
        let turned = self.chains(&Samples { east: negated(&samples.east), north: negated(&samples.north) });
        let exchanged = (reversed(&lower), reversed(&upper));
        self.hold("turned samples have the chains exchanged and reversed", turned, exchanged, samples);
        if upper.len() < 2 {
            return;
        }
        let edge = self.chance.below(upper.len() - 1);
        let ends = (upper[edge], upper[edge + 1]);
        let (left, right) = (samples.east[ends.0 as usize], samples.east[ends.1 as usize]);
        let a = self.chance.between(left as i64, right as i64 - 1) as i32;
        let bridge = self.bridge(samples, a);
        self.hold("a bridge is an edge of the upper chain", bridge, ends, &(a, samples));
        let mut list: Vec<u32> = (0..samples.east.len() as u32).collect();
        let found = loop {
            match self.round(samples, &list, a) {
                (1, left, right, _) => break (left, right),
                (_, _, _, kept) if kept.len() < list.len() => list = kept,
                _ => fail(format!("LAW BROKEN: a round drops something\n  of {} items over {a}", list.len())),
            }
        };
        let at = |number: u32| (samples.east[number as usize], samples.north[number as usize]);
        self.hold("rounds come down to the bridge", (at(found.0), at(found.1)), (at(ends.0), at(ends.1)), &(a, samples));
    }

    fn of_ranks(&mut self, samples: &Samples) {
        let n = samples.east.len();
        if n > 0 {
            let rank = 1 + self.chance.below(n);
            let (one, other) = (self.pick(&samples.east, rank), self.pick(&negated(&samples.east), n + 1 - rank));
            self.hold("a rank from below is one of the negated from above", one, -other, &(rank, samples));
        }
    }

    fn of_readings(&mut self, samples: &Samples) {
        let n = samples.east.len();
        let floats = |list: &[i32]| Lent::F64(list.iter().map(|&part| (part as f64).to_bits()).collect());
        let lent = vec![floats(&samples.east), floats(&samples.north), self.room(n), self.room(n)];
        let (said, left) = self.done(&READINGS, &[], lent);
        let taken = (said[2] as usize, i32s(&left[2], n), i32s(&left[3], n));
        self.hold("parts as floats are taken as they are", taken, (n, samples.east.clone(), samples.north.clone()), samples);
    }

    fn of_records(&mut self, ring: &Ring, version: u8, sense: u8) {
        let record = self.record(version, sense, ring);
        let read = self.read(&record);
        self.hold("a ring's record is read as the ring, in every version and sense", read.as_ref(), Some(ring), &(version, sense, ring));
        for _ in 0..4 {
            let damaged = self.damaged(&record);
            let Some(other) = self.read(&damaged) else {
                continue;
            };
            let form = (damaged[0], if damaged[0] == 2 { damaged[5] } else { 0 });
            let again = self.record(form.0, form.1, &other);
            let law = match damaged == record {
                true => "what is read of a record is written as the same bytes, in the same version and sense",
                false => "what is read of a damaged record is written as the same bytes, in the same version and sense",
            };
            self.hold(law, &again, &damaged, ring);
            if form == (version, sense) {
                self.hold("two records of one version and sense are read as two rings", other == *ring, damaged == record, &(ring, &damaged));
            }
        }
    }

    /// A record, whole as often as not; else cut, with a byte more, or with a bit flipped, mostly a low one of a part or of the sense.
    fn damaged(&mut self, record: &[u8]) -> Vec<u8> {
        let mut bytes = record.to_vec();
        let at = self.chance.below(bytes.len());
        // so many bytes stand before the corners
        let before = record.len() % 8;
        match self.chance.below(10) {
            0 => bytes.truncate(at),
            1 => bytes.push(0),
            2 => bytes[at] ^= 1 << self.chance.below(8),
            3 | 4 if bytes.len() > before => bytes[before + 3 + (at - at % 4) % (record.len() - before)] ^= 1,
            5 if before == 6 => bytes[5] ^= 1,
            _ => {}
        }
        bytes
    }

    /// Of the ring of samples, and of the ring of a part of them.
    fn of_senses(&mut self, samples: &Samples, part: &Ring, ring: &Ring) {
        let mut about = self.record(2, 0, ring);
        about[5] = 1;
        let (read, turned) = (self.read(&about), self.turned(ring));
        self.hold("corners that are said to come from there are read turned about", read.as_ref(), Some(&turned), ring);
        if let Some(read) = read {
            let joined = self.join(part, &read);
            let of = |list: &[i32], part: &[i32]| [part, &negated(list)].concat();
            let behind = self.ring(&Samples { east: of(&samples.east, &part.east), north: of(&samples.north, &part.north) });
            self.hold("a coming-from record joins as its streams turned about", joined, behind, &(samples, part));
        }
    }

    fn of_hands(&mut self, corners: usize) {
        if corners == 0 || corners > 300 {
            return;
        }
        let (made, _) = self.done(&HAND_FOR, &[corners as i64], Vec::new());
        let (mut hand, mut edges) = ((made[2], made[3]), Vec::new());
        for _ in 0..corners {
            let (said, _) = self.done(&HAND_STEP, &[hand.0, hand.1], Vec::new());
            edges.push((said[2], said[3]));
            hand = (said[4], said[5]);
        }
        self.hold("as many steps as corners bring a hand back", hand, (made[2], made[3]), &corners);
        let in_turn = edges.windows(2).all(|edges| edges[0].1 == edges[1].0) && edges[corners - 1].1 == edges[0].0;
        self.hold("each edge begins where the one before ends", in_turn, true, &corners);
    }
}

/// So many laws there are; each must have been held on some list.
const LAWS: usize = 37;

pub fn run(driver: &str) {
    let start = Instant::now();
    let mut laws = Laws { library: Library::start(driver), chance: Chance::new(61), held: BTreeMap::new() };
    let mut chance = Chance::new(62);
    for _ in 0..times(10_000) {
        let n = chance.length();
        let (_, samples) = samples(&mut chance, n);
        laws.all(&samples, 1 + chance.below(5));
    }
    of_sizes(&mut chance, MIDDLE, times(1_000).div_ceil(100), |_, _, list| laws.all(&Samples::of(&list), 3));
    let Laws { library, held, .. } = laws;
    if held.len() != LAWS {
        fail(format!("{} of {LAWS} laws were held: {held:?}", held.len()));
    }
    let calls = library.end();
    for (law, count) in held {
        println!("laws: {law}: {count} times");
    }
    println!("laws: all hold, by {calls} calls of the library alone ({:.1} s)", start.elapsed().as_secs_f64());
}
