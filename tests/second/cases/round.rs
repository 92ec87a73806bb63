//! Cases of the round: every round from a first list to its bridge.

use super::{choices, enough_scratch, fields, output_length, scratch, EMPTY};
use crate::driver::{Case, Desk, Lent, ROUND};
use crate::gen::{cut, input_a, of_every_kind, of_middle_sizes, place, samples, spoil_lengths, spoil_parts, times, too_many, Chance, Samples};
use crate::rules::round::{round, said, Said};
use crate::rules::{has_bridge, scratch_for, LIMIT, MOST};

struct Round {
    words: &'static str,
    samples: Samples,
    list: Vec<u32>,
    a: i32,
}

impl Round {
    fn put(&self, desk: &mut Desk, output: Vec<u32>, scratch: Vec<u32>) {
        let (mut output_after, mut scratch_after) = (output.clone(), scratch.clone());
        let Samples { east, north } = &self.samples;
        let answer = round(east, north, &self.list, self.a, &mut output_after, &mut scratch_after);
        let others = |said: Said| match said {
            Said::Bridge(left, right) => vec![1, left as i64, right as i64, 0],
            Said::Kept(kept) => vec![2, 0, 0, kept.len() as i64],
        };
        let lent = vec![Lent::I32(east.clone()), Lent::I32(north.clone()), Lent::U32(self.list.clone()), Lent::U32(output), Lent::U32(scratch)];
        desk.put(Case {
            entry: &ROUND,
            words: self.words,
            scalars: vec![self.a as i64],
            lent,
            said: fields(answer.map(others), 4),
            altered: vec![(3, Lent::U32(output_after)), (4, Lent::U32(scratch_after))],
        });
    }

    /// What the round says, if the rules let it say anything.
    fn said(&self) -> Option<Said> {
        let easts = || self.list.iter().map(|&number| self.samples.east[number as usize]);
        has_bridge(easts(), self.a).ok()?;
        Some(said(&self.samples.east, &self.samples.north, &self.list, self.a))
    }

    /// Puts this round and all that follow it, down to the bridge. Each is lent exactly enough; some are also lent more, or too little.
    fn put_all(mut self, desk: &mut Desk, chance: &mut Chance) {
        loop {
            let said = self.said();
            let kept = match &said {
                Some(Said::Kept(kept)) => kept.len(),
                _ => chance.below(3),
            };
            if chance.one_in(4) {
                let length = output_length(chance, kept);
                let (output, scratch) = (chance.noise_u32(length), scratch(chance, self.list.len()));
                self.put(desk, output, scratch);
            }
            let (output, scratch) = (chance.noise_u32(kept), enough_scratch(chance, self.list.len()));
            self.put(desk, output, scratch);
            match said {
                Some(Said::Kept(kept)) => self.list = kept,
                _ => return,
            }
        }
    }
}

/// Numbers of samples as a round may be given them: all in order or not, some, with repeats.
fn numbers(chance: &mut Chance, count: usize) -> Vec<u32> {
    let mut list: Vec<u32> = (0..count as u32).collect();
    match chance.below(6) {
        0 => chance.shuffle(&mut list),
        1 => list.retain(|_| !chance.one_in(3)),
        2 if count > 0 => list = (0..chance.below(2 * count + 1)).map(|_| chance.below(count) as u32).collect(),
        3 if count > 0 => list = (0..chance.below(5)).map(|_| chance.below(count) as u32).collect(),
        4 => {
            let again = list.clone();
            list.extend(again);
            chance.shuffle(&mut list);
        }
        _ => {}
    }
    list
}

pub fn cases(desk: &mut Desk) {
    let mut chance = Chance::new(2);
    soundings(desk, &mut chance);
    every_cut(desk, &mut chance);
    for _ in 0..times(240_000) {
        let n = chance.length();
        let (words, samples) = samples(&mut chance, n);
        let list = numbers(&mut chance, n);
        let a = cut(&mut chance, &samples.east);
        let round = Round { words, samples, list, a };
        if chance.one_in(5) {
            spoiled(desk, &mut chance, round);
        } else {
            round.put_all(desk, &mut chance);
        }
    }
    largest(desk);
}

fn soundings(desk: &mut Desk, chance: &mut Chance) {
    let of_a = |words, list: &[u32], a| Round { words, samples: input_a(), list: list.to_vec(), a };
    of_a("P6", &[3, 4, 5, 2], 1).put_all(desk, chance);
    of_a("P7", &[3, 4, 5, 2], 2).put_all(desk, chance);
    of_a("P8", &[3, 0, 1, 2], 2).put_all(desk, chance);
    for a in -1..=5 {
        of_a("input A, all", &[0, 1, 2, 3, 4, 5, 6], a).put_all(desk, chance);
    }
}

/// Lists of 0 to 6 samples with a at, below and above every east and at the ends of 32 bits.
fn every_cut(desk: &mut Desk, chance: &mut Chance) {
    for _ in 0..times(2_000) {
        let n = chance.below(7);
        let (words, samples) = samples(chance, n);
        let list = numbers(chance, n);
        let mut cuts = vec![i32::MIN, i32::MAX];
        cuts.extend(samples.east.iter().flat_map(|&east| [east - 1, east, east + 1]));
        for a in cuts {
            Round { words, samples: samples.clone(), list: list.clone(), a }.put_all(desk, chance);
        }
    }
}

/// A round with one thing or more that it must refuse.
fn spoiled(desk: &mut Desk, chance: &mut Chance, mut round: Round) {
    let count = round.samples.east.len() as u32;
    if chance.one_in(3) {
        for _ in 0..1 + chance.below(2) {
            let number = chance.of(&[count, count + 1, u32::MAX, 1 << 31, 65_536]);
            let at = place(chance, round.list.len() + 1);
            round.list.insert(at, number);
        }
    }
    if chance.one_in(3) {
        spoil_parts(chance, &mut round.samples);
    }
    if chance.one_in(3) {
        spoil_lengths(chance, &mut round.samples);
    }
    if chance.one_in(4) {
        round.a = chance.of(&[i32::MIN, i32::MAX, -LIMIT - 1, LIMIT]);
    }
    let (output, scratch) = (chance.below(round.list.len() + 2), scratch(chance, round.list.len()));
    let output = chance.noise_u32(output);
    round.put(desk, output, scratch);
}

/// Middle sizes: every round from a first list of samples of every kind to its bridge, and one that is refused.
pub fn middle(desk: &mut Desk) {
    let mut chance = Chance::new(42);
    of_middle_sizes(&mut chance, |chance, words, list| {
        let samples = Samples::of(&list);
        let list = numbers(chance, samples.east.len());
        let a = cut(chance, &samples.east);
        Round { words, samples: samples.clone(), list: list.clone(), a }.put_all(desk, chance);
        spoiled(desk, chance, Round { words, samples, list, a });
    });
}

/// 65,536 samples of every kind, and as many list items; and one more.
pub fn largest(desk: &mut Desk) {
    let mut chance = Chance::new(22);
    for (words, samples) in of_every_kind(&mut chance, MOST) {
        let mut easts = samples.east.clone();
        easts.sort_unstable();
        let list: Vec<u32> = (0..MOST as u32).collect();
        Round { words, samples, list, a: easts[MOST / 3] }.put_all(desk, &mut chance);
    }
    let (_, samples) = samples(&mut chance, 10);
    let list = |length: usize| (0..length).map(|place| place as u32 % 10).collect();
    let exact = |length: usize| Round { words: "few samples, most list items or one more", samples: samples.clone(), list: list(length), a: 0 };
    exact(MOST).put_all(desk, &mut chance);
    exact(MOST + 1).put(desk, vec![9; MOST], vec![7; 16 * (MOST + 1) + 64]);
    for long in too_many() {
        Round { words: "too many samples", samples: long.clone(), list: vec![0, 1, 2], a: 3 }.put(desk, vec![9; 3], vec![7; 200]);
        Round { words: "too many samples, a bad number, no scratch", samples: long, list: vec![u32::MAX], a: 3 }.put(desk, Vec::new(), Vec::new());
    }
    let mut spoilt = samples.clone();
    spoil_parts(&mut chance, &mut spoilt);
    for samples in [samples, spoilt] {
        let list = vec![10; MOST + 1];
        Round { words: "too many list items, bad ones", samples, list, a: 0 }.put(desk, Vec::new(), Vec::new());
    }
}

/// Every choice of lists left empty, of a call that is done where none is.
pub fn empty(desk: &mut Desk) {
    for choice in choices(5) {
        let round = Round { words: EMPTY, samples: choice.of_two(0, &input_a()), list: choice.of(2, &[3, 4, 5, 2]), a: 1 };
        round.put(desk, choice.of(3, &[9; 2]), choice.of(4, &[7; scratch_for(4)]));
    }
}
