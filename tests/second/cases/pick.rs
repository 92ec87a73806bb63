//! Cases of the rank picker: lists of every span, ranks at the ends and beyond them.

use super::{choices, enough_scratch, fields, scratch, EMPTY};
use crate::driver::{Case, Desk, Lent, PICK};
use crate::gen::{of_middle_sizes, times, Chance, Samples};
use crate::rules::rank::pick;
use crate::rules::{scratch_for, MOST};

fn put(desk: &mut Desk, words: &'static str, numbers: Vec<i32>, rank: usize, scratch: Vec<u32>) {
    let mut after = scratch.clone();
    let said = fields(pick(&numbers, rank, &mut after).map(|value| vec![value as i64]), 1);
    let lent = vec![Lent::I32(numbers), Lent::U32(scratch)];
    desk.put(Case { entry: &PICK, words, scalars: vec![rank as i64], lent, said, altered: vec![(1, Lent::U32(after))] });
}

type Maker = fn(&mut Chance, usize) -> Vec<i32>;

const KINDS: [(&str, Maker); 10] = [
    ("one value", |chance, n| vec![chance.bits() as i32; n]),
    ("two values", |chance, n| (0..n).map(|_| chance.of(&[-1, 0])).collect()),
    ("few values", |chance, n| (0..n).map(|_| chance.between(-3, 3) as i32).collect()),
    ("some values", |chance, n| (0..n).map(|_| chance.between(-100, 100) as i32).collect()),
    ("all 32 bits", |chance, n| chance.noise_i32(n)),
    ("ends of 32 bits", |chance, n| (0..n).map(|_| chance.of(&[i32::MIN, i32::MIN + 1, -1, 0, 1, i32::MAX - 1, i32::MAX])).collect()),
    ("rising", |_, n| (0..n as i32).collect()),
    ("falling", |_, n| (0..n as i32).rev().collect()),
    ("rising and falling", |_, n| (0..n).map(|k| k.min(n - k) as i32).collect()),
    ("one value but for one", |chance, n| {
        let mut list = vec![7; n];
        if n > 0 {
            list[chance.below(n)] = chance.of(&[6, 8, i32::MIN, i32::MAX]);
        }
        list
    }),
];

pub fn cases(desk: &mut Desk) {
    let mut chance = Chance::new(1);
    every_rank(desk, &mut chance);
    ranks_at_the_ends(desk, &mut chance);
    for _ in 0..times(180_000) {
        let n = chance.length();
        let (words, maker) = chance.of(&KINDS);
        let rank = match chance.below(12) {
            0 => 0,
            1 => n + 1,
            2 => chance.of(&[n + 2, 65_537, 1 << 32, usize::MAX]),
            _ => 1 + chance.below(n.max(1)),
        };
        let (numbers, scratch) = (maker(&mut chance, n), scratch(&mut chance, n));
        put(desk, words, numbers, rank, scratch);
    }
    largest(desk);
}

fn every_rank(desk: &mut Desk, chance: &mut Chance) {
    for n in 0..=40 {
        for (words, maker) in KINDS {
            let numbers = maker(chance, n);
            for rank in 0..=n + 1 {
                let scratch = enough_scratch(chance, n);
                put(desk, words, numbers.clone(), rank, scratch);
            }
        }
    }
}

fn ranks_at_the_ends(desk: &mut Desk, chance: &mut Chance) {
    for n in 3..=400 {
        let (words, maker) = chance.of(&KINDS);
        let numbers = maker(chance, n);
        for rank in [0, 1, 2, 3, n / 2, n - 2, n - 1, n, n + 1, usize::MAX] {
            for length in [scratch_for(n) - 1, scratch_for(n), scratch_for(n) + 3] {
                let scratch = chance.noise_u32(length);
                put(desk, words, numbers.clone(), rank, scratch);
            }
        }
    }
}

/// Middle sizes: the easts and the norths of samples of every kind, and numbers of every kind above.
pub fn middle(desk: &mut Desk) {
    let mut chance = Chance::new(41);
    of_middle_sizes(&mut chance, |chance, words, list| {
        let n = list.len();
        let (own_words, maker) = chance.of(&KINDS);
        let (Samples { east, north }, own) = (Samples::of(&list), maker(chance, n));
        for (words, numbers) in [(words, east), (words, north), (own_words, own)] {
            let rank = 1 + chance.below(n);
            let exact = enough_scratch(chance, n);
            put(desk, words, numbers.clone(), rank, exact);
            let any = chance.of(&[0, 1, 2, n / 2, n - 1, n, n + 1, 65_537, usize::MAX]);
            let scratch = scratch(chance, n);
            put(desk, words, numbers, any, scratch);
        }
    });
}

/// 65,536 numbers of every kind, and one more.
pub fn largest(desk: &mut Desk) {
    let mut chance = Chance::new(21);
    for (words, maker) in KINDS {
        let numbers = maker(&mut chance, MOST);
        for rank in [1, MOST / 2, MOST] {
            let scratch = enough_scratch(&mut chance, MOST);
            put(desk, words, numbers.clone(), rank, scratch);
        }
    }
    let (_, maker) = KINDS[4];
    let most = maker(&mut chance, MOST);
    put(desk, "most numbers, scratch short", most.clone(), 1, vec![5; scratch_for(MOST) - 1]);
    put(desk, "most numbers, rank beyond", most, MOST + 1, vec![5; scratch_for(MOST)]);
    for rank in [0, 1, MOST, MOST + 1, MOST + 2] {
        let (numbers, scratch) = (maker(&mut chance, MOST + 1), enough_scratch(&mut chance, MOST + 1));
        put(desk, "one number too many", numbers, rank, scratch);
    }
    let numbers = maker(&mut chance, MOST + 1);
    put(desk, "one number too many, no scratch", numbers, 1, Vec::new());
}

/// Every choice of lists left empty, of a call that is done where none is.
pub fn empty(desk: &mut Desk) {
    for choice in choices(2) {
        put(desk, EMPTY, choice.of(0, &[3, 1, 2]), 2, choice.of(1, &[7; scratch_for(3)]));
    }
}
