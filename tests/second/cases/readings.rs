//! Cases of readings: good ones, and the bad one in every place.

use super::part::{NOT_NUMBERS, SPECIAL};
use super::{choices, output_length, EMPTY};
use crate::driver::{Case, Desk, Lent, READINGS};
use crate::gen::{of_middle_sizes, place, times, Chance};
use crate::rules::chain::Position;
use crate::rules::door::readings;
use crate::rules::MOST;

#[derive(Clone)]
struct Readings {
    east: Vec<u64>,
    north: Vec<u64>,
}

fn put(desk: &mut Desk, words: &'static str, lists: Readings, out_east: Vec<i32>, out_north: Vec<i32>) {
    let (mut east_after, mut north_after) = (out_east.clone(), out_north.clone());
    let said = match readings(&lists.east, &lists.north, &mut east_after, &mut north_after) {
        Ok(count) => vec![0, 0, count as i64, 0],
        Err(no) => vec![no.refusal.number as i64, no.refusal.place as i64, 0, no.back as i64],
    };
    desk.put(Case {
        entry: &READINGS,
        words,
        scalars: Vec::new(),
        lent: vec![Lent::F64(lists.east), Lent::F64(lists.north), Lent::I32(out_east), Lent::I32(out_north)],
        said,
        altered: vec![(2, Lent::I32(east_after)), (3, Lent::I32(north_after))],
    });
}

fn good(chance: &mut Chance) -> u64 {
    let part = match chance.below(8) {
        0 => return (-0.0f64).to_bits(),
        1 => chance.of(&[-1_000_000, 1_000_000, -999_999, 0]),
        _ => chance.between(-1_000_000, 1_000_000),
    };
    (part as f64).to_bits()
}

fn bad(chance: &mut Chance) -> u64 {
    match chance.below(5) {
        0 => chance.of(&NOT_NUMBERS),
        1 => chance.of(&SPECIAL).to_bits() | (chance.bits() & 1 << 63),
        2 => (chance.between(-1_000_000, 1_000_000) as f64 + 0.5).to_bits(),
        3 => (chance.of(&[1_000_001.0, -1_000_001.0, 1_000_000.5, f64::INFINITY, f64::NEG_INFINITY])).to_bits(),
        _ => chance.bits(),
    }
}

fn good_lists(chance: &mut Chance, n: usize) -> Readings {
    Readings { east: (0..n).map(|_| good(chance)).collect(), north: (0..n).map(|_| good(chance)).collect() }
}

pub fn cases(desk: &mut Desk) {
    let mut chance = Chance::new(13);
    bad_in_every_place(desk, &mut chance);
    for _ in 0..times(100_000) {
        let n = chance.length();
        let mut lists = good_lists(&mut chance, n);
        for _ in 0..chance.below(3) {
            let list = if chance.one_in(2) { &mut lists.east } else { &mut lists.north };
            if n > 0 {
                list[chance.below(n)] = bad(&mut chance);
            }
        }
        if chance.one_in(12) {
            let more = good(&mut chance);
            (if chance.one_in(2) { &mut lists.east } else { &mut lists.north }).push(more);
        }
        let (out_east, out_north) = (output_length(&mut chance, n), output_length(&mut chance, n));
        let (out_east, out_north) = (chance.noise_i32(out_east), chance.noise_i32(out_north));
        put(desk, "readings by chance", lists, out_east, out_north);
    }
    largest(desk);
}

/// Middle sizes: the parts of samples of every kind as floats; and with a bad one, or outputs too short.
pub fn middle(desk: &mut Desk) {
    let mut chance = Chance::new(53);
    of_middle_sizes(&mut chance, |chance, words, list| {
        let n = list.len();
        let floats = |part: fn(&Position) -> i64| -> Vec<u64> { list.iter().map(|p| (part(p) as f64).to_bits()).collect() };
        let mut lists = Readings { east: floats(|p| p.east), north: floats(|p| p.north) };
        put(desk, words, lists.clone(), chance.noise_i32(n), chance.noise_i32(n));
        for _ in 0..chance.below(3) {
            let place = place(chance, n);
            (if chance.one_in(2) { &mut lists.east } else { &mut lists.north })[place] = bad(chance);
        }
        if chance.one_in(8) {
            (if chance.one_in(2) { &mut lists.east } else { &mut lists.north }).pop();
        }
        let (out_east, out_north) = (output_length(chance, n), output_length(chance, n));
        let (out_east, out_north) = (chance.noise_i32(out_east), chance.noise_i32(out_north));
        put(desk, words, lists, out_east, out_north);
    });
}

fn bad_in_every_place(desk: &mut Desk, chance: &mut Chance) {
    for n in 0..=40 {
        let lists = good_lists(chance, n);
        for (out_east, out_north) in [(n, n), (n.saturating_sub(1), n), (n, n.saturating_sub(1)), (n + 5, n + 1)] {
            put(desk, "good readings", lists.clone(), chance.noise_i32(out_east), chance.noise_i32(out_north));
        }
        for place in 0..n {
            for (in_east, in_north) in [(true, false), (false, true), (true, true)] {
                let mut lists = lists.clone();
                if in_east {
                    lists.east[place] = bad(chance);
                }
                if in_north {
                    lists.north[place] = bad(chance);
                }
                put(desk, "one bad reading", lists, chance.noise_i32(n), chance.noise_i32(n));
            }
        }
    }
}

/// 65,536 readings, and one more.
pub fn largest(desk: &mut Desk) {
    let chance = &mut Chance::new(33);
    let mut lists = good_lists(chance, MOST);
    put(desk, "most readings", lists.clone(), vec![8; MOST], vec![9; MOST]);
    put(desk, "most readings, output one short", lists.clone(), vec![8; MOST - 1], vec![9; MOST]);
    put(desk, "most readings, output one short", lists.clone(), vec![8; MOST], vec![9; MOST - 1]);
    lists.north[MOST - 1] = 0.5f64.to_bits();
    put(desk, "most readings, the last one bad", lists, vec![8; MOST], vec![9; MOST]);
    let mut lists = good_lists(chance, MOST + 1);
    put(desk, "one reading too many", lists.clone(), vec![8; MOST + 1], vec![9; MOST + 1]);
    lists.east[0] = f64::NAN.to_bits();
    put(desk, "one reading too many, the first one bad", lists.clone(), Vec::new(), Vec::new());
    lists.east.pop();
    put(desk, "one north too many", lists, Vec::new(), Vec::new());
}

/// Every choice of lists left empty, of a call that is done where none is.
pub fn empty(desk: &mut Desk) {
    let whole = [1f64, -2.0, 3.0].map(f64::to_bits);
    for choice in choices(4) {
        let lists = Readings { east: choice.of(0, &whole), north: choice.of(1, &whole) };
        put(desk, EMPTY, lists, choice.of(2, &[9; 3]), choice.of(3, &[9; 3]));
    }
}
