//! The cases, a module for each entry, and what they share: how much scratch and output is lent, and how a result's fields follow from an answer.

pub mod bridge;
pub mod chains;
pub mod cover;
pub mod hand;
pub mod join;
pub mod laws;
pub mod part;
pub mod pick;
pub mod program;
pub mod readings;
pub mod record;
pub mod ring;
pub mod round;
pub mod soundings;
pub mod stack;
pub mod strongest;
pub mod sum;
pub mod turn_about;
pub mod two_rings;
pub mod write_record;

use crate::driver::{
    Desk, Entry, BRIDGE, CHAINS, COVER, HAND_FOR, HAND_STEP, JOIN, PART, PICK, READINGS, RECORD, RING, ROUND, STRONGEST, SUM, TURN_ABOUT,
    WRITE_RECORD,
};
use crate::gen::{Chance, Samples};
use crate::rules::{scratch_for, Answer};

/// The cases of an entry, or of the two of the hand.
pub struct Cases {
    /// the name by which it is asked for
    pub name: &'static str,
    /// the functions of the C face that it compares
    pub functions: &'static [&'static Entry],
    /// the soundings that are run, with what the rules' own page says of them
    pub soundings: fn(&mut Desk),
    /// short lists, and the largest
    pub all: fn(&mut Desk),
    /// lists of 256 to 65,536 items, of every kind; the hand and one part take no list
    pub middle: Option<fn(&mut Desk)>,
    /// every choice of its lists left empty; the hand and one part take no list
    pub empty: Option<fn(&mut Desk)>,
    /// the cases of as many samples, numbers, readings or corners as are taken, and of one more
    pub largest: fn(&mut Desk),
}

const fn cases(
    name: &'static str,
    functions: &'static [&'static Entry],
    soundings: fn(&mut Desk),
    all: fn(&mut Desk),
    middle: Option<fn(&mut Desk)>,
    empty: Option<fn(&mut Desk)>,
    largest: fn(&mut Desk),
) -> Cases {
    Cases { name, functions, soundings, all, middle, empty, largest }
}

/// Every entry: `face::hold` holds this list to the header.
pub const ENTRIES: [Cases; 15] = [
    cases("pick", &[&PICK], soundings::pick, pick::cases, Some(pick::middle), Some(pick::empty), pick::largest),
    cases("round", &[&ROUND], soundings::round, round::cases, Some(round::middle), Some(round::empty), round::largest),
    cases("bridge", &[&BRIDGE], soundings::bridge, bridge::cases, Some(bridge::middle), Some(bridge::empty), bridge::largest),
    cases("chains", &[&CHAINS], soundings::chains, chains::cases, Some(chains::middle), Some(chains::empty), chains::largest),
    cases("ring", &[&RING], soundings::ring, ring::cases, Some(ring::middle), Some(ring::empty), ring::largest),
    cases("hand", &[&HAND_FOR, &HAND_STEP], soundings::hand, hand::cases, None, None, soundings::hand),
    cases("strongest", &[&STRONGEST], soundings::strongest, strongest::cases, Some(strongest::middle), Some(strongest::empty), strongest::largest),
    cases("cover", &[&COVER], soundings::cover, cover::cases, Some(cover::middle), Some(cover::empty), cover::largest),
    cases(
        "turn_about",
        &[&TURN_ABOUT],
        soundings::turn_about,
        turn_about::cases,
        Some(turn_about::middle),
        Some(turn_about::empty),
        turn_about::largest,
    ),
    cases("join", &[&JOIN], soundings::join, join::cases, Some(join::middle), Some(join::empty), join::largest),
    cases("sum", &[&SUM], soundings::sum, sum::cases, Some(sum::middle), Some(sum::empty), sum::largest),
    cases("part", &[&PART], soundings::part, part::cases, None, None, soundings::part),
    cases("readings", &[&READINGS], soundings::readings, readings::cases, Some(readings::middle), Some(readings::empty), readings::largest),
    cases("record", &[&RECORD], soundings::record, record::cases, Some(record::middle), Some(record::empty), record::largest),
    cases(
        "write_record",
        &[&WRITE_RECORD],
        soundings::write_record,
        write_record::cases,
        Some(write_record::middle),
        Some(write_record::empty),
        write_record::largest,
    ),
];

/// A result's number and place, then its other fields, which are 0 at a refusal.
fn fields(answer: Answer<Vec<i64>>, others: usize) -> Vec<i64> {
    match answer {
        Ok(values) => [vec![0, 0], values].concat(),
        Err(no) => [vec![no.number as i64, no.place as i64], vec![0; others]].concat(),
    }
}

/// Scratch for so many samples, list items or corners of two rings: mostly as long as it must be, else longer, or too short. Mostly noise.
fn scratch(chance: &mut Chance, count: usize) -> Vec<u32> {
    let enough = scratch_for(count);
    let length = match chance.below(24) {
        0 => enough - 1,
        1 => chance.below(enough),
        2 => enough + 1,
        3 => enough + chance.below(40),
        _ => enough,
    };
    match chance.below(12) {
        0 => vec![0; length],
        1 => vec![u32::MAX; length],
        _ => chance.noise_u32(length),
    }
}

/// Scratch that is exactly long enough, full of noise.
fn enough_scratch(chance: &mut Chance, count: usize) -> Vec<u32> {
    chance.noise_u32(scratch_for(count))
}

/// A length for an output list: mostly the result's, else longer, or too short.
fn output_length(chance: &mut Chance, result: usize) -> usize {
    match chance.below(12) {
        0 | 1 => result.saturating_sub(1),
        2 => chance.below(result + 1),
        3 => result + 1,
        4 | 5 => result + chance.below(20),
        _ => result,
    }
}

/// The words for a case in which lists are left empty.
const EMPTY: &str = "lists left empty";

/// Which of an entry's lists are left empty: bit k says it of list k.
struct Choice(u32);

impl Choice {
    fn of<T: Clone>(&self, k: u32, list: &[T]) -> Vec<T> {
        if self.0 >> k & 1 == 1 {
            Vec::new()
        } else {
            list.to_vec()
        }
    }

    /// Lists k and k + 1.
    fn of_two(&self, k: u32, samples: &Samples) -> Samples {
        Samples { east: self.of(k, &samples.east), north: self.of(k + 1, &samples.north) }
    }
}

/// Every choice of one of so many lists or more, each twice: the desk lends the empty lists of one with NULL and those of the next with an address.
fn choices(lists: u32) -> impl Iterator<Item = Choice> {
    (1..1 << lists).flat_map(|choice| [Choice(choice), Choice(choice)])
}
