//! Cases of the record writer, in every version and sense: rings of every size, with outputs exactly long enough, one byte short and one longer; almost rings, and
//! lists that are none; versions and senses that there are not.

use super::{choices, fields, output_length, EMPTY};
use crate::driver::{Case, Desk, Lent, WRITE_RECORD};
use crate::gen::{
    almost_ring, input_a, large_ring, ring, rings_of_middle_sizes, smallest_rings, spoil, spoil_lengths, spoil_parts, times, too_many, Chance,
    Samples, MOST_CORNERS,
};
use crate::rules::chain::ring_of;
use crate::rules::record::{write_record, Form, FORMS, HEAD};
use crate::rules::MOST;

/// So many bytes has a record of so many corners.
fn bytes_of(form: Form, corners: usize) -> usize {
    let sense_bytes = if form.version == 2 { 1 } else { 0 };
    HEAD + sense_bytes + 8 * corners
}

fn put(desk: &mut Desk, words: &'static str, form: Form, ring: Samples, out: Vec<u8>) {
    let mut after = out.clone();
    let answer = write_record(form, &ring.east, &ring.north, &mut after);
    desk.put(Case {
        entry: &WRITE_RECORD,
        words,
        scalars: vec![form.version as i64, form.sense as i64],
        lent: vec![Lent::I32(ring.east), Lent::I32(ring.north), Lent::Bytes(out)],
        said: fields(answer.map(|count| vec![count as i64]), 1),
        altered: vec![(2, Lent::Bytes(after))],
    });
}

/// Outputs just long enough, a byte short and a byte longer.
fn put_around(desk: &mut Desk, chance: &mut Chance, words: &'static str, form: Form, ring: &Samples) {
    let enough = bytes_of(form, ring.east.len());
    for length in [enough, enough - 1, enough + 1] {
        put(desk, words, form, ring.clone(), chance.noise_u8(length));
    }
}

pub fn cases(desk: &mut Desk) {
    let mut chance = Chance::new(15);
    every_form(desk, &mut chance);
    every_size(desk, &mut chance);
    for _ in 0..times(300_000) {
        let (words, corners) = if chance.one_in(4) { almost_ring(&mut chance) } else { ring(&mut chance) };
        let mut ring = Samples::of(&corners);
        if chance.one_in(20) {
            spoil_parts(&mut chance, &mut ring);
        }
        if chance.one_in(30) {
            spoil_lengths(&mut chance, &mut ring);
        }
        let form = chance.of(&FORMS);
        let length = output_length(&mut chance, bytes_of(form, corners.len()));
        put(desk, words, form, ring, chance.noise_u8(length));
    }
    largest(desk);
}

/// Every version with every byte for the sense: of a ring, of lists that are refused for something else, and of a ring for which there is no room.
fn every_form(desk: &mut Desk, chance: &mut Chance) {
    let ring = Samples::of(&ring_of(&input_a().positions()));
    for version in 0..=255 {
        for sense in 0..=255 {
            let (form, mut lists) = (Form { version, sense }, ring.clone());
            match chance.below(4) {
                0 => lists.east.truncate(3),
                1 => lists.east[2] = i32::MAX,
                2 => lists.east.rotate_left(1),
                _ => {}
            }
            let length = bytes_of(form, 5) - chance.below(2);
            put(desk, "every version and sense", form, lists, chance.noise_u8(length));
        }
    }
}

/// The smallest rings in every form, and a ring of every size up to some thousands of corners.
fn every_size(desk: &mut Desk, chance: &mut Chance) {
    for corners in smallest_rings() {
        FORMS.into_iter().for_each(|form| put_around(desk, chance, "smallest ring", form, &Samples::of(&corners)));
    }
    for corners in 0..=times(3_000) {
        let form = chance.of(&FORMS);
        put_around(desk, chance, "ring of every size", form, &Samples::of(&large_ring(corners)));
    }
}

/// Rings of middle sizes, almost rings, and lists that are none.
pub fn middle(desk: &mut Desk) {
    let mut chance = Chance::new(55);
    rings_of_middle_sizes(&mut chance, |chance, words, corners| {
        let (form, mut ring) = (chance.of(&FORMS), Samples::of(&corners));
        put_around(desk, chance, words, form, &ring);
        let length = output_length(chance, bytes_of(form, corners.len()));
        spoil(chance, &mut ring);
        put(desk, words, form, ring, chance.noise_u8(length));
    });
}

/// Rings of as many corners as there is room for, and lists too long.
pub fn largest(desk: &mut Desk) {
    let chance = &mut Chance::new(35);
    let ring = Samples::of(&large_ring(MOST_CORNERS));
    for form in FORMS {
        put_around(desk, chance, "as many corners as there is room for", form, &ring);
        put(desk, "most corners, no ring", form, Samples { east: vec![1; MOST], north: vec![1; MOST] }, vec![8; bytes_of(form, MOST)]);
    }
    for long in too_many() {
        let form = chance.of(&FORMS);
        put(desk, "too many corners", form, long.clone(), vec![8; bytes_of(form, MOST + 1)]);
        put(desk, "too many corners, no output", form, long.clone(), Vec::new());
        put(desk, "too many corners, of no version", Form { version: 0, ..form }, long, Vec::new());
    }
}

/// Every choice of lists left empty, of a call that is done where none is.
pub fn empty(desk: &mut Desk) {
    let ring = Samples::of(&ring_of(&input_a().positions()));
    for form in FORMS {
        for choice in choices(3) {
            put(desk, EMPTY, form, choice.of_two(0, &ring), choice.of(2, &vec![9; bytes_of(form, 5)]));
        }
    }
}
