//! Cases of the record reader, in every version and sense: whole records, cut ones, ones with bytes too many or a bit flipped, ones of every head, and ones of no
//! envelope.

use super::{choices, fields, output_length, EMPTY};
use crate::driver::{Case, Desk, Lent, RECORD};
use crate::gen::{
    almost_ring, input_a, large_ring, place, ring, rings_of_middle_sizes, smallest_rings, spoil_parts, times, Chance, Samples, MOST_CORNERS,
};
use crate::rules::chain::{at, ring_of};
use crate::rules::record::{record, record_of, Form, FORMS, HEAD};
use crate::rules::MOST;

fn put(desk: &mut Desk, words: &'static str, bytes: Vec<u8>, out_east: Vec<i32>, out_north: Vec<i32>) {
    let (mut east_after, mut north_after) = (out_east.clone(), out_north.clone());
    let answer = record(&bytes, &mut east_after, &mut north_after);
    desk.put(Case {
        entry: &RECORD,
        words,
        scalars: Vec::new(),
        lent: vec![Lent::Bytes(bytes), Lent::I32(out_east), Lent::I32(out_north)],
        said: fields(answer.map(|count| vec![count as i64]), 1),
        altered: vec![(1, Lent::I32(east_after)), (2, Lent::I32(north_after))],
    });
}

fn put_enough(desk: &mut Desk, chance: &mut Chance, words: &'static str, bytes: Vec<u8>) {
    let corners = bytes.len() / 8 + 1;
    put(desk, words, bytes, chance.noise_i32(corners), chance.noise_i32(corners));
}

pub fn cases(desk: &mut Desk) {
    let mut chance = Chance::new(14);
    put_enough(desk, &mut chance, "no byte", Vec::new());
    for form in FORMS {
        for corners in [vec![], vec![at(7, -7)], vec![at(0, 3), at(2, -1)], ring_of(&input_a().positions())] {
            damaged(desk, &mut chance, &record_of(form, &corners));
        }
        for corners in smallest_rings() {
            put_enough(desk, &mut chance, "smallest ring", record_of(form, &corners));
        }
    }
    for _ in 0..times(1_000) {
        let (_, corners) = ring(&mut chance);
        let (_, almost) = almost_ring(&mut chance);
        for list in [corners, almost] {
            let form = chance.of(&FORMS);
            damaged(desk, &mut chance, &record_of(form, &list));
        }
    }
    frames(|words, bytes| put_enough(desk, &mut chance, words, bytes));
    by_chance(desk, &mut chance);
    for _ in 0..times(150_000) {
        let (words, corners) = if chance.one_in(2) { almost_ring(&mut chance) } else { ring(&mut chance) };
        let mut ring = Samples::of(&corners);
        if chance.one_in(8) {
            spoil_parts(&mut chance, &mut ring);
        }
        let (out_east, out_north) = (output_length(&mut chance, corners.len()), output_length(&mut chance, corners.len()));
        let (out_east, out_north) = (chance.noise_i32(out_east), chance.noise_i32(out_north));
        let form = chance.of(&FORMS);
        put(desk, words, record_of(form, &ring.positions()), out_east, out_north);
    }
    largest(desk);
}

/// Records of middle sizes: of rings, of almost rings, and of lists that are none; with outputs exactly long enough and not; with a part beyond the limit, cut,
/// or with a bit flipped.
pub fn middle(desk: &mut Desk) {
    let mut chance = Chance::new(54);
    rings_of_middle_sizes(&mut chance, |chance, words, corners| {
        let form = chance.of(&FORMS);
        let bytes = record_of(form, &corners);
        let outputs = (chance.noise_i32(corners.len()), chance.noise_i32(corners.len()));
        put(desk, words, bytes, outputs.0, outputs.1);
        let mut ring = Samples::of(&corners);
        if chance.one_in(4) {
            spoil_parts(chance, &mut ring);
        }
        let mut bytes = record_of(form, &ring.positions());
        let at = place(chance, bytes.len());
        match chance.below(6) {
            0 => bytes.truncate(at),
            1 => bytes[at] ^= 1 << chance.below(8),
            _ => {}
        }
        let (out_east, out_north) = (output_length(chance, corners.len()), output_length(chance, corners.len()));
        let (out_east, out_north) = (chance.noise_i32(out_east), chance.noise_i32(out_north));
        put(desk, words, bytes, out_east, out_north);
    });
}

/// A record cut at every length, with bytes too many, with each bit before its corners flipped and some others, of the other version.
fn damaged(desk: &mut Desk, chance: &mut Chance, bytes: &[u8]) {
    let before = if bytes[0] == 2 { HEAD + 1 } else { HEAD };
    for length in 0..=bytes.len() {
        put_enough(desk, chance, "cut record", bytes[..length].to_vec());
    }
    for more in 1..=17 {
        let noise = chance.bits().to_le_bytes().repeat(3);
        put_enough(desk, chance, "record with bytes too many", [bytes, &noise[..more]].concat());
    }
    let flipped = |bit: usize| {
        let mut bytes = bytes.to_vec();
        bytes[bit / 8] ^= 1 << (bit % 8);
        bytes
    };
    for bit in 0..8 * before {
        put_enough(desk, chance, "record with a bit of its head flipped", flipped(bit));
    }
    for length in 1..=before {
        for bit in 0..8 * length {
            put_enough(desk, chance, "cut record with a bit flipped", flipped(bit)[..length].to_vec());
        }
    }
    for _ in 0..20 {
        let bit = chance.below(8 * bytes.len());
        put_enough(desk, chance, "record with a bit flipped", flipped(bit));
    }
    put_enough(desk, chance, "record of the other version", [&[3 - bytes[0]], &bytes[1..]].concat());
    // the length fits the bytes that follow, but they are no whole corners
    for more in 1..=9u32 {
        let mut longer = [bytes, &vec![0; more as usize]].concat();
        let length = (longer.len() - HEAD) as u32;
        longer[1..HEAD].copy_from_slice(&length.to_be_bytes());
        put_enough(desk, chance, "record of another length", longer);
    }
}

/// Heads over the corners of a ring, in every version and sense and in none: every length from 0 to 48 said of every number of bytes; lengths around each power of two
/// and up to the greatest; every version; every byte for the sense of no corner, one, two and five, cut and extended at every length. Where nothing is wrong with the
/// head, the corners are an envelope.
pub fn frames(mut put: impl FnMut(&'static str, Vec<u8>)) {
    let corners = [at(0, 0), at(1, 3), at(2, 4), at(3, 3), at(4, 0)];
    let said = |form: Form, length: u32, given: usize| {
        let whole = record_of(form, &corners);
        [&whole[..1], &length.to_be_bytes(), &whole[HEAD..]].concat()[..given].to_vec()
    };
    for form in FORMS.into_iter().chain([Form { version: 2, sense: 2 }]) {
        for given in 0..=record_of(form, &corners).len() {
            for length in 0..=48 {
                put("every length of every number of bytes", said(form, length, given));
            }
            let powers = (0..32).map(|power| 1u32 << power).chain([0]);
            for length in powers.flat_map(|power| (0..=16).map(move |less| power.wrapping_sub(less))) {
                put("length up to the greatest", said(form, length, given));
            }
        }
    }
    for version in 0..=255 {
        for given in 0..=40usize {
            for length in [0, 8, 9, given.saturating_sub(HEAD) as u32] {
                put("every version", said(Form { version, sense: 0 }, length, given));
            }
        }
    }
    for sense in 0..=255 {
        for count in [0, 1, 2, 5] {
            let extended = [record_of(Form { version: 2, sense }, &corners[..count]), vec![sense; 9]].concat();
            (0..=extended.len()).for_each(|given| put("every sense, cut and extended", extended[..given].to_vec()));
        }
    }
}

/// Bytes that mean nothing, and heads that mean little.
fn by_chance(desk: &mut Desk, chance: &mut Chance) {
    for _ in 0..times(20_000) {
        let length = chance.below(30);
        let mut bytes: Vec<u8> = (0..length).map(|_| chance.of(&[0, 1, 2, 8, 9, 16, 17, 24, 25, 255])).collect();
        put_enough(desk, chance, "bytes by chance", bytes.clone());
        let rest = length.saturating_sub(HEAD) as u8;
        let heads = [vec![1, 0, 0, 0, rest], vec![2, 0, 0, 0, rest, chance.below(3) as u8]];
        for (byte, head) in bytes.iter_mut().zip(&heads[chance.below(2)]) {
            *byte = *head;
        }
        put_enough(desk, chance, "bytes by chance under a good head", bytes);
    }
}

/// Records of as many corners as there is room for, and of too many.
pub fn largest(desk: &mut Desk) {
    let chance = &mut Chance::new(34);
    let (enough, corners, long) = (MOST_CORNERS, large_ring(MOST_CORNERS), vec![at(5, 5); MOST + 1]);
    for form in FORMS {
        let bytes = record_of(form, &corners);
        for (out_east, out_north) in [(enough, enough), (enough - 1, enough), (enough, enough - 1), (enough + 1, MOST + 1)] {
            put(desk, "as many corners as there is room for", bytes.clone(), vec![8; out_east], vec![9; out_north]);
        }
        put_enough(desk, chance, "as many corners as there is room for, one byte missing", bytes[..bytes.len() - 1].to_vec());
        let too_many = record_of(form, &long);
        put_enough(desk, chance, "one corner too many, one byte missing", too_many[..too_many.len() - 1].to_vec());
        put_enough(desk, chance, "one corner too many, of another version", [&[0], &too_many[1..]].concat());
        for count in [MOST, MOST + 1] {
            put_enough(desk, chance, "most corners or one more, no ring", record_of(form, &long[..count]));
            put_enough(desk, chance, "most corners or one more, beyond the limit", record_of(form, &vec![at(5, 1_000_001); count]));
        }
    }
    put_enough(desk, chance, "one corner too many, of no sense", record_of(Form { version: 2, sense: 2 }, &long));
}

/// Every choice of lists left empty, of a call that is done where none is.
pub fn empty(desk: &mut Desk) {
    let corners = ring_of(&input_a().positions());
    for form in FORMS {
        for choice in choices(3) {
            put(desk, EMPTY, choice.of(0, &record_of(form, &corners)), choice.of(1, &[9; 5]), choice.of(2, &[9; 5]));
        }
    }
}
