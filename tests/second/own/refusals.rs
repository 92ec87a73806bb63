//! The order of refusals: an entry is given everything wrong at once, and what it refuses is put right, one thing after another, until it is done. At each
//! step the refusal's number and place are held against the table, and what was lent against what it was.

use super::agree;
use crate::gen::{input_a, Samples};
use crate::rules::chain::{bridge, chains, ring, ring_of};
use crate::rules::door::readings;
use crate::rules::rank::pick;
use crate::rules::record::{record, write_record, Form, FORMS};
use crate::rules::round::round;
use crate::rules::sum::sum;
use crate::rules::using::{cover, hand_for, hand_step, join, strongest, turn_about, Hand, OfTwoRings};
use crate::rules::{scratch_for, Answer, Refusal, MOST};

/// Compares what an entry answered with the number and place wanted, 0 for done, and says that one more step agreed.
fn step<T>(entry: &str, answer: Answer<T>, number: u32, place: usize) -> u64 {
    let got = answer.err().unwrap_or(Refusal { number: 0, place: 0 });
    agree(got, Refusal { number, place }, || format!("a refusal of {entry}"));
    1
}

pub fn check() -> u64 {
    let over_samples = pick_order() + round_order() + bridge_order() + chain_order();
    let over_rings = hand_order() + ring_use_order() + two_ring_order("join", join) + two_ring_order("sum", sum) + sum_order();
    over_samples + over_rings + door_order() + record_order() + write_order()
}

/// So many samples, (3, -4) each.
fn many(count: usize) -> Samples {
    Samples { east: vec![3; count], north: vec![-4; count] }
}

fn pick_order() -> u64 {
    let long = vec![5; MOST + 1];
    step("pick", pick(&long, 0, &mut []), 2, 0)
        + step("pick", pick(&[5, 6], 0, &mut []), 8, 0)
        + step("pick", pick(&[5, 6], 3, &mut []), 8, 0)
        + step("pick", pick(&[], 1, &mut [7; 64]), 8, 0)
        + step("pick", pick(&[5, 6], 2, &mut [7; 95]), 4, 0)
        + step("pick", pick(&[5, 6], 2, &mut [7; 96]), 0, 0)
}

fn round_order() -> u64 {
    let Samples { mut east, mut north } = input_a();
    let mut list = vec![3, 9, 7, 4, 5, 2];
    let (mut output, mut scratch) = (vec![9; 1], vec![7; 100]);
    let mut steps = 0;
    let mut a = 4;
    east[5] = 1_000_001;
    north[4] = i32::MIN;
    north.push(0);
    steps += step("round", round(&east, &north, &list, a, &mut output, &mut scratch), 1, 0);
    north.pop();
    let long = many(MOST + 1);
    steps += step("round", round(&long.east, &long.north, &list, a, &mut output, &mut scratch), 2, 0);
    steps += step("round", round(&east, &north, &vec![9; MOST + 1], a, &mut output, &mut scratch), 2, 0);
    steps += step("round", round(&east, &north, &list, a, &mut output, &mut scratch), 3, 4);
    north[4] = 1;
    steps += step("round", round(&east, &north, &list, a, &mut output, &mut scratch), 3, 5);
    east[5] = 2;
    steps += step("round", round(&east, &north, &list, a, &mut output, &mut scratch), 7, 1);
    list.remove(1);
    steps += step("round", round(&east, &north, &list, a, &mut output, &mut scratch), 7, 1);
    list.remove(1);
    steps += step("round", round(&east, &north, &list, a, &mut output, &mut scratch), 4, 0);
    scratch = vec![7; scratch_for(list.len())];
    steps += step("round", round(&east, &north, &list, a, &mut output, &mut scratch), 6, 0);
    agree((&output, &scratch), (&vec![9; 1], &vec![7; 128]), || "nothing lent is altered".to_string());
    a = 1;
    steps += step("round", round(&east, &north, &list, a, &mut output, &mut scratch), 5, 0);
    agree((&output, &scratch), (&vec![9; 1], &vec![0; 128]), || "refusal 5 leaves the scratch zero".to_string());
    (output, scratch) = (vec![9; 3], vec![7; 130]);
    steps += step("round", round(&east, &north, &list, a, &mut output, &mut scratch), 0, 0);
    agree((&output, &scratch), (&vec![3, 5, 9], &vec![0; 130]), || "what a round leaves".to_string());
    steps
}

fn bridge_order() -> u64 {
    let Samples { mut east, north } = input_a();
    let mut scratch = vec![7; scratch_for(7) - 1];
    let mut steps = step("bridge", bridge(&east[1..], &north, 4, &mut scratch), 1, 0);
    let long = many(MOST + 1);
    steps += step("bridge", bridge(&long.east, &long.north, 4, &mut scratch), 2, 0);
    east[6] = -1_000_001;
    steps += step("bridge", bridge(&east, &north, 4, &mut scratch), 3, 6);
    east[6] = 4;
    steps += step("bridge", bridge(&east, &north, 4, &mut scratch), 4, 0);
    scratch.push(7);
    steps += step("bridge", bridge(&east, &north, 4, &mut scratch), 6, 0);
    steps += step("bridge", bridge(&east, &north, -1, &mut scratch), 6, 0);
    steps += step("bridge", bridge(&[], &[], 0, &mut scratch), 6, 0);
    agree(&scratch, &vec![7; 176], || "nothing lent is altered".to_string());
    steps += step("bridge", bridge(&east, &north, 3, &mut scratch), 0, 0);
    agree(&scratch, &vec![0; 176], || "the scratch is zero".to_string());
    steps
}

fn chain_order() -> u64 {
    let Samples { mut east, north } = input_a();
    let mut scratch = vec![7; scratch_for(7) - 1];
    let (mut upper, mut lower) = (vec![8; 2], vec![9; 2]);
    let mut steps = step("chains", chains(&east[1..], &north, &mut upper, &mut lower, &mut scratch), 1, 0);
    east[2] = -1_000_001;
    steps += step("chains", chains(&east, &north, &mut upper, &mut lower, &mut scratch), 3, 2);
    east[2] = 4;
    steps += step("chains", chains(&east, &north, &mut upper, &mut lower, &mut scratch), 4, 0);
    scratch.push(7);
    steps += step("chains", chains(&east, &north, &mut upper, &mut lower, &mut scratch), 5, 0);
    agree((&upper, &lower, &scratch), (&vec![8; 2], &vec![9; 2], &vec![0; 176]), || "refusal 5 of chains".to_string());
    steps += step("chains", chains(&east, &north, &mut [8; 3], &mut [9; 1], &mut scratch), 5, 0);
    steps += step("chains", chains(&east, &north, &mut [8; 3], &mut lower, &mut scratch), 0, 0);
    steps += step("chains", chains(&[], &[], &mut [], &mut [], &mut [7; 63]), 4, 0);
    steps += step("chains", chains(&[], &[], &mut [], &mut [], &mut [7; 64]), 0, 0);

    let (mut out_east, mut out_north, mut scratch) = (vec![8; 5], vec![9; 4], vec![7; 176]);
    steps += step("ring", ring(&east, &north, &mut out_east, &mut out_north, &mut scratch), 5, 0);
    agree((&out_east, &out_north, &scratch), (&vec![8; 5], &vec![9; 4], &vec![0; 176]), || "refusal 5 of the ring".to_string());
    out_north = vec![9; 6];
    steps += step("ring", ring(&east, &north, &mut out_east, &mut out_north, &mut scratch), 0, 0);
    agree((&out_east, &out_north), (&vec![0, 2, 4, 4, 0], &vec![3, 5, 3, 0, 0, 9]), || "A's ring".to_string());
    let long = many(MOST + 1);
    steps + step("ring", ring(&long.east, &long.north, &mut [], &mut [], &mut []), 2, 0)
}

fn hand_order() -> u64 {
    step("hand", hand_for(0), 10, 0)
        + step("hand", hand_for(1), 0, 0)
        + step("hand", hand_for(MOST), 0, 0)
        + step("hand", hand_for(MOST + 1), 2, 0)
        + step("hand", hand_step(Hand { count: 0, place: 0 }), 10, 0)
        + step("hand", hand_step(Hand { count: 4, place: 3 }), 0, 0)
        + step("hand", hand_step(Hand { count: 4, place: 4 }), 10, 0)
        + step("hand", hand_step(Hand { count: MOST + 1, place: MOST + 1 }), 2, 0)
        + step("hand", hand_step(Hand { count: MOST, place: MOST }), 10, 0)
}

fn ring_use_order() -> u64 {
    let ring = ring_of(&input_a().positions());
    let Samples { mut east, mut north } = Samples::of(&ring);
    let far = 1_000_001;
    let mut steps = 0;
    steps += step("strongest", strongest(&east[1..], &north, far, 0), 1, 0) + step("cover", cover(&east, &north[1..], 0, far), 1, 0);
    let long = many(MOST + 1);
    steps += step("strongest", strongest(&long.east, &long.north, far, 0), 2, 0) + step("cover", cover(&long.east, &long.north, 0, far), 2, 0);
    north[3] = -far;
    steps += step("strongest", strongest(&east, &north, far, 0), 3, 3) + step("cover", cover(&east, &north, 0, far), 3, 3);
    steps += step("turn about", turn_about(&east, &north, &mut [], &mut []), 3, 3);
    north[3] = 0;
    east.rotate_left(1);
    north.rotate_left(1);
    steps += step("strongest", strongest(&east, &north, far, 0), 3, 0) + step("cover", cover(&east, &north, 0, far), 3, 0);
    steps += step("strongest", strongest(&east, &north, 0, 0), 9, 0) + step("cover", cover(&east, &north, 0, 0), 9, 0);
    steps += step("turn about", turn_about(&east, &north, &mut [], &mut []), 9, 0);
    steps += step("strongest", strongest(&[], &[], 0, 0), 10, 0) + step("cover", cover(&[], &[], 0, 0), 0, 0);
    east.rotate_right(1);
    north.rotate_right(1);
    steps += step("strongest", strongest(&east, &north, 0, 0), 11, 0) + step("strongest", strongest(&east, &north, 0, 1), 0, 0);
    steps += step("turn about", turn_about(&east, &north, &mut [9; 5], &mut [9; 4]), 5, 0);
    steps += step("turn about", turn_about(&east, &north, &mut [9; 5], &mut [9; 5]), 0, 0);
    steps + step("turn about", turn_about(&long.east, &long.north, &mut [], &mut []), 2, 0)
}

/// An entry over two rings; of two that are equal it makes one of as many corners.
fn two_ring_order(name: &str, entry: OfTwoRings) -> u64 {
    let good: (&[i32], &[i32]) = (&[0, 2, 4], &[0, 5, 0]);
    let uneven: (&[i32], &[i32]) = (&[0, 2], &[0, 5, 0]);
    let far: (&[i32], &[i32]) = (&[0, 2, 1_000_001], &[0, 5, 0]);
    let no_ring: (&[i32], &[i32]) = (&[2, 0, 4], &[5, 0, 0]);
    let long = many(MOST + 1);
    let long: (&[i32], &[i32]) = (&long.east, &long.north);
    let tell = |first, second| entry(first, second, &mut [9; 2], &mut [9; 3], &mut [7; 159]);
    let mut steps = 0;
    for (bad, number, place) in [(uneven, 1, 0), (long, 2, 0), (far, 3, 2), (no_ring, 9, 0)] {
        for other in [good, uneven, long, far, no_ring] {
            steps += step(name, tell(bad, other), number, place);
        }
        steps += step(name, tell(good, bad), number, place);
    }
    let mut scratch = vec![7; 160];
    steps += step(name, tell(good, good), 4, 0);
    steps += step(name, entry(good, good, &mut [9; 2], &mut [9; 3], &mut scratch), 5, 0);
    agree(scratch, vec![0; 160], || "refusal 5 leaves the scratch zero".to_string());
    steps + step(name, entry(good, good, &mut [9; 3], &mut [9; 3], &mut [7; 160]), 0, 0)
}

/// Two corners whose sum is at the limit on a side, then one beyond it: 4 before 19, 19 before 5. Nothing lent is altered by 19.
fn sum_order() -> u64 {
    let mut steps = 0;
    for (x, y) in [(1, 0), (-1, 0), (0, 1), (0, -1)] {
        let corner = |by: i32| ([by * x], [by * y]);
        let (one, at, beyond) = (corner(400_000), corner(600_000), corner(600_001));
        let mut tell = |second: &([i32; 1], [i32; 1]), room: usize, words: usize, number: u32| {
            let (mut east, mut north, mut scratch) = (vec![8; room], vec![9; 1], vec![7; words]);
            let answer = sum((&one.0, &one.1), (&second.0, &second.1), &mut east, &mut north, &mut scratch);
            steps += step("sum", answer, number, 0);
            let left = match number {
                0 => (vec![1_000_000 * x; 1], vec![1_000_000 * y; 1], vec![0; words]),
                5 => (vec![8; room], vec![9; 1], vec![0; words]),
                _ => (vec![8; room], vec![9; 1], vec![7; words]),
            };
            agree((east, north, scratch), left, || format!("what a sum leaves that is answered {number}"));
        };
        tell(&beyond, 0, 95, 4);
        tell(&beyond, 0, 96, 19);
        tell(&beyond, 1, 96, 19);
        tell(&at, 0, 95, 4);
        tell(&at, 0, 96, 5);
        tell(&at, 1, 96, 0);
    }
    let far: (&[i32], &[i32]) = (&[1_000_000], &[1_000_000]);
    steps += step("sum", sum(far, (&[], &[]), &mut [], &mut [], &mut [7; 79]), 4, 0);
    steps += step("sum", sum(far, (&[], &[]), &mut [], &mut [], &mut [7; 80]), 0, 0);
    steps + step("sum", sum((&[], &[]), far, &mut [], &mut [], &mut [7; 80]), 0, 0)
}

fn door_order() -> u64 {
    let [half, far, none, one] = [0.5, 2e6, f64::NAN, 1.0].map(f64::to_bits);
    let mut steps = 0;
    let mut tell = |east: &[u64], north: &[u64], number: u32, place: usize, back: u64| {
        let mut outputs = ([9; 1], [9; 2]);
        let no = readings(east, north, &mut outputs.0, &mut outputs.1).expect_err("an output is short");
        agree((no.refusal, no.back), (Refusal { number, place }, back), || "a refusal of readings".to_string());
        agree(outputs, ([9; 1], [9; 2]), || "nothing lent is altered".to_string());
        steps += 1;
    };
    tell(&[none], &[none, half], 1, 0, 0);
    tell(&vec![none; MOST + 1], &vec![none; MOST + 1], 2, 0, 0);
    tell(&[none, half], &[far, half], 12, 0, 0);
    tell(&[far, half], &[none, half], 13, 0, far);
    tell(&[one, half], &[one, none], 14, 1, half);
    tell(&[one, one], &[one, none], 12, 1, 0);
    tell(&[one, one], &[one, one], 5, 0, 0);
    steps
}

fn record_order() -> u64 {
    let whole = [1, 0, 0, 0, 16, 0, 0, 0, 0, 0, 0, 0, 0, 0, 0, 0, 4, 0, 0, 0, 0];
    let mut steps = 0;
    let mut tell = |bytes: &[u8], number: u32, place: usize| steps += step("record", record(bytes, &mut [9; 1], &mut [9; 2]), number, place);
    tell(&[], 17, 0);
    tell(&[3], 16, 0);
    tell(&[0, 0, 0], 16, 0);
    tell(&[1], 17, 1);
    tell(&[1, 0, 0], 17, 3);
    tell(&[1, 0, 0, 0], 17, 4);
    tell(&[1, 0, 0, 0, 0], 0, 0);
    tell(&[1, 0, 0, 0, 0, 1], 20, 5);
    tell(&[1, 0, 0, 0, 7, 0], 21, 1);
    tell(&[1, 0, 0, 0, 7, 0, 0, 0, 7, 0, 0, 0], 21, 1);
    tell(&[1, 0, 0, 0, 7, 0, 0, 0, 7, 0, 0, 0, 7, 0], 21, 1);
    tell(&[1, 255, 255, 255, 248, 0], 17, 6);
    tell(&[1, 255, 255, 255, 255, 0], 21, 1);
    tell(&whole[..20], 17, 20);
    tell(&[&whole[..], &[0]].concat(), 20, 21);
    tell(&whole, 5, 0);
    let mut changed = whole;
    changed[8] = 7;
    tell(&changed, 9, 0);
    changed[17] = 0x80;
    tell(&changed, 3, 1);
    changed[0] = 3;
    tell(&changed, 16, 0);
    let count = MOST as u32 + 1;
    tell(&[&[1][..], &(8 * count).to_be_bytes(), &vec![0x7f; 8 * count as usize]].concat(), 2, 0);
    // version 2: everything wrong, and put right one after another
    let mut bytes = vec![3, 0, 0, 0];
    tell(&bytes, 16, 0);
    bytes[0] = 2;
    tell(&bytes, 17, 4);
    bytes.extend([16, 7, 0x80, 0, 0, 4, 0, 0, 0, 0, 0x80, 0, 0, 0, 0, 0, 0]);
    tell(&bytes, 21, 1);
    bytes[4] = 0;
    tell(&bytes, 21, 1);
    bytes[4] = 17;
    tell(&bytes, 17, 21);
    bytes.extend([0, 0]);
    tell(&bytes, 20, 22);
    bytes.pop();
    tell(&bytes, 22, 5);
    bytes[5] = 1;
    tell(&bytes, 3, 0);
    bytes[6] = 0;
    tell(&bytes, 3, 1);
    bytes[14] = 0;
    tell(&bytes, 9, 0);
    bytes.swap(9, 17);
    tell(&bytes, 5, 0);
    tell(&[2, 0, 0, 0, 1, 1], 0, 0);
    let length = (8 * count + 1).to_be_bytes();
    for (sense, number, place) in [(2, 22, 5), (1, 2, 0)] {
        tell(&[&[2][..], &length, &[sense], &vec![0x7f; 8 * count as usize]].concat(), number, place);
    }
    steps
}

fn write_order() -> u64 {
    let mut steps = 0;
    let mut tell = |form: Form, east: &[i32], north: &[i32], room: usize, number: u32, place: usize| {
        let mut out = vec![9; room];
        steps += step("write_record", write_record(form, east, north, &mut out), number, place);
        agree(number != 0 && out.iter().any(|&byte| byte != 9), false, || "an output altered by a refusal".to_string());
    };
    for (version, sense, number) in [(0, 2, 16), (3, 0, 16), (255, 1, 16), (1, 1, 22), (1, 2, 22), (2, 2, 22), (2, 255, 22)] {
        tell(Form { version, sense }, &[4, 0, 1_000_001], &[0, i32::MIN], 0, number, 0);
    }
    let long = many(MOST + 1);
    for (form, enough) in FORMS.into_iter().zip([29, 30, 30]) {
        let (mut east, mut north) = (vec![4, 0, 1_000_001], vec![0, i32::MIN]);
        tell(form, &east, &north, 0, 1, 0);
        north.push(0);
        tell(form, &long.east, &long.north, 0, 2, 0);
        tell(form, &east, &north, 0, 3, 1);
        north[1] = 0;
        tell(form, &east, &north, 0, 3, 2);
        east[2] = 1;
        tell(form, &east, &north, 0, 9, 0);
        east = vec![0, 1, 4];
        north[1] = 5;
        tell(form, &east, &north, enough - 1, 5, 0);
        tell(form, &east, &north, enough, 0, 0);
        tell(form, &[], &[], enough - 25, 5, 0);
        tell(form, &[], &[], enough - 24, 0, 0);
    }
    steps
}
