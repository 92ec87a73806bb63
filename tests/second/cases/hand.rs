//! Cases of the ring hand.

use super::fields;
use crate::driver::{Case, Desk, HAND_FOR, HAND_STEP};
use crate::gen::{times, Chance};
use crate::rules::using::{hand_for, hand_step, Hand};

fn put_for(desk: &mut Desk, corners: usize) {
    let said = fields(hand_for(corners).map(|hand| vec![hand.count as i64, hand.place as i64]), 2);
    desk.put(Case { entry: &HAND_FOR, words: "a hand", scalars: vec![corners as i64], lent: Vec::new(), said, altered: Vec::new() });
}

/// A refused step hands back the hand as it came.
fn put_step(desk: &mut Desk, words: &'static str, hand: Hand) {
    let (edge, next) = match hand_step(hand) {
        Ok(((from, to), next)) => (Ok(vec![from as i64, to as i64]), next),
        Err(no) => (Err(no), hand),
    };
    let said = [fields(edge, 2), vec![next.count as i64, next.place as i64]].concat();
    let scalars = vec![hand.count as i64, hand.place as i64];
    desk.put(Case { entry: &HAND_STEP, words, scalars, lent: Vec::new(), said, altered: Vec::new() });
}

const NOTABLE: [usize; 16] =
    [0, 1, 2, 3, 4, 65_534, 65_535, 65_536, 65_537, 65_538, 1 << 31, (1 << 32) - 1, 1 << 32, (1 << 32) + 1, 1 << 63, usize::MAX];

pub fn cases(desk: &mut Desk) {
    let mut chance = Chance::new(6);
    for corners in (0..=300).chain(65_300..=65_800).chain(NOTABLE) {
        put_for(desk, corners);
    }
    for count in NOTABLE {
        for place in NOTABLE {
            put_step(desk, "a hand of any kind", Hand { count, place });
        }
        for off in -3..=3 {
            put_step(desk, "a place near the count", Hand { count, place: count.wrapping_add_signed(off) });
        }
    }
    for corners in (1..=100).chain([65_535, 65_536]) {
        around(desk, corners);
    }
    for _ in 0..times(20_000) {
        let count = chance.below(70_000);
        let place = chance.below(count + 2);
        put_for(desk, count);
        put_step(desk, "a hand by chance", Hand { count, place });
    }
}

/// As many steps as there are corners, and one more.
fn around(desk: &mut Desk, corners: usize) {
    let mut hand = hand_for(corners).expect("a ring has a hand");
    for _ in 0..=corners {
        put_step(desk, "around the ring", hand);
        hand = hand_step(hand).expect("a made hand steps").1;
    }
}
