//! What the cases of the entries over two rings share, join and sum: what is lent, with which outputs and scratch, at which sizes.

use super::{choices, enough_scratch, fields, output_length, scratch, EMPTY};
use crate::driver::{Case, Desk, Entry, Lent};
use crate::gen::{
    almost_ring, changed, large_ring, of_every_kind, of_middle_sizes, ring, spoil_lengths, spoil_parts, too_many, Chance, Samples, MOST_CORNERS,
};
use crate::rules::chain::{at, ring_of, Position};
use crate::rules::using::OfTwoRings;
use crate::rules::{scratch_for, LIMIT, MOST};

pub struct TwoRings {
    pub entry: &'static Entry,
    pub rules: OfTwoRings,
    /// the ring that is made of two
    pub made: fn(&[Position], &[Position]) -> Vec<Position>,
    /// positions as those of two rings must be that are not refused for how far they reach: for a sum half as far, as they are for a join
    pub fitting: fn(&[Position]) -> Vec<Position>,
    /// a ring beside another one, and how it stands to it
    pub beside: fn(&mut Chance, &[Position]) -> (&'static str, Vec<Position>),
}

pub struct Outputs {
    pub east: Vec<i32>,
    pub north: Vec<i32>,
    pub scratch: Vec<u32>,
}

/// Outputs and scratch of so many words, each list of one number.
pub fn outputs(east: usize, north: usize, scratch: usize) -> Outputs {
    Outputs { east: vec![8; east], north: vec![9; north], scratch: vec![7; scratch] }
}

impl TwoRings {
    pub fn put(&self, desk: &mut Desk, words: &'static str, first: Samples, second: Samples, outputs: Outputs) {
        let Outputs { east, north, scratch } = outputs;
        let (mut east_after, mut north_after, mut scratch_after) = (east.clone(), north.clone(), scratch.clone());
        let answer = (self.rules)((&first.east, &first.north), (&second.east, &second.north), &mut east_after, &mut north_after, &mut scratch_after);
        let rings = [first.east, first.north, second.east, second.north].map(Lent::I32);
        desk.put(Case {
            entry: self.entry,
            words,
            scalars: Vec::new(),
            lent: rings.into_iter().chain([Lent::I32(east), Lent::I32(north), Lent::U32(scratch)]).collect(),
            said: fields(answer.map(|count| vec![count as i64]), 1),
            altered: vec![(4, Lent::I32(east_after)), (5, Lent::I32(north_after)), (6, Lent::U32(scratch_after))],
        });
    }

    /// Two rings with outputs and scratch that are exactly long enough, full of noise.
    pub fn put_whole(&self, desk: &mut Desk, chance: &mut Chance, words: &'static str, first: &[Position], second: &[Position]) {
        let corners = (self.made)(first, second).len();
        let (east, north) = (chance.noise_i32(corners), chance.noise_i32(corners));
        let outputs = Outputs { east, north, scratch: enough_scratch(chance, first.len() + second.len()) };
        self.put(desk, words, Samples::of(first), Samples::of(second), outputs);
    }

    /// Two rings or almost rings, with outputs and scratch that need not be long enough; now and then spoilt.
    pub fn put_damaged(&self, desk: &mut Desk, chance: &mut Chance, words: &'static str, first: &[Position], second: &[Position]) {
        let corners = (self.made)(first, second).len();
        let (east, north) = (output_length(chance, corners), output_length(chance, corners));
        let outputs = Outputs { east: chance.noise_i32(east), north: chance.noise_i32(north), scratch: scratch(chance, first.len() + second.len()) };
        let mut rings = [Samples::of(first), Samples::of(second)];
        for ring in &mut rings {
            if chance.one_in(40) {
                spoil_parts(chance, ring);
            }
            if chance.one_in(60) {
                spoil_lengths(chance, ring);
            }
        }
        let [first, second] = rings;
        self.put(desk, words, first, second, outputs);
    }

    /// Positions, mostly fitting.
    fn taken(&self, chance: &mut Chance, list: &[Position]) -> Vec<Position> {
        if chance.one_in(6) {
            list.to_vec()
        } else {
            (self.fitting)(list)
        }
    }

    /// The ring of samples of some kind, mostly fitting.
    pub fn ring(&self, chance: &mut Chance) -> Vec<Position> {
        let (_, ring) = ring(chance);
        ring_of(&self.taken(chance, &ring))
    }

    /// A ring, and one beside it; now and then one of them is almost a ring.
    pub fn pair(&self, desk: &mut Desk, chance: &mut Chance) {
        let mut first = self.ring(chance);
        let (mut words, mut second) = (self.beside)(chance, &first);
        if chance.one_in(12) {
            (words, first) = almost_ring(chance);
        }
        if chance.one_in(12) {
            (words, second) = almost_ring(chance);
        }
        if chance.one_in(2) {
            (first, second) = (second, first);
        }
        self.put_damaged(desk, chance, words, &first, &second);
    }

    /// Some rings taken two by two until one is left.
    pub fn grouping(&self, desk: &mut Desk, chance: &mut Chance, words: &'static str, mut rings: Vec<Vec<Position>>) {
        while rings.len() > 1 {
            let first = rings.swap_remove(chance.below(rings.len()));
            let second = rings.swap_remove(chance.below(rings.len()));
            self.put_whole(desk, chance, words, &first, &second);
            rings.push((self.made)(&first, &second));
        }
    }

    /// Each two of a ring, one that reaches as far as it may, and lists that are refused with 1, 2, 3 and 9; each with too little scratch and enough, with no
    /// outputs, short ones and enough.
    pub fn refusals(&self, desk: &mut Desk) {
        let samples = |east: &[i32], north: &[i32]| Samples { east: east.to_vec(), north: north.to_vec() };
        let rings = [
            samples(&[0, 2, 4], &[0, 5, 0]),
            samples(&[-LIMIT, LIMIT, -LIMIT], &[LIMIT, -LIMIT, -LIMIT]),
            samples(&[0, 2], &[0, 5, 0]),
            Samples { east: vec![0; MOST + 1], north: vec![LIMIT + 1; MOST + 1] },
            samples(&[2, 0, 4], &[0, -LIMIT - 1, 0]),
            samples(&[2, 0, 4], &[5, 0, 0]),
        ];
        for first in &rings {
            for second in &rings {
                // no scratch is looked at where there are too many corners
                let both = (first.east.len() + second.east.len()).min(6);
                for scratch in [scratch_for(both) - 1, scratch_for(both)] {
                    for room in [0, 2, 6] {
                        self.put(desk, "each refusal before each", first.clone(), second.clone(), outputs(room, 6, scratch));
                        self.put(desk, "each refusal before each", first.clone(), second.clone(), outputs(6, room, scratch));
                    }
                }
            }
        }
    }

    /// Middle sizes: the rings of both halves of samples of every kind; a ring of as many corners as half of them, beside another one; one of as many as all of
    /// them, beside a small one; rings changed by a little, and lists that are no rings.
    pub fn middle(&self, desk: &mut Desk, chance: &mut Chance) {
        of_middle_sizes(chance, |chance, words, list| {
            let taken = self.taken(chance, &list);
            let (front, back) = taken.split_at(list.len() / 2);
            let (first, second) = (ring_of(front), ring_of(back));
            let (wide, widest) = (large_ring(front.len()), large_ring(list.len().min(MOST_CORNERS)));
            let ((_, other), small) = ((self.beside)(chance, &wide), self.ring(chance));
            for (first, second) in [(&first, &second), (&wide, &other), (&first, &wide), (&widest, &small), (&small, &widest)] {
                self.put_whole(desk, chance, words, first, second);
                self.put_damaged(desk, chance, words, first, second);
            }
            let (almost, almost_wide) = (changed(chance, first.clone()).1, changed(chance, wide.clone()).1);
            for (first, second) in
                [(&almost[..], &wide[..]), (&wide, &almost), (&almost_wide, &first), (&first, &almost_wide), (&list, &small), (&small, &list)]
            {
                self.put_damaged(desk, chance, words, first, second);
            }
        });
    }

    /// The rings of both halves of 65,536 samples of every kind; 65,536 corners of both, and one more.
    pub fn largest(&self, desk: &mut Desk, chance: &mut Chance) {
        for (words, samples) in of_every_kind(chance, MOST) {
            let positions = (self.fitting)(&samples.positions());
            self.put_whole(desk, chance, words, &ring_of(&positions[..MOST / 2]), &ring_of(&positions[MOST / 2..]));
        }
        let half = large_ring(MOST / 2);
        let moved: Vec<Position> = half.iter().map(|p| at(p.east + 1000, p.north - 77)).collect();
        for second in [&half, &moved] {
            self.put_whole(desk, chance, "65,536 corners of both", &half, second);
        }
        let corners = (self.made)(&half, &moved).len();
        let rings = || (Samples::of(&half), Samples::of(&moved));
        let (first, second) = rings();
        self.put(desk, "65,536 corners of both, output one short", first, second, outputs(corners, corners - 1, scratch_for(MOST)));
        let (first, second) = rings();
        self.put(desk, "65,536 corners of both, scratch one short", first, second, outputs(corners, corners, scratch_for(MOST) - 1));
        let (first, second) = (Samples::of(&half), Samples::of(&large_ring(MOST / 2 + 1)));
        self.put(desk, "65,537 corners of both", first.clone(), second.clone(), outputs(MOST, MOST, scratch_for(2 * MOST)));
        self.put(desk, "65,537 corners of both", second, first, outputs(0, 0, 0));
        let no_ring = Samples { east: vec![1; MOST], north: vec![1; MOST] };
        for many in too_many().into_iter().chain([no_ring]) {
            let one = Samples { east: vec![5], north: vec![5] };
            self.put(desk, "a first ring of too many corners, or no ring", many.clone(), one.clone(), outputs(1, 1, scratch_for(MOST + 2)));
            self.put(desk, "a second ring of too many corners, or no ring", one, many, outputs(0, 0, 0));
        }
        let (first, mut second) = rings();
        second.north[0] += 2;
        self.put(desk, "a second ring that is none", first.clone(), second.clone(), outputs(1, 1, scratch_for(MOST)));
        second.east.extend([7, 7]);
        second.north.extend([7, 7]);
        self.put(desk, "65,538 corners of both, of a second ring that is none", first, second, outputs(1, 1, 0));
    }

    /// Every choice of lists left empty, of a call that is done where none is.
    pub fn empty(&self, desk: &mut Desk) {
        let (first, second) = ([at(2, 5), at(2, 1)], [at(0, 0), at(4, 0)]);
        let corners = (self.made)(&first, &second).len();
        let (first, second, whole) = (Samples::of(&first), Samples::of(&second), outputs(corners, corners, scratch_for(4)));
        for choice in choices(7) {
            let outputs = Outputs { east: choice.of(4, &whole.east), north: choice.of(5, &whole.north), scratch: choice.of(6, &whole.scratch) };
            self.put(desk, EMPTY, choice.of_two(0, &first), choice.of_two(2, &second), outputs);
        }
    }
}
