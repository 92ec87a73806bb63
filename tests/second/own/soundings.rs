//! The soundings, and the examples beside them.

use super::agree;
use crate::cases::program::INPUT_A;
use crate::gen::{input_a, Samples};
use crate::rules::chain::{at, bridge, chains, ring, ring_of, Position};
use crate::rules::door::{part, Part};
use crate::rules::program::program;
use crate::rules::round::{round, Said};
use crate::rules::using::{cover, joined, strongest, turned};
use crate::rules::{refuse, scratch_for, MOST};

fn list(positions: &[(i64, i64)]) -> Vec<Position> {
    positions.iter().map(|&(east, north)| at(east, north)).collect()
}

pub fn check() -> u64 {
    let mut count = 0;
    let mut sounding = |name: &'static str, agrees: bool| {
        agree(agrees, true, || name.to_string());
        count += 1;
    };
    chains_and_rounds(&mut sounding);
    using(&mut sounding);
    runs(&mut sounding);
    texts(&mut sounding);
    count
}

fn chains_and_rounds(sounding: &mut impl FnMut(&'static str, bool)) {
    let Samples { east, north } = input_a();
    let (mut upper, mut lower, mut scratch) = ([9; 4], [9; 3], [7; 16 * 7 + 64]);
    let corners = chains(&east, &north, &mut upper, &mut lower, &mut scratch);
    sounding("P1", corners == Ok((3, 2)) && upper == [3, 5, 2, 9]);
    sounding("P2", lower == [0, 1, 9] && scratch == [0; 16 * 7 + 64]);
    let over = |a| bridge(&east, &north, a, &mut [7; 200]);
    sounding("P3", over(2) == Ok((5, 2)));
    sounding("P4", over(1) == Ok((3, 5)));
    sounding("P5", over(4) == refuse(6, 0));
    let play = |list: &[u32], a| round(&east, &north, list, a, &mut [9; 4], &mut [7; 128]);
    sounding("P6", play(&[3, 4, 5, 2], 1) == Ok(Said::Kept(vec![3, 5])));
    sounding("P7", play(&[3, 4, 5, 2], 2) == Ok(Said::Bridge(5, 2)));
    sounding("P8", play(&[3, 0, 1, 2], 2) == Ok(Said::Kept(vec![3, 2])));
}

fn using(sounding: &mut impl FnMut(&'static str, bool)) {
    let peak = joined(&list(&[(2, 5), (2, 1)]), &list(&[(0, 0), (4, 0)]));
    sounding("P9", peak == list(&[(0, 0), (2, 5), (4, 0)]));
    sounding("P10", turned(&peak) == list(&[(-4, 0), (0, 0), (-2, -5)]));
    let ring_a = Samples::of(&ring_of(&input_a().positions()));
    sounding("P11", strongest(&ring_a.east, &ring_a.north, -1, 1) == Ok((3, 0)));
    let of_a = |x, y| cover(&ring_a.east, &ring_a.north, x, y);
    sounding("P12", of_a(2, 1) == Ok(true));
    sounding("(0,1) in A is now yes", of_a(0, 1) == Ok(true) && of_a(-1, 1) == Ok(false));
    sounding("corners are covered", ring_of(&input_a().positions()).iter().all(|p| of_a(p.east as i32, p.north as i32) == Ok(true)));
    sounding("beside a corner", of_a(0, 4) == Ok(false) && of_a(4, -1) == Ok(false) && of_a(5, 3) == Ok(false));
    sounding("the whole segment", [(2, 5), (2, 3), (2, 1)].iter().all(|&(x, y)| cover(&[2, 2], &[5, 1], x, y) == Ok(true)));
    sounding("not beyond it", [(2, 6), (2, 0), (1, 3), (3, 3)].iter().all(|&(x, y)| cover(&[2, 2], &[5, 1], x, y) == Ok(false)));
    sounding("its one position", cover(&[3], &[4], 3, 4) == Ok(true) && cover(&[3], &[4], 4, 4) == Ok(false) && cover(&[3], &[4], 3, 5) == Ok(false));
    sounding("an empty ring nothing", cover(&[], &[], 0, 0) == Ok(false));
    sounding("flush corners", ring_of(&list(&[(0, 0), (1, 1), (2, 2)])) == list(&[(0, 0), (2, 2)]));
    sounding("one position", ring_of(&list(&[(5, 5), (5, 5)])) == list(&[(5, 5)]));
    sounding("no sample", ring_of(&[]).is_empty());
}

fn runs(sounding: &mut impl FnMut(&'static str, bool)) {
    let of_part = |part: i32| ring(&[part], &[0], &mut [9], &mut [9], &mut [7; 80]);
    sounding("part 1,000,000", of_part(1_000_000) == Ok(1) && of_part(-1_000_000) == Ok(1));
    sounding("part 1,000,001", of_part(1_000_001) == refuse(3, 0) && of_part(-1_000_001) == refuse(3, 0));
    sounding("float 1000000.5", part(1_000_000.5f64.to_bits()) == Part::Beyond(1_000_000.5f64.to_bits()));
    sounding("float 0.5", part(0.5f64.to_bits()) == Part::Fraction(0.5f64.to_bits()));
    sounding("minus zero", part((-0.0f64).to_bits()) == Part::Whole(0));
    let of_count = |count: usize| ring(&vec![1; count], &vec![1; count], &mut [9], &mut [9], &mut vec![7; scratch_for(count)]);
    sounding("65,536 samples", of_count(MOST) == Ok(1));
    sounding("65,537 samples", of_count(MOST + 1) == refuse(2, 0));
}

fn texts(sounding: &mut impl FnMut(&'static str, bool)) {
    let mut text = |name, text: &[u8], wanted: &str| sounding(name, program(text) == wanted);
    text("input A", INPUT_A, "ring 5\n0 3\n2 5\n4 3\n4 0\n0 0\n");
    text("empty input", b"", "ring 0\n");
    text("one sample", b"-7 1000000\n", "ring 1\n-7 1000000\n");
    text("the third line is bad", b"1 1\n2 2\n3  3\n4 4\n", "refused 15 3\n");
    text("no newline at the end", b"1 1\n2 2", "refused 15 2\n");
    text("an empty line", b"\n", "refused 15 1\n");
    text("minus zero", b"-0 1\n", "refused 15 1\n");
    text("eight digits", b"10000000 1\n", "refused 15 1\n");
    text("seven digits", b"1 1\n9999999 1\n", "refused 3 1\n");
    text("bad text is seen before a part beyond the limit", b"1000001 1\nx\n", "refused 15 2\n");
    let full = b"3 4\n".repeat(512);
    text("512 lines", &full, "ring 1\n3 4\n");
    text("a 513th line", &[&full, &b"x"[..]].concat(), "refused 2 0\n");
    text("a 513th line after a part beyond the limit", &[b"1000001 1\n", &full[..]].concat(), "refused 2 0\n");
    text("a bad line before a 513th", &[b"y\n", &full[..]].concat(), "refused 15 1\n");
}
