//! Each number for no, with its place, from every function that gives it; and the order where several hold.

use nuoskelma::*;

fn no<T>(number: u32, place: usize) -> Result<T, Refusal> {
    Err(Refusal { number, place })
}

fn door<T>(number: u32, place: usize, back: Option<f64>) -> Result<T, DoorRefusal> {
    Err(DoorRefusal { number, place, back })
}

/// Outputs and scratch enough for anything here.
struct Room {
    first: [i32; 8],
    second: [i32; 8],
    upper: [u32; 8],
    lower: [u32; 8],
    scratch: Scratch,
}

fn room() -> Room {
    Room { first: [0; 8], second: [0; 8], upper: [0; 8], lower: [0; 8], scratch: Scratch::of(8) }
}

#[test]
fn no_1_lists_of_different_length() {
    let mut r = room();
    assert_eq!(round(&[0, 1], &[0], &[0], 0, &mut r.upper, &mut r.scratch), no(1, 0));
    assert_eq!(bridge(&[0, 1], &[0], 0, &mut r.scratch), no(1, 0));
    assert_eq!(chains(&[0], &[0, 1], &mut r.upper, &mut r.lower, &mut r.scratch), no(1, 0));
    assert_eq!(strongest(&[0], &[], 1, 0), no(1, 0));
    assert_eq!(cover(&[0], &[], 1, 0), no(1, 0));
    assert_eq!(turn_about(&[0], &[], &mut r.first, &mut r.second), no(1, 0));
    assert_eq!(join(&[0], &[0], &[0], &[], &mut r.first, &mut r.second, &mut r.scratch), no(1, 0));
    assert_eq!(sum(&[0], &[0], &[0], &[], &mut r.first, &mut r.second, &mut r.scratch), no(1, 0));
    assert_eq!(readings(&[0.0], &[], &mut r.first, &mut r.second), door(1, 0, None));
    Version::ALL.into_iter().for_each(|version| assert_eq!(write_record(version, &[0, LIMIT + 1], &[0], &mut []), no(1, 0)));
}

#[test]
fn no_2_too_many() {
    let mut r = room();
    let (many, listed, floats) = (vec![0; MOST + 1], vec![0; MOST + 1], vec![0.0; MOST + 1]);
    assert_eq!(pick(&many, 0, &mut r.scratch), no(2, 0));
    assert_eq!(round(&[0], &[0], &listed, 0, &mut r.upper, &mut r.scratch), no(2, 0));
    assert_eq!(bridge(&many, &many, 0, &mut r.scratch), no(2, 0));
    assert_eq!(chains(&many, &many, &mut r.upper, &mut r.lower, &mut r.scratch), no(2, 0));
    assert_eq!(Hand::made_for(MOST + 1), no(2, 0));
    assert_eq!(Hand { count: usize::MAX, place: 0 }.step(), no(2, 0));
    assert_eq!(strongest(&many, &many, 0, 1), no(2, 0));
    assert_eq!(cover(&many, &many, 0, 0), no(2, 0));
    assert_eq!(turn_about(&many, &many, &mut r.first, &mut r.second), no(2, 0));
    assert_eq!(join(&[0], &[0], &many, &many, &mut r.first, &mut r.second, &mut r.scratch), no(2, 0));
    assert_eq!(sum(&[0], &[0], &many, &many, &mut r.first, &mut r.second, &mut r.scratch), no(2, 0));
    assert_eq!(readings(&floats, &floats, &mut r.first, &mut r.second), door(2, 0, None));
    let mut record = vec![0; 5 + 8 * (MOST + 1)];
    record[0] = 1;
    record[1..5].copy_from_slice(&(8 * (MOST as u32 + 1)).to_be_bytes());
    assert_eq!(read_record(&record, &mut r.first, &mut r.second), no(2, 0));
    Version::ALL.into_iter().for_each(|version| assert_eq!(write_record(version, &many, &many, &mut record), no(2, 0)));
}

#[test]
fn no_3_a_part_beyond_the_limit() {
    let mut r = room();
    let beyond = [0, -LIMIT - 1];
    assert_eq!(round(&beyond, &[0, 0], &[0], 0, &mut r.upper, &mut r.scratch), no(3, 1));
    assert_eq!(bridge(&[0, 0], &beyond, 0, &mut r.scratch), no(3, 1));
    assert_eq!(chains(&[0, 0], &beyond, &mut r.upper, &mut r.lower, &mut r.scratch), no(3, 1));
    assert_eq!(strongest(&beyond, &[0, 0], 1, 0), no(3, 1));
    assert_eq!(strongest(&[0], &[0], 0, LIMIT + 1), no(3, 0));
    assert_eq!(cover(&beyond, &[0, 0], 0, 0), no(3, 1));
    assert_eq!(cover(&[0], &[0], i32::MIN, 0), no(3, 0));
    assert_eq!(turn_about(&beyond, &[0, 0], &mut r.first, &mut r.second), no(3, 1));
    assert_eq!(join(&[0], &[0], &beyond, &[0, 0], &mut r.first, &mut r.second, &mut r.scratch), no(3, 1));
    assert_eq!(sum(&[0], &[0], &beyond, &[0, 0], &mut r.first, &mut r.second, &mut r.scratch), no(3, 1));
    let record = [1, 0, 0, 0, 8, 127, 255, 255, 255, 0, 0, 0, 0];
    assert_eq!(read_record(&record, &mut r.first, &mut r.second), no(3, 0));
    Version::ALL.into_iter().for_each(|version| assert_eq!(write_record(version, &beyond, &[0, 0], &mut []), no(3, 1)));
}

#[test]
fn no_4_scratch_too_short() {
    let mut r = room();
    let short = scratch_words(2) - 1;
    assert_eq!(pick(&[1, 2], 1, &mut r.scratch[..short]), no(4, 0));
    assert_eq!(round(&[0, 1], &[0, 0], &[0, 1], 0, &mut r.upper, &mut r.scratch[..short]), no(4, 0));
    assert_eq!(bridge(&[0, 1], &[0, 0], 0, &mut r.scratch[..short]), no(4, 0));
    assert_eq!(chains(&[0, 1], &[0, 0], &mut r.upper, &mut r.lower, &mut r.scratch[..short]), no(4, 0));
    assert_eq!(join(&[0], &[0], &[1], &[0], &mut r.first, &mut r.second, &mut r.scratch[..short]), no(4, 0));
    assert_eq!(join(&[0], &[0], &[1], &[0], &mut r.first, &mut r.second, &mut r.scratch[..short + 1]), Ok(2));
    assert_eq!(sum(&[0], &[0], &[1], &[0], &mut r.first, &mut r.second, &mut r.scratch[..short]), no(4, 0));
    assert_eq!(sum(&[0], &[0], &[1], &[0], &mut r.first, &mut r.second, &mut r.scratch[..short + 1]), Ok(1));
}

#[test]
fn no_5_an_output_too_short() {
    let mut r = room();
    let (east, north) = ([0, 1, 2], [0, 1, 0]);
    assert_eq!(round(&east, &north, &[0, 0, 2], 0, &mut [], &mut r.scratch), no(5, 0));
    assert_eq!(chains(&east, &north, &mut r.upper[..2], &mut r.lower, &mut r.scratch), no(5, 0));
    assert_eq!(chains(&east, &north, &mut r.upper, &mut r.lower[..1], &mut r.scratch), no(5, 0));
    assert_eq!(turn_about(&east, &north, &mut r.first[..2], &mut r.second), no(5, 0));
    assert_eq!(join(&east, &north, &[5], &[0], &mut r.first, &mut r.second[..2], &mut r.scratch), no(5, 0));
    assert_eq!(sum(&east, &north, &[5], &[0], &mut r.first, &mut r.second[..2], &mut r.scratch), no(5, 0));
    assert_eq!(readings(&[0.0], &[0.0], &mut [], &mut r.second), door(5, 0, None));
    assert_eq!(read_record(&[1, 0, 0, 0, 8, 0, 0, 0, 0, 0, 0, 0, 0], &mut r.first, &mut []), no(5, 0));
    for (version, enough) in Version::ALL.into_iter().zip([5, 6, 6]) {
        assert_eq!(write_record(version, &east, &north, &mut vec![0; enough + 23]), no(5, 0));
        assert_eq!(write_record(version, &[], &[], &mut vec![0; enough - 1]), no(5, 0));
    }
}

#[test]
fn no_6_no_bridge() {
    let mut r = room();
    let (east, north) = ([0, 4, 2], [0, 0, 1]);
    assert_eq!(bridge(&east, &north, -1, &mut r.scratch), no(6, 0));
    assert_eq!(bridge(&east, &north, 4, &mut r.scratch), no(6, 0));
    assert_eq!(bridge(&[], &[], 0, &mut r.scratch), no(6, 0));
    assert_eq!(round(&east, &north, &[0, 2], 2, &mut r.upper, &mut r.scratch), no(6, 0));
}

#[test]
fn no_7_a_listed_number_beyond_the_samples() {
    let mut r = room();
    assert_eq!(round(&[0, 4], &[0, 0], &[1, 0, 2, 3], 0, &mut r.upper, &mut r.scratch), no(7, 2));
}

#[test]
fn no_8_a_rank_beyond_the_numbers() {
    let mut r = room();
    assert_eq!(pick(&[1, 2], 0, &mut r.scratch), no(8, 0));
    assert_eq!(pick(&[1, 2], 3, &mut r.scratch), no(8, 0));
    assert_eq!(pick(&[], 1, &mut []), no(8, 0));
    assert_eq!(pick(&[i32::MIN, i32::MAX], 1, &mut r.scratch), Ok(i32::MIN));
}

#[test]
fn no_9_not_an_envelope() {
    let mut r = room();
    // a flush corner, a repeat, and the wrong way round
    for (east, north) in [(&[0, 1, 2][..], &[0, 1, 2][..]), (&[0, 0], &[1, 1]), (&[0, 4, 2], &[0, 0, 5])] {
        assert_eq!(strongest(east, north, 1, 0), no(9, 0));
        assert_eq!(cover(east, north, 1, 0), no(9, 0));
        assert_eq!(turn_about(east, north, &mut r.first, &mut r.second), no(9, 0));
        assert_eq!(join(east, north, &[], &[], &mut r.first, &mut r.second, &mut r.scratch), no(9, 0));
        assert_eq!(join(&[], &[], east, north, &mut r.first, &mut r.second, &mut r.scratch), no(9, 0));
        assert_eq!(sum(east, north, &[], &[], &mut r.first, &mut r.second, &mut r.scratch), no(9, 0));
        assert_eq!(sum(&[], &[], east, north, &mut r.first, &mut r.second, &mut r.scratch), no(9, 0));
        Version::ALL.into_iter().for_each(|version| assert_eq!(write_record(version, east, north, &mut []), no(9, 0)));
    }
    let record = [1, 0, 0, 0, 16, 0, 0, 0, 4, 0, 0, 0, 0, 0, 0, 0, 0, 0, 0, 0, 0];
    assert_eq!(read_record(&record, &mut r.first, &mut r.second), no(9, 0));
    // as it is stored, though turned about it would be one
    for sense in [0, 1] {
        let told = [&[2, 0, 0, 0, 17, sense], &record[5..]].concat();
        assert_eq!(read_record(&told, &mut r.first, &mut r.second), no(9, 0));
    }
}

#[test]
fn the_first_ring_before_the_second() {
    let mut r = room();
    for of_two in [join, sum] {
        assert_eq!(of_two(&[0, 0], &[1, 1], &[0, LIMIT + 1], &[0, 0], &mut r.first, &mut r.second, &mut []), no(9, 0));
        assert_eq!(of_two(&[0, LIMIT + 1], &[0, 0], &[0, 0], &[1, 1], &mut r.first, &mut r.second, &mut []), no(3, 1));
    }
}

#[test]
fn no_19_a_sum_beyond_the_limit() {
    let mut r = room();
    // on each side, of one corner and of more; met on all sides
    for (x, y) in [(1, 0), (-1, 0), (0, 1), (0, -1)] {
        let (far_east, far_north) = ([x * LIMIT], [y * LIMIT]);
        assert_eq!(sum(&far_east, &far_north, &[x], &[y], &mut r.first, &mut r.second, &mut r.scratch), no(19, 0));
        assert_eq!(sum(&[-1, 0, 1, 0], &[0, 1, 0, -1], &far_east, &far_north, &mut r.first, &mut r.second, &mut r.scratch), no(19, 0));
        assert_eq!(sum(&far_east, &far_north, &[y * LIMIT], &[x * LIMIT], &mut r.first, &mut r.second, &mut r.scratch), Ok(1));
    }
    // a sum within the limit of rings that reach it
    assert_eq!(sum(&[LIMIT], &[-LIMIT], &[-LIMIT], &[LIMIT], &mut r.first, &mut r.second, &mut r.scratch), Ok(1));
    assert_eq!((r.first[0], r.second[0]), (0, 0));
    // after 4, before 5; an empty sum has no corner
    assert_eq!(sum(&[LIMIT], &[0], &[1], &[0], &mut [], &mut [], &mut r.scratch[..95]), no(4, 0));
    assert_eq!(sum(&[LIMIT], &[0], &[1], &[0], &mut [], &mut [], &mut r.scratch), no(19, 0));
    assert_eq!(sum(&[LIMIT], &[0], &[], &[], &mut [], &mut [], &mut r.scratch), Ok(0));
}

#[test]
fn no_10_and_11_an_empty_ring_a_hand_beside_it_and_no_course() {
    assert_eq!(Hand::made_for(0), no(10, 0));
    assert_eq!(Hand { count: 3, place: 3 }.step(), no(10, 0));
    assert_eq!(Hand { count: 0, place: 0 }.step(), no(10, 0));
    assert_eq!(strongest(&[], &[], 0, 0), no(10, 0));
    assert_eq!(strongest(&[0], &[0], 0, 0), no(11, 0));
}

#[test]
fn no_12_13_14_the_float_door() {
    let mut r = room();
    assert_eq!(part(f64::NAN), door(12, 0, None));
    assert_eq!(part(-0.0), Ok(0));
    for far in [f64::INFINITY, f64::NEG_INFINITY, 1_000_001.0, -1_000_000.5, 1e300] {
        assert_eq!(part(far), door(13, 0, Some(far)));
    }
    for fraction in [0.5, -999_999.5, f64::MIN_POSITIVE, -5e-324] {
        assert_eq!(part(fraction), door(14, 0, Some(fraction)));
    }
    // the first bad reading decides, east before north
    let (east, north) = ([0.0, 1.0, f64::NAN], [0.0, 0.25, 7e7]);
    assert_eq!(readings(&east, &north, &mut r.first, &mut r.second), door(14, 1, Some(0.25)));
    assert_eq!(readings(&east[2..], &north[2..], &mut r.first, &mut r.second), door(12, 0, None));
    assert_eq!(readings(&north[2..], &east[2..], &mut r.first, &mut r.second), door(13, 0, Some(7e7)));
    assert_eq!((r.first, r.second), ([0; 8], [0; 8]));
}

#[test]
fn no_16_17_20_21_bytes_that_are_no_record() {
    let mut r = room();
    let mut read = |bytes: &[u8]| read_record(bytes, &mut r.first, &mut r.second);
    assert_eq!(read(&[]), no(17, 0));
    assert_eq!(read(&[0]), no(16, 0));
    assert_eq!(read(&[3]), no(16, 0));
    assert_eq!(read(&[1, 0, 0]), no(17, 3));
    assert_eq!(read(&[1, 0, 0, 0]), no(17, 4));
    // the bytes end early, or bytes follow the end
    let corner = [1, 0, 0, 0, 8, 0, 0, 0, 7, 0, 0, 0, 7, 0];
    assert_eq!(read(&corner[..12]), no(17, 12));
    assert_eq!(read(&corner[..13]), Ok(1));
    assert_eq!(read(&corner), no(20, 13));
    assert_eq!(read(&[1, 0, 0, 0, 0]), Ok(0));
    assert_eq!(read(&[1, 0, 0, 0, 0, 1]), no(20, 5));
    assert_eq!(read(&[1, 8, 0, 0, 0, 0, 0, 0, 0, 0, 0, 0, 0]), no(17, 13));
    assert_eq!(read(&[1, 255, 255, 255, 248, 0]), no(17, 6));
    // no multiple of 8, with bytes missing, as many as are said, and too many
    for given in 5..=20 {
        assert_eq!(read(&[&[1, 0, 0, 0, 7][..], &[0; 15]].concat()[..given]), no(21, 1));
    }
    assert_eq!(read(&[1, 255, 255, 255, 255, 0]), no(21, 1));
    assert_eq!(read(&[3, 0, 0, 0, 7, 0]), no(16, 0));
}

#[test]
fn no_21_and_22_records_that_say_no_sense() {
    let mut r = room();
    let mut read = |bytes: &[u8]| read_record(bytes, &mut r.first, &mut r.second);
    // one more than a multiple of 8, the sense among it
    assert_eq!(read(&[2, 0, 0, 0, 0]), no(21, 1));
    assert_eq!(read(&[2, 0, 0, 0, 8, 0, 0, 0, 0, 7, 0, 0, 0]), no(21, 1));
    assert_eq!(read(&[2, 255, 255, 255, 248, 0]), no(21, 1));
    assert_eq!(read(&[2, 255, 255, 255, 249, 0]), no(17, 6));
    assert_eq!(read(&[2, 0, 0, 0, 1]), no(17, 5));
    // a sense above 1, after 17 and 20, before 3 and 9
    for sense in 2..=255 {
        assert_eq!(read(&[2, 0, 0, 0, 1, sense]), no(22, 5));
        assert_eq!(read(&[2, 0, 0, 0, 9, sense]), no(17, 6));
        assert_eq!(read(&[2, 0, 0, 0, 1, sense, 0]), no(20, 6));
        assert_eq!(read(&[2, 0, 0, 0, 9, sense, 127, 0, 0, 0, 0, 0, 0, 0]), no(22, 5));
        assert_eq!(read(&[2, 0, 0, 0, 17, sense, 0, 0, 0, 1, 0, 0, 0, 0, 0, 0, 0, 0, 0, 0, 0, 0]), no(22, 5));
    }
    // the place of 3 is that of the corner as it is stored
    for sense in [0, 1] {
        assert_eq!(read(&[2, 0, 0, 0, 17, sense, 0, 0, 0, 0, 0, 0, 0, 0, 127, 0, 0, 0, 0, 0, 0, 0]), no(3, 1));
    }
}

#[test]
fn in_words() {
    let refusal = Hand::made_for(0).unwrap_err();
    assert_eq!(refusal.to_string(), "refused 10 0: an empty ring, or a hand whose place is not below its count");
    assert_eq!(part(0.5).unwrap_err().to_string(), "refused 14 0: a fraction: 0.5");
    // each trouble of a record in other words, since it is mended in another way
    let mut r = room();
    let mut told = |bytes: &[u8]| read_record(bytes, &mut r.first, &mut r.second).unwrap_err().to_string();
    assert_eq!(told(&[1, 0, 0, 0, 8, 0]), "refused 17 6: the record's bytes end early: those from this place on are missing");
    assert_eq!(told(&[1, 0, 0, 0, 0, 10]), "refused 20 5: bytes follow the record's end: those from this place on are not its own");
    assert_eq!(
        told(&[1, 0, 0, 0, 9, 0]),
        "refused 21 1: the record's length counts no whole corners: it is to be a multiple of 8, in version 2 one more"
    );
    assert_eq!(told(&[2, 0, 0, 0, 1, 2]), "refused 22 5: the record's sense is above 1: 0 is going to, 1 is coming from");
    assert_eq!(told(&[3]), "refused 16 0: a version other than 1 or 2");
    assert_eq!(Refusal::from(part(f64::NAN).unwrap_err()), Refusal { number: 12, place: 0 });
    for number in (1..=22).filter(|number| *number != 15) {
        assert_ne!(Refusal { number, place: 0 }.words(), "no number of the rules");
    }
}
