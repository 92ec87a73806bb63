//! The soundings, through this face.

use nuoskelma::*;

/// Input A, samples 0 to 6.
const EAST: [i32; 7] = [0, 4, 4, 0, 2, 2, 4];
const NORTH: [i32; 7] = [0, 0, 3, 3, 1, 5, 0];

/// A's ring.
const RING_EAST: [i32; 5] = [0, 2, 4, 4, 0];
const RING_NORTH: [i32; 5] = [3, 5, 3, 0, 0];

#[test]
fn p1_p2_chains_of_a() {
    let (mut upper, mut lower) = ([9; 7], [9; 7]);
    let found = chains(&EAST, &NORTH, &mut upper, &mut lower, &mut Scratch::of(7));
    assert_eq!(found, Ok(Chains { upper: 3, lower: 2 }));
    assert_eq!(upper[..3], [3, 5, 2]);
    assert_eq!(lower[..2], [0, 1]);
}

#[test]
fn p3_p4_p5_bridges_of_a() {
    let mut scratch = Scratch::of(7);
    assert_eq!(bridge(&EAST, &NORTH, 2, &mut scratch), Ok(Bridge { left: 5, right: 2 }));
    assert_eq!(bridge(&EAST, &NORTH, 1, &mut scratch), Ok(Bridge { left: 3, right: 5 }));
    assert_eq!(bridge(&EAST, &NORTH, 4, &mut scratch), Err(Refusal { number: 6, place: 0 }));
}

#[test]
fn p6_p7_p8_rounds_of_a() {
    let (mut output, mut scratch) = ([9; 4], Scratch::of(4));
    assert_eq!(round(&EAST, &NORTH, &[3, 4, 5, 2], 1, &mut output, &mut scratch), Ok(Round::Kept(2)));
    assert_eq!(output, [3, 5, 9, 9]);
    assert_eq!(round(&EAST, &NORTH, &[3, 4, 5, 2], 2, &mut output, &mut scratch), Ok(Round::Bridge(Bridge { left: 5, right: 2 })));
    assert_eq!(output, [3, 5, 9, 9]);
    assert_eq!(round(&EAST, &NORTH, &[3, 0, 1, 2], 2, &mut output, &mut scratch), Ok(Round::Kept(2)));
    assert_eq!(output, [3, 2, 9, 9]);
}

#[test]
fn p9_p10_joined_and_turned_about() {
    let (mut easts, mut norths) = ([9; 4], [9; 4]);
    assert_eq!(join(&[2, 2], &[5, 1], &[0, 4], &[0, 0], &mut easts, &mut norths, &mut Scratch::of(4)), Ok(3));
    assert_eq!((easts, norths), ([0, 2, 4, 9], [0, 5, 0, 9]));
    let (mut back_east, mut back_north) = ([9; 3], [9; 3]);
    assert_eq!(turn_about(&easts[..3], &norths[..3], &mut back_east, &mut back_north), Ok(3));
    assert_eq!((back_east, back_north), ([-4, 0, -2], [0, 0, -5]));
}

/// The corners of a sum.
fn added(east: &[i32], north: &[i32], east2: &[i32], north2: &[i32]) -> Vec<(i32, i32)> {
    let (mut easts, mut norths) = ([9; 8], [9; 8]);
    let corners = sum(east, north, east2, north2, &mut easts, &mut norths, &mut Scratch::of(8)).unwrap();
    easts.into_iter().zip(norths).take(corners).collect()
}

#[test]
fn sums() {
    // two sides that cross; two along one line; a triangle and its turning about; one position moves a ring; an empty ring makes an empty one
    assert_eq!(added(&[0, 2], &[0, 0], &[0, 0], &[1, 0]), [(0, 1), (2, 1), (2, 0), (0, 0)]);
    assert_eq!(added(&[0, 1], &[0, 1], &[0, 2], &[0, 2]), [(0, 0), (3, 3)]);
    assert_eq!(added(&[0, 1, 1], &[0, 1, 0], &[-1, 0, -1], &[0, 0, -1]), [(-1, 0), (0, 1), (1, 1), (1, 0), (0, -1), (-1, -1)]);
    assert_eq!(added(&[10], &[-1], &RING_EAST, &RING_NORTH), [(10, 2), (12, 4), (14, 2), (14, -1), (10, -1)]);
    assert_eq!(added(&[], &[], &RING_EAST, &RING_NORTH), []);
    // the limit is met
    assert_eq!(added(&[LIMIT], &[0], &[0], &[-LIMIT]), [(LIMIT, -LIMIT)]);
}

#[test]
fn p11_p12_strongest_set_and_cover_of_a() {
    assert_eq!(strongest(&RING_EAST, &RING_NORTH, -1, 1), Ok(StrongestSet { set: 3, place: 0 }));
    // two places have it: the first
    assert_eq!(strongest(&RING_EAST, &RING_NORTH, 1, 0), Ok(StrongestSet { set: 4, place: 2 }));
    assert_eq!(cover(&RING_EAST, &RING_NORTH, 2, 1), Ok(true));
    assert_eq!(cover(&RING_EAST, &RING_NORTH, 2, 4), Ok(true));
    assert_eq!(cover(&RING_EAST, &RING_NORTH, 5, 1), Ok(false));
}

/// The streams that a ring covers, of all with parts from -2 to 6.
fn covered(east: &[i32], north: &[i32]) -> Vec<(i32, i32)> {
    let all = (-2..=6).flat_map(|x| (-2..=6).map(move |y| (x, y)));
    all.filter(|&(x, y)| cover(east, north, x, y).unwrap()).collect()
}

#[test]
fn the_outline_is_covered() {
    // A's ring, west to east, from its lower side to its upper
    let upright = |x: i32, top: i32| (0..=top).map(move |y| (x, y));
    let inside_and_on = [(0, 3), (1, 4), (2, 5), (3, 4), (4, 3)].into_iter().flat_map(|(x, top)| upright(x, top));
    assert_eq!(covered(&RING_EAST, &RING_NORTH), inside_and_on.collect::<Vec<_>>());
    // two corners, slanting, upright and flat; one; none
    assert_eq!(covered(&[0, 4], &[0, 2]), [(0, 0), (2, 1), (4, 2)]);
    assert_eq!(covered(&[3, 3], &[4, 1]), [(3, 1), (3, 2), (3, 3), (3, 4)]);
    assert_eq!(covered(&[1, 3], &[5, 5]), [(1, 5), (2, 5), (3, 5)]);
    assert_eq!(covered(&[3], &[4]), [(3, 4)]);
    assert_eq!(covered(&[], &[]), []);
    // as far as parts go
    let (east, north) = ([-LIMIT, LIMIT], [-LIMIT, LIMIT]);
    assert_eq!(cover(&east, &north, LIMIT, LIMIT), Ok(true));
    assert_eq!(cover(&east, &north, 999_999, 999_999), Ok(true));
    assert_eq!(cover(&east, &north, 999_999, LIMIT), Ok(false));
}

#[test]
fn the_limit_of_a_part() {
    let (mut upper, mut lower, mut scratch) = ([9; 1], [9; 1], Scratch::of(1));
    assert_eq!(chains(&[LIMIT], &[-LIMIT], &mut upper, &mut lower, &mut scratch), Ok(Chains { upper: 1, lower: 1 }));
    assert_eq!(chains(&[LIMIT + 1], &[0], &mut upper, &mut lower, &mut scratch), Err(Refusal { number: 3, place: 0 }));
    assert_eq!(part(1_000_000.0), Ok(1_000_000));
    assert_eq!(part(1_000_000.5), Err(DoorRefusal { number: 13, place: 0, back: Some(1_000_000.5) }));
    assert_eq!(part(0.5), Err(DoorRefusal { number: 14, place: 0, back: Some(0.5) }));
}

#[test]
fn the_most_samples() {
    let east: Vec<i32> = (0..=65_536).collect();
    let north: Vec<i32> = east.iter().map(|e| e % 7).collect();
    let mut scratch = Scratch::of(MOST);
    assert_eq!(bridge(&east[..MOST], &north[..MOST], 0, &mut scratch), Ok(Bridge { left: 0, right: 6 }));
    assert_eq!(bridge(&east, &north, 0, &mut scratch), Err(Refusal { number: 2, place: 0 }));
    assert_eq!(pick(&east[..MOST], 65_536, &mut scratch), Ok(65_535));
    assert_eq!(pick(&east, 1, &mut scratch), Err(Refusal { number: 2, place: 0 }));
}

#[test]
fn a_hand_once_round() {
    let mut hand = Hand::made_for(RING_EAST.len()).unwrap();
    let mut edges = Vec::new();
    for _ in 0..5 {
        let (edge, next) = hand.step().unwrap();
        edges.push((edge.from, edge.to));
        hand = next;
    }
    assert_eq!(edges, [(0, 1), (1, 2), (2, 3), (3, 4), (4, 0)]);
    assert_eq!(hand, Hand { count: 5, place: 0 });
    let alone = Hand::made_for(1).unwrap();
    assert_eq!(alone.step(), Ok((Edge { from: 0, to: 0 }, alone)));
}

#[test]
fn records() {
    let (mut easts, mut norths) = ([9; 2], [9; 2]);
    assert_eq!(read_record(&[1, 0, 0, 0, 0], &mut easts, &mut norths), Ok(0));
    // (-2, 5) and (3, 0)
    let record = [1, 0, 0, 0, 16, 255, 255, 255, 254, 0, 0, 0, 5, 0, 0, 0, 3, 0, 0, 0, 0];
    assert_eq!(read_record(&record, &mut easts, &mut norths), Ok(2));
    assert_eq!((easts, norths), ([-2, 3], [5, 0]));
    let mut again = [9; 22];
    assert_eq!(write_record(Version::One, &easts, &norths, &mut again), Ok(21));
    assert_eq!((&again[..21], again[21]), (&record[..], 9));
}

#[test]
fn records_in_either_sense() {
    let (mut easts, mut norths) = ([9; 2], [9; 2]);
    // (7, -7)
    let mut record = [2, 0, 0, 0, 9, 0, 0, 0, 0, 7, 255, 255, 255, 249];
    assert_eq!(read_record(&record, &mut easts, &mut norths), Ok(1));
    assert_eq!((easts, norths), ([7, 9], [-7, 9]));
    record[5] = 1;
    assert_eq!(read_record(&record, &mut easts, &mut norths), Ok(1));
    assert_eq!((easts, norths), ([-7, 9], [7, 9]));
    // (0, 0) and (1, 2), coming from; going to they begin at the other end
    let from = [2, 0, 0, 0, 17, 1, 0, 0, 0, 0, 0, 0, 0, 0, 0, 0, 0, 1, 0, 0, 0, 2];
    let to = [2, 0, 0, 0, 17, 0, 255, 255, 255, 255, 255, 255, 255, 254, 0, 0, 0, 0, 0, 0, 0, 0];
    for (record, sense) in [(from, Sense::ComingFrom), (to, Sense::GoingTo)] {
        assert_eq!(read_record(&record, &mut easts, &mut norths), Ok(2));
        assert_eq!((easts, norths), ([-1, 0], [-2, 0]));
        let mut again = [9; 22];
        assert_eq!(write_record(Version::Two(sense), &easts, &norths, &mut again), Ok(22));
        assert_eq!(again, record);
    }
    // the empty ring in either sense
    assert_eq!(read_record(&[2, 0, 0, 0, 1, 0], &mut [], &mut []), Ok(0));
    assert_eq!(read_record(&[2, 0, 0, 0, 1, 1], &mut [], &mut []), Ok(0));
}

#[test]
fn nothing_at_all() {
    let mut scratch = Scratch::of(0);
    assert_eq!(chains(&[], &[], &mut [], &mut [], &mut scratch), Ok(Chains { upper: 0, lower: 0 }));
    assert_eq!(join(&[], &[], &[], &[], &mut [], &mut [], &mut scratch), Ok(0));
    assert_eq!(sum(&[], &[], &[], &[], &mut [], &mut [], &mut scratch), Ok(0));
    assert_eq!(turn_about(&[], &[], &mut [], &mut []), Ok(0));
    assert_eq!(cover(&[], &[], 0, 0), Ok(false));
    assert_eq!(readings(&[], &[], &mut [], &mut []), Ok(0));
    assert_eq!(write_record(Version::One, &[], &[], &mut [0; 5]), Ok(5));
    assert_eq!(write_record(Version::Two(Sense::ComingFrom), &[], &[], &mut [0; 6]), Ok(6));
}
