//! The ring.

use nuoskelma::*;

/// Input A.
const EAST: [i32; 7] = [0, 4, 4, 0, 2, 2, 4];
const NORTH: [i32; 7] = [0, 0, 3, 3, 1, 5, 0];

const NOISE: u32 = 0xdead_beef;
const STAYS: i32 = -77;

#[test]
fn of_a() {
    let mut scratch = [NOISE; scratch_words(7) + 3];
    let (mut easts, mut norths) = ([STAYS; 7], [STAYS; 6]);
    assert_eq!(ring(&EAST, &NORTH, &mut easts, &mut norths, &mut scratch), Ok(5));
    assert_eq!((easts, norths), ([0, 2, 4, 4, 0, STAYS, STAYS], [3, 5, 3, 0, 0, STAYS]));
    assert_eq!(scratch, [0; scratch_words(7) + 3]);
}

#[test]
fn of_little() {
    let mut scratch = Scratch::of(3);
    let (mut easts, mut norths) = ([STAYS; 3], [STAYS; 3]);
    assert_eq!(ring(&[], &[], &mut [], &mut [], &mut scratch), Ok(0));
    assert_eq!(ring(&[4, 4], &[-1, -1], &mut easts, &mut norths, &mut scratch), Ok(1));
    assert_eq!((easts, norths), ([4, STAYS, STAYS], [-1, STAYS, STAYS]));
    // all on one line, also an upright one, the upper end first
    assert_eq!(ring(&[0, 1, 2], &[0, 1, 2], &mut easts, &mut norths, &mut scratch), Ok(2));
    assert_eq!((easts, norths), ([0, 2, STAYS], [0, 2, STAYS]));
    assert_eq!(ring(&[2, 2, 2], &[1, 3, 5], &mut easts, &mut norths, &mut scratch), Ok(2));
    assert_eq!((easts, norths), ([2, 2, STAYS], [5, 1, STAYS]));
}

#[test]
fn refused() {
    fn refused(east: &[i32], north: &[i32], room: usize, words: usize) -> (u32, usize) {
        let mut scratch = vec![NOISE; words];
        let (mut easts, mut norths) = (vec![STAYS; room], vec![STAYS; room + 1]);
        let refusal = ring(east, north, &mut easts, &mut norths, &mut scratch).unwrap_err();
        assert_eq!((easts, norths), (vec![STAYS; room], vec![STAYS; room + 1]));
        assert_eq!(scratch, vec![if refusal.number == 5 { 0 } else { NOISE }; words]);
        (refusal.number, refusal.place)
    }
    let many = vec![0; MOST + 1];
    assert_eq!(refused(&EAST, &NORTH[1..], 7, 999), (1, 0));
    assert_eq!(refused(&many, &many, 7, 999), (2, 0));
    assert_eq!(refused(&[0, 0, LIMIT + 1], &[0, 0, 0], 3, 999), (3, 2));
    assert_eq!(refused(&EAST, &NORTH, 7, scratch_words(7) - 1), (4, 0));
    assert_eq!(refused(&EAST, &NORTH, 4, scratch_words(7)), (5, 0));
}

#[test]
fn a_ring_is_an_envelope() {
    let east: Vec<i32> = (0..4096i64).map(|k| (k * k * 7919 % 2_000_001 - 1_000_000) as i32).collect();
    let north: Vec<i32> = (0..4096i64).map(|k| (k * k * k * 104_729 % 2_000_001 - 1_000_000) as i32).collect();
    let mut scratch = Scratch::of(4096);
    let (mut easts, mut norths) = (vec![0; 4096], vec![0; 4096]);
    let corners = ring(&east, &north, &mut easts, &mut norths, &mut scratch).unwrap();
    let (easts, norths) = (&easts[..corners], &norths[..corners]);
    assert!(corners > 8, "{corners}");
    let (mut again_east, mut again_north) = (vec![0; corners], vec![0; corners]);
    assert_eq!(join(easts, norths, easts, norths, &mut again_east, &mut again_north, &mut scratch), Ok(corners));
    assert_eq!((&again_east[..], &again_north[..]), (easts, norths));
    for (x, y) in [(1, 0), (-3, 7), (250, -999_999)] {
        let over_all = east.iter().zip(&north).map(|(e, n)| i64::from(x) * i64::from(*e) + i64::from(y) * i64::from(*n)).max();
        assert_eq!(Some(strongest(easts, norths, x, y).unwrap().set), over_all);
    }
}
