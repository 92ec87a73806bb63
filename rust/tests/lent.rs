//! What becomes of everything lent: results stand at the front of the outputs and the noise behind them stays; all the scratch is zero after a call that is
//! done, and after 5; every other refusal leaves everything as it was.

use nuoskelma::*;

const NOISE: u32 = 0xdead_beef;
const STAYS: i32 = -77;

/// Input A.
const EAST: [i32; 7] = [0, 4, 4, 0, 2, 2, 4];
const NORTH: [i32; 7] = [0, 0, 3, 3, 1, 5, 0];

/// Scratch for seven with nine words more, all noise.
const WORDS: usize = scratch_words(7) + 9;

fn noise() -> [u32; WORDS] {
    [NOISE; WORDS]
}

#[test]
fn behind_the_results() {
    let mut scratch = noise();
    let (mut upper, mut lower) = ([NOISE; 6], [NOISE; 5]);
    chains(&EAST, &NORTH, &mut upper, &mut lower, &mut scratch).unwrap();
    assert_eq!(upper, [3, 5, 2, NOISE, NOISE, NOISE]);
    assert_eq!(lower, [0, 1, NOISE, NOISE, NOISE]);

    let mut output = [NOISE; 4];
    round(&EAST, &NORTH, &[3, 4, 5, 2], 1, &mut output, &mut scratch).unwrap();
    assert_eq!(output, [3, 5, NOISE, NOISE]);

    let (mut easts, mut norths) = ([STAYS; 5], [STAYS; 4]);
    join(&[2, 2], &[5, 1], &[0, 4], &[0, 0], &mut easts, &mut norths, &mut scratch).unwrap();
    assert_eq!((easts, norths), ([0, 2, 4, STAYS, STAYS], [0, 5, 0, STAYS]));

    let (mut easts, mut norths) = ([STAYS; 5], [STAYS; 6]);
    sum(&[2, 2], &[5, 1], &[0, 4], &[0, 0], &mut easts, &mut norths, &mut scratch).unwrap();
    assert_eq!((easts, norths), ([2, 6, 6, 2, STAYS], [5, 5, 1, 1, STAYS, STAYS]));

    let (mut easts, mut norths) = ([STAYS; 3], [STAYS; 4]);
    turn_about(&[1, 3], &[2, 0], &mut easts, &mut norths).unwrap();
    assert_eq!((easts, norths), ([-3, -1, STAYS], [0, -2, STAYS, STAYS]));

    let (mut easts, mut norths) = ([STAYS; 2], [STAYS; 3]);
    readings(&[8.0], &[-9.0], &mut easts, &mut norths).unwrap();
    assert_eq!((easts, norths), ([8, STAYS], [-9, STAYS, STAYS]));

    let (mut easts, mut norths) = ([STAYS; 3], [STAYS; 2]);
    read_record(&[1, 0, 0, 0, 8, 0, 0, 1, 0, 255, 255, 255, 255], &mut easts, &mut norths).unwrap();
    assert_eq!((easts, norths), ([256, STAYS, STAYS], [-1, STAYS]));

    let mut record = [7; 15];
    write_record(Version::One, &[256], &[-1], &mut record).unwrap();
    assert_eq!(record, [1, 0, 0, 0, 8, 0, 0, 1, 0, 255, 255, 255, 255, 7, 7]);
    write_record(Version::Two(Sense::ComingFrom), &[256], &[-1], &mut record).unwrap();
    assert_eq!(record, [2, 0, 0, 0, 9, 1, 255, 255, 255, 0, 0, 0, 0, 1, 7]);
}

#[test]
fn scratch_after_a_call_that_is_done() {
    fn zero(call: impl FnOnce(&mut [u32])) {
        let mut scratch = noise();
        call(&mut scratch);
        assert_eq!(scratch, [0; WORDS]);
    }
    let mut output = [0; 7];
    let (mut easts, mut norths) = ([0; 7], [0; 7]);
    zero(|scratch| assert!(pick(&EAST, 3, scratch).is_ok()));
    zero(|scratch| assert!(round(&EAST, &NORTH, &[3, 4, 5, 2], 1, &mut output, scratch).is_ok()));
    zero(|scratch| assert!(bridge(&EAST, &NORTH, 1, scratch).is_ok()));
    zero(|scratch| assert!(chains(&EAST, &NORTH, &mut output, &mut [0; 2], scratch).is_ok()));
    zero(|scratch| assert!(join(&[2, 2], &[5, 1], &[0, 4], &[0, 0], &mut easts, &mut norths, scratch).is_ok()));
    zero(|scratch| assert!(sum(&[2, 2], &[5, 1], &[0, 4], &[0, 0], &mut easts, &mut norths, scratch).is_ok()));
    zero(|scratch| assert!(sum(&[2, 2], &[5, 1], &[], &[], &mut [], &mut [], scratch).is_ok()));
}

#[test]
fn scratch_and_outputs_after_5() {
    let mut scratch = noise();
    let (mut upper, mut lower) = ([NOISE; 7], [NOISE; 1]);
    assert_eq!(chains(&EAST, &NORTH, &mut upper, &mut lower, &mut scratch).unwrap_err().number, 5);
    assert_eq!((upper, lower, scratch), ([NOISE; 7], [NOISE; 1], [0; WORDS]));

    let mut scratch = noise();
    let mut output = [NOISE; 1];
    assert_eq!(round(&EAST, &NORTH, &[3, 4, 5, 2], 1, &mut output, &mut scratch).unwrap_err().number, 5);
    assert_eq!((output, scratch), ([NOISE; 1], [0; WORDS]));

    let mut scratch = noise();
    let (mut easts, mut norths) = ([STAYS; 3], [STAYS; 2]);
    assert_eq!(join(&[2, 2], &[5, 1], &[0, 4], &[0, 0], &mut easts, &mut norths, &mut scratch).unwrap_err().number, 5);
    assert_eq!((easts, norths, scratch), ([STAYS; 3], [STAYS; 2], [0; WORDS]));

    let mut scratch = noise();
    let (mut easts, mut norths) = ([STAYS; 4], [STAYS; 3]);
    assert_eq!(sum(&[2, 2], &[5, 1], &[0, 4], &[0, 0], &mut easts, &mut norths, &mut scratch).unwrap_err().number, 5);
    assert_eq!((easts, norths, scratch), ([STAYS; 4], [STAYS; 3], [0; WORDS]));
}

#[test]
fn everything_after_other_refusals() {
    let mut scratch = noise();
    let (mut upper, mut lower) = ([NOISE; 7], [NOISE; 7]);
    let (mut easts, mut norths) = ([STAYS; 7], [STAYS; 7]);
    assert_eq!(pick(&EAST, 8, &mut scratch).unwrap_err().number, 8);
    assert_eq!(round(&EAST, &NORTH, &[7], 1, &mut upper, &mut scratch).unwrap_err().number, 7);
    assert_eq!(bridge(&EAST, &NORTH, 4, &mut scratch).unwrap_err().number, 6);
    assert_eq!(chains(&EAST, &NORTH[1..], &mut upper, &mut lower, &mut scratch).unwrap_err().number, 1);
    assert_eq!(chains(&EAST, &NORTH, &mut upper, &mut lower, &mut scratch[..9]).unwrap_err().number, 4);
    assert_eq!(join(&EAST, &NORTH, &[], &[], &mut easts, &mut norths, &mut scratch).unwrap_err().number, 9);
    assert_eq!(sum(&[], &[], &EAST, &NORTH, &mut easts, &mut norths, &mut scratch).unwrap_err().number, 9);
    assert_eq!(sum(&[2, 2], &[5, 1], &[LIMIT], &[0], &mut easts, &mut norths, &mut scratch).unwrap_err().number, 19);
    assert_eq!(turn_about(&EAST, &NORTH, &mut easts, &mut norths).unwrap_err().number, 9);
    assert_eq!(readings(&[0.0, 0.5], &[0.0, 0.0], &mut easts, &mut norths).unwrap_err().number, 14);
    assert_eq!(read_record(&[0], &mut easts, &mut norths).unwrap_err().number, 16);
    assert_eq!(read_record(&[2, 0, 0, 0, 9, 2, 0, 0, 0, 1, 0, 0, 0, 1], &mut easts, &mut norths).unwrap_err().number, 22);
    let mut record = [7; 12];
    for version in Version::ALL {
        assert_eq!(write_record(version, &[256], &[-1], &mut record).unwrap_err().number, 5);
        assert_eq!(write_record(version, &EAST, &NORTH, &mut record).unwrap_err().number, 9);
    }
    assert_eq!(record, [7; 12]);
    assert_eq!(scratch, noise());
    assert_eq!((upper, lower), ([NOISE; 7], [NOISE; 7]));
    assert_eq!((easts, norths), ([STAYS; 7], [STAYS; 7]));
}
