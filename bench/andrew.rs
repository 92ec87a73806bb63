//! Andrew's monotone chain: the samples sorted, then one sweep for each chain.

use crate::inputs::Sheet;

#[derive(Clone, Copy, PartialEq, Eq, PartialOrd, Ord)]
struct Sample {
    east: i32,
    north: i32,
    number: u32,
}

/// The sign says to which side r lies of the way from p to q: below zero to the right.
fn side(p: Sample, q: Sample, r: Sample) -> i64 {
    let (east, north) = (q.east as i64 - p.east as i64, q.north as i64 - p.north as i64);
    east * (r.north as i64 - p.north as i64) - north * (r.east as i64 - p.east as i64)
}

/// Takes a sample east of the chain so far; the turns of the chain have the sign of `turn`.
fn take(chain: &mut Vec<Sample>, next: Sample, turn: i64) {
    while let [.., p, q] = chain[..] {
        if side(p, q, next) * turn > 0 {
            break;
        }
        chain.pop();
    }
    chain.push(next);
}

/// The upper and the lower chain, each corner by the lowest number at its position.
pub fn chains(sheet: &Sheet) -> (Vec<u32>, Vec<u32>) {
    let one = |number: usize| Sample { east: sheet.east[number], north: sheet.north[number], number: number as u32 };
    let mut samples: Vec<Sample> = (0..sheet.len()).map(one).collect();
    samples.sort_unstable();
    samples.dedup_by_key(|sample| (sample.east, sample.north));
    let (mut upper, mut lower): (Vec<Sample>, Vec<Sample>) = (Vec::new(), Vec::new());
    for &sample in &samples {
        let same_east = |chain: &[Sample]| chain.last().is_some_and(|last| last.east == sample.east);
        // of one east the last has the greatest north and the first the least
        if same_east(&upper) {
            upper.pop();
        }
        take(&mut upper, sample, -1);
        if !same_east(&lower) {
            take(&mut lower, sample, 1);
        }
    }
    let numbers = |chain: Vec<Sample>| chain.iter().map(|sample| sample.number).collect();
    (numbers(upper), numbers(lower))
}
