//! One round, sentence by sentence, with K found by sorting the slopes and all products in 128 bits.

use std::cmp::{Ordering, Reverse};

use super::chain::{at, Position};
use super::{has_bridge, not_too_many, output_enough, parts_within, refuse, same_length, scratch_enough, Answer};

#[derive(Clone, PartialEq, Eq, Debug)]
pub enum Said {
    Bridge(u32, u32),
    Kept(Vec<u32>),
}

/// The slope of a pair: rise over a run above zero.
#[derive(Clone, Copy)]
struct Slope {
    rise: i128,
    run: i128,
}

fn order(first: Slope, second: Slope) -> Ordering {
    (first.rise * second.run).cmp(&(second.rise * first.run))
}

/// What a round says of a list that has a bridge over a.
pub fn said(east: &[i32], north: &[i32], list: &[u32], a: i32) -> Said {
    let listed: Vec<Position> = list.iter().map(|&number| at(east[number as usize] as i64, north[number as usize] as i64)).collect();
    if list.len() == 2 {
        return if listed[0].east <= a as i64 { Said::Bridge(list[0], list[1]) } else { Said::Bridge(list[1], list[0]) };
    }
    let mut keep = vec![true; list.len()];
    // the pairs of different easts, as the places of the left and of the right sample
    let mut pairs: Vec<(usize, usize)> = Vec::new();
    for first in (0..list.len() / 2).map(|pair| 2 * pair) {
        let second = first + 1;
        match listed[first].east.cmp(&listed[second].east) {
            Ordering::Less => pairs.push((first, second)),
            Ordering::Greater => pairs.push((second, first)),
            Ordering::Equal if listed[second].north > listed[first].north => keep[first] = false,
            Ordering::Equal => keep[second] = false,
        }
    }
    if !pairs.is_empty() {
        if let Some((left, right)) = sift(&listed, &pairs, a as i64, &mut keep) {
            return Said::Bridge(list[left], list[right]);
        }
    }
    let kept = list.iter().zip(keep).filter(|(_, keep)| *keep);
    Said::Kept(kept.map(|(&number, _)| number).collect())
}

/// The places of the bridge's ends if the samples farthest along K stand on both sides of a; else what the pairs need not keep is marked.
fn sift(listed: &[Position], pairs: &[(usize, usize)], a: i64, keep: &mut [bool]) -> Option<(usize, usize)> {
    let slope = |&(left, right): &(usize, usize)| Slope {
        rise: (listed[right].north - listed[left].north) as i128,
        run: (listed[right].east - listed[left].east) as i128,
    };
    let mut slopes: Vec<Slope> = pairs.iter().map(slope).collect();
    slopes.sort_by(|&first, &second| order(first, second));
    let k = slopes[slopes.len().div_ceil(2) - 1];

    // north less K times east, K's run times over
    let height = |place: usize| listed[place].north as i128 * k.run - k.rise * listed[place].east as i128;
    let greatest = (0..listed.len()).map(height).max().expect("a list with a pair is not empty");
    let farthest: Vec<usize> = (0..listed.len()).filter(|&place| height(place) == greatest).collect();
    let of_least_east = *farthest.iter().min_by_key(|&&place| (listed[place].east, place)).expect("some sample is farthest");
    let of_greatest_east = *farthest.iter().min_by_key(|&&place| (Reverse(listed[place].east), place)).expect("some sample is farthest");
    if listed[of_least_east].east <= a && listed[of_greatest_east].east > a {
        return Some((of_least_east, of_greatest_east));
    }
    for pair in pairs {
        let against_k = order(slope(pair), k);
        if listed[of_greatest_east].east <= a && against_k != Ordering::Less {
            keep[pair.0] = false;
        }
        if listed[of_least_east].east > a && against_k != Ordering::Greater {
            keep[pair.1] = false;
        }
    }
    None
}

pub fn round(east: &[i32], north: &[i32], list: &[u32], a: i32, output: &mut [u32], scratch: &mut [u32]) -> Answer<Said> {
    same_length(east.len(), north.len())?;
    not_too_many(east.len().max(list.len()))?;
    parts_within(east, north)?;
    if let Some(place) = list.iter().position(|&number| number as usize >= east.len()) {
        return refuse(7, place);
    }
    scratch_enough(scratch, list.len())?;
    has_bridge(list.iter().map(|&number| east[number as usize]), a)?;
    let said = said(east, north, list, a);
    scratch.fill(0);
    if let Said::Kept(kept) = &said {
        output_enough(output.len(), kept.len())?;
        output[..kept.len()].copy_from_slice(kept);
    }
    Ok(said)
}
