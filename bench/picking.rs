//! A plain picker of ranks, as a text on the method has it: the pivot is the middle of the middles of groups of five, found by picking.

use std::cmp::Ordering;

/// The item of rank `rank`, from 1, repeats counted.
pub fn pick<T: Copy>(mut items: Vec<T>, mut rank: usize, order: impl Fn(&T, &T) -> Ordering + Copy) -> T {
    while items.len() > 10 {
        let pivot = pivot(&items, order);
        let below = items.iter().filter(|x| order(x, &pivot).is_lt()).count();
        let upto = items.iter().filter(|x| order(x, &pivot).is_le()).count();
        if rank <= below {
            items.retain(|x| order(x, &pivot).is_lt());
        } else if rank <= upto {
            return pivot;
        } else {
            items.retain(|x| order(x, &pivot).is_gt());
            rank -= upto;
        }
    }
    items.sort_unstable_by(order);
    items[rank - 1]
}

fn pivot<T: Copy>(items: &[T], order: impl Fn(&T, &T) -> Ordering + Copy) -> T {
    let middles: Vec<T> = items.chunks_exact(5).map(|five| middle([five[0], five[1], five[2], five[3], five[4]], order)).collect();
    let rank = middles.len().div_ceil(2);
    pick(middles, rank, order)
}

fn middle<T: Copy>(mut five: [T; 5], order: impl Fn(&T, &T) -> Ordering + Copy) -> T {
    five.sort_unstable_by(order);
    five[2]
}
