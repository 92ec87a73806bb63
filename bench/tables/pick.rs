//! The rank picker beside other pickers.

use crate::clock::{contest, done, microseconds, ratio, thousands, Table};
use crate::inputs::{several, LISTS};
use crate::library::{pick, scratch_for};
use crate::{picking, same};
use std::cell::RefCell;

const WORDS: [&str; 3] = [
    "pick: the number of rank n/2. Every time includes a copy of the list; the library's includes the clearing of its scratch, 16n + 64 words.",
    "plain: middle of middles in plain Rust. select: the standard library's select_nth_unstable.",
    "clearing / library: what zeroing as much scratch takes by itself.",
];

pub fn print() {
    let heads = ["n", "library, µs", "library / plain", "library / select", "clearing / library"];
    let table = Table::new(&WORDS, heads.map(String::from).to_vec());
    for (name, make) in LISTS {
        for n in [512, 4_096, 65_536] {
            let [library, plain, select, clearing] = times(&several(make, n), n / 2);
            let cells = [thousands(n), microseconds(library), ratio(library, plain), ratio(library, select), ratio(clearing, library)];
            table.line(name, &cells);
        }
    }
}

fn plain(list: &[i32], rank: usize) -> i32 {
    picking::pick(list.to_vec(), rank, i32::cmp)
}

fn select(list: &[i32], rank: usize) -> i32 {
    *list.to_vec().select_nth_unstable(rank - 1).1
}

fn times(lists: &[Vec<i32>], rank: usize) -> [f64; 4] {
    let mut scratch = vec![7; scratch_for(lists[0].len())];
    for list in lists {
        let answer = pick(list, rank, &mut scratch);
        same("pick, beside the plain picker", answer, Ok(plain(list, rank)));
        same("pick, beside select_nth_unstable", answer, Ok(select(list, rank)));
        same("a word of scratch other than zero", scratch.iter().any(|&word| word != 0), false);
    }
    let scratch = RefCell::new(scratch);
    let least = contest(
        lists.len(),
        vec![
            Box::new(|i| done(pick(&lists[i], rank, &mut scratch.borrow_mut()))),
            Box::new(|i| done(plain(&lists[i], rank))),
            Box::new(|i| done(select(&lists[i], rank))),
            Box::new(|_| {
                scratch.borrow_mut().fill(0);
                done(&scratch)
            }),
        ],
    );
    [least[0], least[1], least[2], least[3]]
}
