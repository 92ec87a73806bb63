//! The sum of two rings beside the same in plain Rust, the ring of all pairs, and other libraries.

use crate::adding::Rings;
use crate::clock::{contest, done, microseconds, ratio, thousands, Contestant, Table};
use crate::inputs::{several, Sheet};
use crate::library::{ring, scratch_for, sum};
use crate::peers::{sum_peers, Peer, Taken};
use crate::{adding, same};
use std::cell::RefCell;

const WORDS: [&str; 5] = [
    "sums: two rings of n corners each, near the circle of half the limit. The library's time includes the tests of both and the clearing of its scratch, 32n + 64",
    "words. ns / corner: its time over the 2n corners. plain: the same tests, then both outlines followed, in plain Rust without scratch. following / library: what",
    "following takes by itself, in plain Rust without the tests. pairs: all pairs listed and given to the library's ring, where these are 65,536 or fewer. CGAL: its",
    "sum of convex outlines (Polygon_nop_decomposition_2, Exact_predicates_inexact_constructions_kernel); it has the outlines ready and tests nothing. * : its",
    "corners are not the library's. corners: those of the sum, on the first of the inputs.",
];

const MOST_PAIRS: usize = 65_536;

/// Outputs and scratch, long enough for the sum and, where they are few, for the ring of all pairs.
struct Room {
    out: Sheet,
    scratch: Vec<u32>,
    of_pairs: Option<Vec<u32>>,
}

impl Room {
    fn new(n: usize) -> Room {
        let of_pairs = (n * n <= MOST_PAIRS).then(|| vec![7; scratch_for(n * n)]);
        Room { out: Sheet::room(2 * n), scratch: vec![7; scratch_for(2 * n)], of_pairs }
    }

    fn sum(&mut self, (first, second): &Rings) -> Result<usize, u32> {
        sum(first, second, &mut self.out, &mut self.scratch)
    }

    fn ring_of_pairs(&mut self, (first, second): &Rings) -> Option<Result<usize, u32>> {
        let scratch = self.of_pairs.as_mut()?;
        Some(ring(&adding::pairs(first, second), &mut self.out, scratch))
    }
}

pub fn print() {
    let peers = sum_peers();
    let mut heads = ["n", "corners", "library, µs", "ns / corner", "/ plain", "following / library", "/ pairs"].map(String::from).to_vec();
    heads.extend(peers.iter().map(|peer| format!("/ {}", peer.name())));
    let table = Table::new(&WORDS, heads);
    for n in [16, 256, 1_024, 4_096] {
        table.line("circle", &cells(&several(adding::rings, n), &peers));
    }
}

/// The corners of the library's sum, in order; the run ends where the plain one or the ring of all pairs differs.
fn compared(rings: &Rings, room: &mut Room) -> Vec<(i32, i32)> {
    let answer = room.sum(rings).map(|count| room.out.positions(count));
    let mut plain = Sheet::default();
    same("sum, beside the plain one", answer.clone(), adding::sum(&rings.0, &rings.1, &mut plain).map(|count| plain.positions(count)));
    same("a word of scratch other than zero", room.scratch.iter().any(|&word| word != 0), false);
    if let Some(ring) = room.ring_of_pairs(rings) {
        same("sum, beside the ring of all pairs", answer.clone(), ring.map(|count| room.out.positions(count)));
    }
    let mut sum = answer.unwrap_or_default();
    sum.sort_unstable();
    sum
}

fn cells(rings: &[Rings], peers: &[Peer]) -> Vec<String> {
    let n = rings[0].0.len();
    let room = RefCell::new(Room::new(n));
    let sums: Vec<Vec<(i32, i32)>> = rings.iter().map(|rings| compared(rings, &mut room.borrow_mut())).collect();
    let mut taken: Vec<Vec<Taken>> = peers.iter().map(|peer| rings.iter().map(|rings| peer.take(&[&rings.0, &rings.1])).collect()).collect();
    let differs = |taken: &mut Vec<Taken>| taken.iter_mut().zip(&sums).any(|(one, sum)| one.corners() != *sum);
    let marks: Vec<&str> = taken.iter_mut().map(|taken| if differs(taken) { "*" } else { "" }).collect();

    let out = RefCell::new(Sheet::default());
    let mut contestants: Vec<Contestant> = vec![
        Box::new(|i| done(room.borrow_mut().sum(&rings[i]))),
        Box::new(|i| done(adding::sum(&rings[i].0, &rings[i].1, &mut out.borrow_mut()))),
        Box::new(|i| {
            adding::follow(&rings[i].0, &rings[i].1, &mut out.borrow_mut());
            done(&out)
        }),
        // at once where the pairs are too many
        Box::new(|i| done(room.borrow_mut().ring_of_pairs(&rings[i]))),
    ];
    for one in &mut taken {
        contestants.push(Box::new(|i| done(one[i].run())));
    }
    let least = contest(rings.len(), contestants);

    let [library, plain, following, pairs] = [least[0], least[1], least[2], least[3]];
    let of_pairs = if room.borrow().of_pairs.is_some() { ratio(library, pairs) } else { "-".to_string() };
    let per_corner = format!("{:.1}", library / (2 * n) as f64 * 1e9);
    let mut cells =
        vec![thousands(n), thousands(sums[0].len()), microseconds(library), per_corner, ratio(library, plain), ratio(following, library), of_pairs];
    cells.extend(least[4..].iter().zip(marks).map(|(&time, mark)| ratio(library, time) + mark));
    cells
}
