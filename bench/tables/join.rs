//! The join of two rings beside Andrew's monotone chain over the corners of both, and other libraries.

use crate::clock::{contest, done, microseconds, ratio, thousands, Contestant, Table};
use crate::inputs::{Chance, Sheet, SHEETS};
use crate::library::{join, scratch_for};
use crate::peers::{peers, Peer, Taken};
use crate::writing::ring;
use crate::{andrew, same};
use std::cell::RefCell;

const WORDS: [&str; 4] = [
    "join: the rings of two sheets of n samples each. The library's time includes the tests of both rings and the clearing of its scratch, 16 words for each of",
    "their corners and 64 more. ns / corner: its time over the corners of both. Andrew: his monotone chain in Rust over these corners, by number. Each column after it",
    "is the library's time over that peer's, which has the corners of both ready in its own kind of list, and tests nothing. * : its corners are not the library's.",
    "corners: those of both rings, and of their join, on the first of the inputs.",
];

pub fn print() {
    let peers = peers();
    let mut heads = ["n", "corners", "of the join", "library, µs", "ns / corner", "/ Andrew"].map(String::from).to_vec();
    heads.extend(peers.iter().map(|peer| format!("/ {}", peer.name())));
    let table = Table::new(&WORDS, heads);
    for (name, make) in SHEETS {
        for n in [512, 4_096, 65_536] {
            // so many that a processor does not learn their branches
            let pairs: Vec<Pair> = (0..(65_536 / n).max(1)).map(|seed| Pair::new(&mut Chance::new(seed as u64), make, n)).collect();
            let mut line = vec![thousands(n)];
            line.extend(cells(&pairs, &peers));
            table.line(name, &line);
        }
    }
}

/// Two rings, and the corners of both in one list.
struct Pair {
    first: Sheet,
    second: Sheet,
    both: Sheet,
}

impl Pair {
    fn new(chance: &mut Chance, make: fn(&mut Chance, usize) -> Sheet, n: usize) -> Pair {
        let (first, second) = (ring(&make(chance, n)), ring(&make(chance, n)));
        let joined = |one: &[i32], other: &[i32]| [one, other].concat();
        let both = Sheet { east: joined(&first.east, &second.east), north: joined(&first.north, &second.north) };
        Pair { first, second, both }
    }

    fn join(&self, out: &mut Sheet, scratch: &mut [u32]) -> Result<usize, u32> {
        join(&self.first, &self.second, out, &mut scratch[..scratch_for(self.both.len())])
    }
}

/// The corners of the library's join, in order; the run ends where the ring of both rings' corners differs.
fn compared(pair: &Pair, out: &mut Sheet, scratch: &mut [u32]) -> Vec<(i32, i32)> {
    scratch.fill(7);
    let answer = pair.join(out, scratch).map(|count| out.positions(count));
    let plain = ring(&pair.both);
    same("join, beside the ring of both", answer.clone(), Ok(plain.positions(plain.len())));
    same("a word of scratch other than zero", scratch[..scratch_for(pair.both.len())].iter().any(|&word| word != 0), false);
    let mut corners = answer.unwrap_or_default();
    corners.sort_unstable();
    corners
}

fn cells(pairs: &[Pair], peers: &[Peer]) -> Vec<String> {
    let most = pairs.iter().map(|pair| pair.both.len()).max().unwrap_or(0);
    let lent = RefCell::new((Sheet::room(most), vec![7; scratch_for(most)]));
    let joins: Vec<Vec<(i32, i32)>> = pairs
        .iter()
        .map(|pair| {
            let (out, scratch) = &mut *lent.borrow_mut();
            compared(pair, out, scratch)
        })
        .collect();
    let mut taken: Vec<Vec<Taken>> = peers.iter().map(|peer| pairs.iter().map(|pair| peer.take(&[&pair.both])).collect()).collect();
    let differs = |taken: &mut Vec<Taken>| taken.iter_mut().zip(&joins).any(|(one, join)| one.corners() != *join);
    let marks: Vec<&str> = taken.iter_mut().map(|taken| if differs(taken) { "*" } else { "" }).collect();

    let mut contestants: Vec<Contestant> = vec![
        Box::new(|i| {
            let (out, scratch) = &mut *lent.borrow_mut();
            done(pairs[i].join(out, scratch))
        }),
        Box::new(|i| done(andrew::chains(&pairs[i].both))),
    ];
    for one in &mut taken {
        contestants.push(Box::new(|i| done(one[i].run())));
    }
    let least = contest(pairs.len(), contestants);

    let corners: usize = pairs.iter().map(|pair| pair.both.len()).sum();
    let per_corner = format!("{:.1}", least[0] * 1e9 * pairs.len() as f64 / corners as f64);
    let mut cells = vec![thousands(pairs[0].both.len()), thousands(joins[0].len()), microseconds(least[0]), per_corner, ratio(least[0], least[1])];
    cells.extend(least[2..].iter().zip(marks).map(|(&time, mark)| ratio(least[0], time) + mark));
    cells
}
