//! Both chains beside the same rules in plain Rust, Andrew's monotone chain, and other libraries.

use crate::clock::{contest, done, microseconds, ratio, thousands, Contestant, Table};
use crate::inputs::{several, Sheet, SHEETS};
use crate::library::{chains, Room};
use crate::peers::{corners, peers, Peer, Taken};
use crate::{andrew, literal, same};

const WORDS: [&str; 4] = [
    "chains: both chains, by sample numbers. The library's time includes the clearing of its scratch, 16n + 64 words.",
    "literal: the same rules as they are written, over lists of sample numbers, in plain Rust. Andrew: his monotone chain in Rust. Each column after it is the",
    "library's time over that peer's. A peer of another library has its own kind of list ready and answers positions. * : its corners are not the library's.",
    "corners: the positions of both chains, on the first of the inputs.",
];

pub fn print() {
    let peers = peers();
    let mut heads = ["n", "corners", "library, µs", "/ literal", "/ Andrew"].map(String::from).to_vec();
    heads.extend(peers.iter().map(|peer| format!("/ {}", peer.name())));
    let table = Table::new(&WORDS, heads);
    for (name, make) in SHEETS {
        for n in [512, 4_096, 65_536] {
            table.line(name, &cells(&several(make, n), &peers));
        }
    }
}

/// The library's chains; the run ends where the literal ones or Andrew's differ.
fn compared(sheet: &Sheet, room: &mut Room) -> (Vec<u32>, Vec<u32>) {
    let answer = chains(sheet, room).map(|(upper, lower)| (room.upper[..upper].to_vec(), room.lower[..lower].to_vec()));
    let plain = literal::chains(sheet);
    same("chains, beside the literal ones", answer, Ok(plain.clone()));
    same("chains, beside Andrew's", &plain, &andrew::chains(sheet));
    same("a word of scratch other than zero", room.scratch.iter().any(|&word| word != 0), false);
    plain
}

fn cells(sheets: &[Sheet], peers: &[Peer]) -> Vec<String> {
    let n = sheets[0].len();
    let mut room = Room::new(n);
    room.scratch.fill(7);
    let outlines: Vec<Vec<(i32, i32)>> = sheets.iter().map(|sheet| corners(sheet, &compared(sheet, &mut room))).collect();
    let mut taken: Vec<Vec<Taken>> = peers.iter().map(|peer| sheets.iter().map(|sheet| peer.take(&[sheet])).collect()).collect();
    let differs = |taken: &mut Vec<Taken>| taken.iter_mut().zip(&outlines).any(|(one, outline)| one.corners() != *outline);
    let marks: Vec<&str> = taken.iter_mut().map(|taken| if differs(taken) { "*" } else { "" }).collect();

    let mut contestants: Vec<Contestant> = vec![
        Box::new(|i| done(chains(&sheets[i], &mut room))),
        Box::new(|i| done(literal::chains(&sheets[i]))),
        Box::new(|i| done(andrew::chains(&sheets[i]))),
    ];
    for one in &mut taken {
        contestants.push(Box::new(|i| done(one[i].run())));
    }
    let least = contest(sheets.len(), contestants);

    let mut cells = vec![thousands(n), thousands(outlines[0].len()), microseconds(least[0])];
    cells.extend(least[1..].iter().enumerate().map(|(k, &time)| ratio(least[0], time) + if k < 2 { "" } else { marks[k - 2] }));
    cells
}
