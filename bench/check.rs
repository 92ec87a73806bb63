//! The peers held against each other, without the library: a ratio to a peer that answers something else would say nothing.

use crate::inputs::{Chance, Sheet, SHEETS};
use crate::peers::{corners, peers, sum_peers};
use crate::writing::Form;
use crate::{adding, andrew, literal, picking, same, writing};

pub fn check() {
    pickers();
    writers();
    adders();
    short_sheets();
    long_sheets();
}

fn pickers() {
    let mut chance = Chance::new(1);
    for _ in 0..20_000 {
        let reach = [1, 30, i32::MAX][chance.below(3)];
        let mut list: Vec<i32> = (0..1 + chance.below(100)).map(|_| chance.between(-reach, reach)).collect();
        let rank = 1 + chance.below(list.len());
        let picked = picking::pick(list.clone(), rank, i32::cmp);
        list.sort_unstable();
        same("the plain picker, beside a sort", picked, list[rank - 1]);
    }
    println!("the plain picker agrees with a sort on 20,000 lists");
}

/// The plain writer takes the ring of a sheet, and the sheet itself exactly if it is its own ring. Coming from, it writes what it writes going to of the ring of the
/// sheet with both signs changed.
fn writers() {
    let mut chance = Chance::new(4);
    for _ in 0..20_000 {
        let reach = [1, 3, 1_000_000][chance.below(3)];
        let mut sheet = Sheet::default();
        for _ in 0..chance.below(7) {
            sheet.push(chance.between(-reach, reach) as f64, chance.between(-reach, reach) as f64);
        }
        let ring = writing::ring(&sheet);
        let own = (&ring.east, &ring.north) == (&sheet.east, &sheet.north);
        for (_, form) in writing::FORMS {
            let write = |sheet: &Sheet| writing::write(form, sheet, &mut vec![0; form.size(sheet.len())]);
            same("the plain writer on a ring", write(&ring), Ok(form.size(ring.len())));
            same("the plain writer on samples", write(&sheet), if own { Ok(form.size(sheet.len())) } else { Err(9) });
        }
        let mut about = Sheet::default();
        (0..sheet.len() as u32).map(|number| sheet.position(number)).for_each(|(east, north)| about.push(-east as f64, -north as f64));
        let written = |sense, ring: &Sheet| {
            let form = Form { version: 2, sense };
            let mut out = vec![sense; form.size(ring.len())];
            writing::bytes(form, ring, &mut out);
            out
        };
        same("the plain writer, coming from", &written(1, &ring)[6..], &written(0, &writing::ring(&about))[6..]);
    }
    println!("the plain writer takes rings alone, on 20,000 sheets");
}

/// The plain sum of two rings is the ring of all pairs of corners.
fn adders() {
    let mut chance = Chance::new(5);
    for _ in 0..20_000 {
        let reach = [1, 3, 600_000][chance.below(3)];
        let [first, second] = [(); 2].map(|()| {
            let mut sheet = Sheet::default();
            for _ in 0..chance.below(7) {
                sheet.push(chance.between(-reach, reach) as f64, chance.between(-reach, reach) as f64);
            }
            writing::ring(&sheet)
        });
        let pairs = adding::pairs(&first, &second);
        let beyond = pairs.east.iter().chain(&pairs.north).any(|part| part.abs() > 1_000_000);
        let mut sum = Sheet::default();
        let answer = adding::sum(&first, &second, &mut sum);
        same("the plain sum, or its refusal", answer, if beyond { Err(19) } else { Ok(sum.len()) });
        let ring = if beyond { Sheet::default() } else { writing::ring(&pairs) };
        same("the plain sum, beside the ring of all pairs", (sum.east, sum.north), (ring.east, ring.north));
    }
    println!("the plain sum is the ring of all pairs, on 20,000 times two rings");
    for n in [16, 256, 1_024, 4_096] {
        let (first, second) = adding::rings(&mut Chance::new(6), n);
        let mut sum = Sheet::default();
        let answer = adding::sum(&first, &second, &mut sum);
        same("the plain sum of two rings near a circle", answer, Ok(sum.len()));
        let mut outline: Vec<(i32, i32)> = (0..sum.len() as u32).map(|place| sum.position(place)).collect();
        outline.sort_unstable();
        println!("two rings of {n} corners: {} corners of the plain sum", outline.len());
        for peer in sum_peers() {
            let found = peer.take(&[&first, &second]).corners();
            println!("  {} answers {} {} corners", peer.name(), if found == outline { "the same" } else { "other," }, found.len());
        }
    }
}

/// Holds the literal chains against Andrew's, and the literal bridge over a against the edge of Andrew's upper chain.
fn held(sheet: &Sheet, a: i32) -> (Vec<u32>, Vec<u32>) {
    let plain = literal::chains(sheet);
    let swept = andrew::chains(sheet);
    same("literal chains, beside Andrew's", &plain, &swept);
    let over = |edge: &&[u32]| sheet.position(edge[0]).0 <= a && a < sheet.position(edge[1]).0;
    let edge = swept.0.windows(2).find(over).map(|edge| (edge[0], edge[1]));
    same("the literal bridge, beside an edge of Andrew's chain", literal::bridge(sheet, a), edge);
    plain
}

fn short_sheets() {
    let mut chance = Chance::new(2);
    for _ in 0..60_000 {
        let (wide, high) = ([0, 2, 9, 1_000_000][chance.below(4)], [0, 2, 9, 1_000_000][chance.below(4)]);
        let mut sheet = Sheet::default();
        for _ in 0..chance.below(40) {
            sheet.push(chance.between(-wide, wide) as f64, chance.between(-high, high) as f64);
        }
        let a = chance.between(-wide - 1, wide + 1);
        held(&sheet, a);
    }
    println!("literal chains and bridges agree with Andrew's on 60,000 sheets of up to 39 samples");
}

fn long_sheets() {
    let peers = peers();
    for (name, make) in SHEETS {
        for n in [512, 4_096, 65_536] {
            let mut chance = Chance::new(3);
            let sheet = make(&mut chance, n);
            let a = sheet.position(chance.below(n) as u32).0;
            let outline = corners(&sheet, &held(&sheet, a));
            println!("{name}, {n} samples: {} corners, literal chains and bridge agree with Andrew's", outline.len());
            for peer in &peers {
                let found = peer.take(&[&sheet]).corners();
                if found != outline {
                    println!("  {} answers {} other corners", peer.name(), found.len());
                }
            }
        }
    }
    let names: Vec<String> = peers.iter().map(|peer| peer.name()).collect();
    println!("peers of other libraries: {}", if names.is_empty() { "none".to_string() } else { names.join(", ") });
}
