//! The bridge beside the same rule in plain Rust.

use crate::clock::{contest, done, microseconds, ratio, thousands, Table};
use crate::inputs::{several, square, tides, Kind, Sheet};
use crate::library::{bridge, scratch_for};
use crate::{literal, picking, same};

const WORDS: [&str; 2] = [
    "bridge: over the east of rank n/2. The library's time includes the clearing of its scratch, 16n + 64 words.",
    "literal: the same rule as it is written, over lists of sample numbers, in plain Rust.",
];

const KINDS: [Kind<Sheet>; 2] = [("tides", tides), ("square", square)];

pub fn print() {
    let heads = ["n", "library, µs", "library / literal"];
    let table = Table::new(&WORDS, heads.map(String::from).to_vec());
    for (name, make) in KINDS {
        for n in [4_096, 65_536] {
            let [library, literal] = times(&several(make, n));
            table.line(name, &[thousands(n), microseconds(library), ratio(library, literal)]);
        }
    }
}

fn times(sheets: &[Sheet]) -> [f64; 2] {
    let middle = |sheet: &Sheet| picking::pick(sheet.east.clone(), sheet.len() / 2, i32::cmp);
    let cuts: Vec<i32> = sheets.iter().map(middle).collect();
    let mut scratch = vec![7; scratch_for(sheets[0].len())];
    for (sheet, &a) in sheets.iter().zip(&cuts) {
        same("bridge, beside the literal one", bridge(sheet, a, &mut scratch), literal::bridge(sheet, a).ok_or(6));
        same("a word of scratch other than zero", scratch.iter().any(|&word| word != 0), false);
    }
    let least = contest(
        sheets.len(),
        vec![Box::new(|i| done(bridge(&sheets[i], cuts[i], &mut scratch))), Box::new(|i| done(literal::bridge(&sheets[i], cuts[i])))],
    );
    [least[0], least[1]]
}
