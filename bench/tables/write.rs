//! The record writer beside the same in plain Rust.

use crate::clock::{contest, done, microseconds, ratio, thousands, Table};
use crate::inputs::{circle, several, Sheet};
use crate::library::write_record;
use crate::writing::{Form, FORMS};
use crate::{same, writing};
use std::cell::RefCell;

const WORDS: [&str; 4] = [
    "write: the records of rings of samples near a circle, each ring tested first. An output just long enough.",
    "In version 1, and in version 2 coming from, for which the ring is stored turned about.",
    "plain: the same tests and bytes in plain Rust.",
    "bytes / library: what the bytes take by themselves, in plain Rust without the tests.",
];

pub fn print() {
    let heads = ["corners", "library, µs", "library / plain", "bytes / library"];
    let table = Table::new(&WORDS, heads.map(String::from).to_vec());
    for n in [512, 4_096, 65_536] {
        let rings: Vec<Sheet> = several(circle, n).iter().map(writing::ring).collect();
        for (name, form) in FORMS {
            let [library, plain, bytes] = times(form, &rings);
            table.line(name, &[thousands(rings[0].len()), microseconds(library), ratio(library, plain), ratio(bytes, library)]);
        }
    }
}

fn times(form: Form, rings: &[Sheet]) -> [f64; 3] {
    let room = |ring: &Sheet| vec![7; form.size(ring.len())];
    for ring in rings {
        let (mut one, mut other) = (room(ring), room(ring));
        same("record, beside the plain one", write_record(form, ring, &mut one), writing::write(form, ring, &mut other));
        same("bytes, beside the plain ones", one, other);
    }
    let outputs = RefCell::new(rings.iter().map(room).collect::<Vec<_>>());
    let least = contest(
        rings.len(),
        vec![
            Box::new(|i| done(write_record(form, &rings[i], &mut outputs.borrow_mut()[i]))),
            Box::new(|i| done(writing::write(form, &rings[i], &mut outputs.borrow_mut()[i]))),
            Box::new(|i| {
                writing::bytes(form, &rings[i], &mut outputs.borrow_mut()[i]);
                done(&outputs)
            }),
        ],
    );
    [least[0], least[1], least[2]]
}
