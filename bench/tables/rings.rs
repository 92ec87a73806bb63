//! What using a ring takes, a corner.

use crate::clock::{contest, done, thousands, Table};
use crate::inputs::{circle, several, Sheet};
use crate::library::{cover, read_record, strongest, turn_about};
use crate::writing::FORMS;
use crate::{same, writing};
use std::cell::RefCell;

const WORDS: [&str; 2] = [
    "rings: nanoseconds a corner that the library takes for rings of samples near a circle, each tested first: the strongest set on a course, the cover test of the",
    "middle, the ring turned about, and its record read, in version 1 and in version 2 coming from.",
];

const COURSE: (i32, i32) = (2, 1);
const MIDDLE: (i32, i32) = (0, 0);

pub fn print() {
    let heads = ["corners", "strongest", "cover", "turn about", "record", "coming from"];
    let table = Table::new(&WORDS, heads.map(String::from).to_vec());
    for n in [512, 4_096, 65_536] {
        let rings: Vec<Sheet> = several(circle, n).iter().map(writing::ring).collect();
        let mut cells = vec![thousands(rings[0].len())];
        cells.extend(times(&rings));
        table.line("circle", &cells);
    }
}

/// A ring's records, one in each form.
fn records(ring: &Sheet) -> [Vec<u8>; 2] {
    FORMS.map(|(_, form)| {
        let mut bytes = vec![0; form.size(ring.len())];
        writing::bytes(form, ring, &mut bytes);
        bytes
    })
}

/// The run ends where an answer is not that of plain Rust.
fn compared(ring: &Sheet, records: &[Vec<u8>; 2], out: &mut Sheet) {
    let corners = ring.positions(ring.len());
    let sets: Vec<i64> = corners.iter().map(|&(east, north)| COURSE.0 as i64 * east as i64 + COURSE.1 as i64 * north as i64).collect();
    let most = *sets.iter().max().unwrap_or(&0);
    same("strongest, beside the greatest", strongest(ring, COURSE), Ok((most, sets.iter().position(|&set| set == most).unwrap_or(0))));
    same("cover of the middle", cover(ring, MIDDLE), Ok(true));
    let negated = |list: &[i32]| list.iter().map(|part| -part).collect();
    let about = writing::ring(&Sheet { east: negated(&ring.east), north: negated(&ring.north) });
    same("turn about, beside the ring", turn_about(ring, out).map(|count| out.positions(count)), Ok(about.positions(about.len())));
    for bytes in records {
        same("record, beside the ring", read_record(bytes, out).map(|count| out.positions(count)), Ok(corners.clone()));
    }
}

fn times(rings: &[Sheet]) -> Vec<String> {
    let records: Vec<[Vec<u8>; 2]> = rings.iter().map(records).collect();
    let out = RefCell::new(Sheet::room(rings.iter().map(Sheet::len).max().unwrap_or(0)));
    for (ring, records) in rings.iter().zip(&records) {
        compared(ring, records, &mut out.borrow_mut());
    }
    let least = contest(
        rings.len(),
        vec![
            Box::new(|i| done(strongest(&rings[i], COURSE))),
            Box::new(|i| done(cover(&rings[i], MIDDLE))),
            Box::new(|i| done(turn_about(&rings[i], &mut out.borrow_mut()))),
            Box::new(|i| done(read_record(&records[i][0], &mut out.borrow_mut()))),
            Box::new(|i| done(read_record(&records[i][1], &mut out.borrow_mut()))),
        ],
    );
    let corners: usize = rings.iter().map(Sheet::len).sum();
    least.iter().map(|time| format!("{:.1}", time * 1e9 * rings.len() as f64 / corners as f64)).collect()
}
