//! The library on a stack of 65,536 bytes: as many samples, numbers, readings or corners as are taken, of every kind, and one more. What is left is compared
//! as on any stack. First the small stack itself is tried: it counts right, and it is no larger.

use std::os::unix::process::ExitStatusExt;

use super::Cases;
use crate::driver::{compare, end_of, fail, Case, Compared, Desk, Stack, SMALL_STACK, USE_STACK};

/// The signal that ends a program which touches what it may not.
const TOUCHED: i32 = 11;

fn put(desk: &mut Desk, bytes: i64) {
    desk.put(Case { entry: &USE_STACK, words: "use of the stack", scalars: vec![bytes], lent: Vec::new(), said: Vec::new(), altered: Vec::new() });
}

/// The driver uses almost all of the small stack, and the count is right to within what its own calls take; then a little more than all, and is ended.
pub fn try_it(driver: &str) {
    const OWN: i64 = 512;
    for bytes in [0, 10_000, SMALL_STACK - OWN] {
        let counted = compare(driver, Stack::Small, move |desk| put(desk, bytes)).kinds[0].deepest;
        if !(bytes..=bytes + OWN).contains(&counted) {
            fail(format!("the small stack: {bytes} bytes were used and {counted} counted"));
        }
    }
    match end_of(driver, Stack::Small, |desk| put(desk, SMALL_STACK)) {
        Some(status) if status.signal() == Some(TOUCHED) => {}
        other => fail(format!("the small stack: {SMALL_STACK} bytes and its calls, and the driver came to {other:?}")),
    }
    println!("stack: {} bytes are counted right; {SMALL_STACK} are too many, and that is caught", SMALL_STACK - OWN);
}

fn deepest(compared: &Compared) -> i64 {
    compared.kinds.iter().map(|kind| kind.deepest).max().unwrap_or(0)
}

pub fn run(driver: &str, entry: &Cases) -> Compared {
    let compared = compare(driver, Stack::Small, entry.largest);
    let each: Vec<String> = compared.kinds.iter().map(|kind| format!("{} {}", kind.words, kind.deepest)).collect();
    println!("stack: {}: {} of {SMALL_STACK} bytes at most, in {} cases that all agree", entry.name, deepest(&compared), compared.count());
    println!("  {}", each.join("; "));
    compared
}
