//! A second program beside the library, independent of it: the rules by other methods, and a comparison with the library through its C face.
//!
//! `second self` holds the rules of this program against a still plainer way, and against the soundings.
//! `second [driver=COMMAND] ENTRY..` compares each named entry, and says how many cases it compared: the soundings that are run, short lists and the largest,
//! lists of middle sizes, lists left empty.
//! `second [driver=COMMAND] all` compares every entry, and holds that each function of the header was compared.
//! `second [driver=COMMAND] stack ENTRY..` compares each entry named after it on a stack of 65,536 bytes, and says how deep it went; so does `stack all`.
//! `second [driver=COMMAND] laws` holds the library against itself.
//! `second program=FILE` compares the x86-64 program in that file; `second command=FILE` what starts by itself, on a few texts.
//! `few` before any of these asks for a hundredth of the cases; `header=FILE` is another header to hold.
//! Cases are made by chance that is the same at every run; `SEED=n` in the environment makes others, and a failure tells it.
//! Ends with status 1 at the first difference, 2 if it is not asked for anything.

mod cases;
mod driver;
mod face;
mod gen;
mod own;
mod rules;

use std::collections::BTreeMap;
use std::process::exit;
use std::time::Instant;

use cases::{laws, program, stack, Cases, ENTRIES};
use driver::{fail, Compared, Stack};
use gen::{KINDS, LONG_KINDS, MIDDLE};

const USAGE: &str =
    "usage: [SEED=n] second [few] [driver=COMMAND] [header=FILE] self | [stack] all | [stack] ENTRY.. | laws | program=FILE | command=FILE";

/// How many cases each function of the C face had.
type Counts = BTreeMap<&'static str, u64>;

/// The entries of a word: one by its name, or every one.
fn named(word: &str) -> Vec<&'static Cases> {
    let found: Vec<&Cases> = ENTRIES.iter().filter(|cases| word == "all" || cases.name == word).collect();
    if found.is_empty() {
        println!("no entry is named {word}");
        exit(2)
    }
    found
}

/// Every kind of samples had cases.
fn hold_kinds(entry: &Cases, size: &str, compared: &Compared) {
    for (words, _) in KINDS.iter().chain(&LONG_KINDS) {
        if !compared.kinds.iter().any(|kind| kind.words == *words && kind.count > 0) {
            fail(format!("NOT COMPARED: {}, {size}, of kind: {words}", entry.name));
        }
    }
}

/// Middle sizes mean that every kind of samples had cases, and every length from a power of two to the next.
fn hold_middle(entry: &Cases, compared: &Compared) {
    hold_kinds(entry, "middle sizes", compared);
    let of = |power: u32| compared.lengths.get(&power).copied().unwrap_or(0);
    let each: Vec<String> = (MIDDLE.0..MIDDLE.1).map(|power| of(power).to_string()).collect();
    if (MIDDLE.0..MIDDLE.1).any(|power| of(power) == 0) {
        fail(format!("NOT COMPARED: {}, middle sizes, of some length; cases from {} items on: {}", entry.name, 1 << MIDDLE.0, each.join(", ")));
    }
    println!("{}: middle sizes: {} cases, all agree; from 256, 512, .. 32,768 items on: {}", entry.name, compared.count(), each.join(", "));
}

/// Each list of each function was lent as NULL.
fn hold_empty(entry: &Cases, compared: &Compared) {
    let mut fewest = u64::MAX;
    for function in entry.functions {
        for slice in function.slices {
            match compared.nulls.get(&(function.name, *slice)) {
                Some(&count) => fewest = fewest.min(count),
                None => fail(format!("NOT COMPARED: {}, {slice} lent as NULL", function.name)),
            }
        }
    }
    println!("{}: lists left empty: {} cases, all agree; each list was lent as NULL in {fewest} or more", entry.name, compared.count());
}

fn compare(driver: &str, entry: &Cases, counts: &mut Counts) {
    let start = Instant::now();
    let soundings = driver::compare(driver, Stack::Ordinary, entry.soundings);
    let run: Vec<&str> = soundings.kinds.iter().map(|kind| kind.words).collect();
    println!("{}: soundings run, all agree: {}", entry.name, run.join("; "));
    let mut parts = vec![soundings];
    if let Some(middle) = entry.middle {
        let compared = driver::compare(driver, Stack::Ordinary, middle);
        hold_middle(entry, &compared);
        parts.push(compared);
    }
    if let Some(empty) = entry.empty {
        let compared = driver::compare(driver, Stack::Ordinary, empty);
        hold_empty(entry, &compared);
        parts.push(compared);
    }
    parts.push(driver::compare(driver, Stack::Ordinary, entry.all));
    let count: u64 = parts.iter().map(Compared::count).sum();
    println!("{}: {count} cases compared, all agree ({:.1} s)", entry.name, start.elapsed().as_secs_f64());
    parts.iter().for_each(|part| add(counts, part));
}

fn add(counts: &mut Counts, compared: &Compared) {
    for (function, count) in &compared.functions {
        *counts.entry(function).or_default() += count;
    }
}

fn run(driver: &str, header: &str, on_small_stack: bool, word: &str) {
    let entries = named(word);
    if word == "all" {
        face::hold(header);
    }
    let mut counts = Counts::new();
    for entry in entries {
        if on_small_stack {
            let compared = stack::run(driver, entry);
            // over samples, or over the rings of samples, with scratch
            if entry.functions.iter().any(|function| ["east", "scratch"].iter().all(|slice| function.slices.contains(slice))) {
                hold_kinds(entry, "the largest", &compared);
            }
            add(&mut counts, &compared);
        } else {
            compare(driver, entry, &mut counts);
        }
    }
    if word == "all" {
        face::all_had_cases(header, &counts);
    }
}

fn main() {
    let told = std::panic::take_hook();
    std::panic::set_hook(Box::new(move |panic| {
        told(panic);
        eprintln!("the same cases again: {} before the command", driver::seed_words());
    }));
    let (mut driver, mut header) = ("tests/driver/run".to_string(), face::HEADER.to_string());
    let mut on_small_stack = false;
    let mut asked = 0;
    for word in std::env::args().skip(1) {
        asked += 1;
        match word.split_once('=').unwrap_or((&word, "")) {
            ("driver", command) => driver = command.to_string(),
            ("header", file) => header = file.to_string(),
            ("few", _) => gen::ask_for_few(),
            ("program", file) => program::compare(&program::started_by_kit(file), program::texts()),
            ("command", file) => program::compare(&[file.to_string()], program::few_texts()),
            ("self", _) => own::check(),
            ("laws", _) => laws::run(&driver),
            ("stack", _) => {
                on_small_stack = true;
                stack::try_it(&driver);
            }
            (word, _) => run(&driver, &header, on_small_stack, word),
        }
    }
    if asked == 0 {
        println!("{USAGE}");
        exit(2)
    }
}
