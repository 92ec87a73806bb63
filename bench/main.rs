//! Times of the library's entries as ratios to peers, in one run, on this processor. No time decides how the run ends; an answer that differs does.
//!
//! Arguments: tables (pick, bridge, chains, write, sums, join, rings), or check, which holds the peers against each other.

mod adding;
mod andrew;
mod check;
mod clock;
mod inputs;
mod library;
mod literal;
mod peers;
mod picking;
mod tables;
mod writing;

/// Ends the run unless two answers are the same.
pub fn same<T: PartialEq + std::fmt::Debug>(what: &str, one: T, other: T) {
    if one != other {
        let words = |answer: T| format!("{answer:?}").chars().take(200).collect::<String>();
        eprintln!("DIFFERENT: {what}: {} and {}", words(one), words(other));
        std::process::exit(1)
    }
}

fn main() {
    for word in std::env::args().skip(1) {
        match tables::TABLES.iter().find(|table| table.0 == word) {
            Some((_, print)) => print(),
            None if word == "check" => check::check(),
            None => {
                eprintln!("no table {word}");
                std::process::exit(2)
            }
        }
    }
}
