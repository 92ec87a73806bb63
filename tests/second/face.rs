//! The header of the C face, read as text: no function of it may be left out of the comparison, none may be missing from the driver, and no struct's layout may
//! go unheld.

use std::collections::{BTreeMap, BTreeSet};

use crate::cases::{Cases, ENTRIES};
use crate::driver::fail;

pub const HEADER: &str = "include/nuoskelma.h";

/// The last number for no.
const LAST: u32 = 22;

/// The driver as it is compiled, and what it is compiled from.
const OBJECT: &str = "target/driver/driver.o";
const SOURCE: &str = "tests/driver/driver.c";

fn read(path: &str) -> Vec<u8> {
    std::fs::read(path).unwrap_or_else(|error| fail(format!("{path} is not read: {error}")))
}

fn text(path: &str) -> String {
    String::from_utf8_lossy(&read(path)).into_owned()
}

/// A text in C without its comments and the lines of its preprocessor.
fn plain(c: &str) -> String {
    let mut parts = c.split("/*");
    let first = parts.next().unwrap_or("").to_string();
    let whole = parts.filter_map(|part| part.split_once("*/")).fold(first, |all, (_, rest)| all + rest);
    whole.lines().filter(|line| !line.starts_with('#')).collect::<Vec<_>>().join("\n")
}

/// The functions that a header declares, without `nuoskelma_`: each name that stands before an opening parenthesis.
fn declared(header: &str) -> BTreeSet<String> {
    let plain = plain(header);
    let heads = plain.split('(').filter_map(|head| head.rsplit(|c: char| !c.is_ascii_alphanumeric() && c != '_').next());
    heads.filter_map(|name| name.strip_prefix("nuoskelma_")).map(str::to_string).collect()
}

/// The structs that a header declares, with their fields.
fn structs(header: &str) -> Vec<(String, Vec<String>)> {
    let plain = plain(header);
    let bodies = plain.split("typedef struct {").skip(1).filter_map(|rest| rest.split_once('}'));
    let named = bodies.filter_map(|(fields, rest)| Some((fields, rest.split_once(';')?.0.trim().to_string())));
    let field = |declared: &str| declared.trim().rsplit(' ').next().unwrap_or("").to_string();
    named.map(|(fields, name)| (name, fields.split(';').map(field).filter(|field| !field.is_empty()).collect())).collect()
}

/// The numbers of the header's enum, in its order.
fn numbers(header: &str) -> Vec<String> {
    let plain = plain(header);
    let body = plain.split_once("enum nuoskelma_refusal {").and_then(|(_, rest)| rest.split_once('}')).map_or("", |(body, _)| body);
    body.split(',').filter_map(|one| one.split_once('=')).map(|(_, number)| number.trim().to_string()).collect()
}

/// Before anything is run: the functions that the list of entries compares are the header's, one by one, those over lists at middle sizes and with empty ones
/// too; the driver that is built calls each; the driver's source holds the size of every struct and the place of every field; and the header's enum has a name
/// for 0, which says that the call is done, and for each number for no.
pub fn hold(header: &str) {
    let wanted = declared(&text(header));
    let listed: Vec<String> = ENTRIES.iter().flat_map(|entry| entry.functions).map(|function| function.name.to_string()).collect();
    let compared: BTreeSet<String> = listed.iter().cloned().collect();
    if wanted.is_empty() || listed.len() != compared.len() {
        fail(format!("{header} declares {wanted:?}; compared, perhaps twice: {listed:?}"));
    }
    if let Some(function) = wanted.difference(&compared).next() {
        fail(format!("NOT COMPARED: {header} declares nuoskelma_{function}, which no entry compares"));
    }
    if let Some(function) = compared.difference(&wanted).next() {
        fail(format!("NOT DECLARED: an entry compares nuoskelma_{function}, which {header} does not declare"));
    }
    let lent_lists = |entry: &&Cases| entry.functions.iter().any(|function| !function.slices.is_empty());
    if let Some(entry) = ENTRIES.iter().filter(lent_lists).find(|entry| entry.middle.is_none() || entry.empty.is_none()) {
        fail(format!("NOT COMPARED: {} at middle sizes, or with lists left empty", entry.name));
    }
    // a name that the object has is one that it calls: the object is made of the driver alone
    let object = read(OBJECT);
    for function in &wanted {
        let symbol = format!("\0nuoskelma_{function}\0");
        if !object.windows(symbol.len()).any(|bytes| bytes == symbol.as_bytes()) {
            fail(format!("NOT CALLED: {OBJECT} does not call nuoskelma_{function}"));
        }
    }
    let (source, structs) = (text(SOURCE), structs(&text(header)));
    for (name, fields) in &structs {
        let size = format!("\nSIZE({name}, ");
        let places = fields.iter().map(|field| format!("\nAT({name}, {field}, "));
        if let Some(missing) = std::iter::once(size).chain(places).find(|assertion| !source.contains(assertion)) {
            fail(format!("NOT HELD: {SOURCE} has no {}..)", missing.trim()));
        }
    }
    let numbers = numbers(&text(header));
    if numbers != (0..=LAST).map(|number| number.to_string()).collect::<Vec<_>>() {
        fail(format!("NOT NAMED: the enum of {header} has names for {numbers:?} and not for 0 to {LAST}"));
    }
    println!(
        "{header}: {} functions, each compared by an entry and called by the driver; {} structs, their layout held; {} numbers with a name",
        wanted.len(),
        structs.len(),
        numbers.len()
    );
}

/// After everything is run: each function of the header had cases.
pub fn all_had_cases(header: &str, counts: &BTreeMap<&'static str, u64>) {
    let wanted = declared(&text(header));
    for function in &wanted {
        if counts.get(function.as_str()).map_or(true, |&count| count == 0) {
            fail(format!("NOT COMPARED: nuoskelma_{function} had no case"));
        }
    }
    let fewest = wanted.iter().filter_map(|function| counts.get(function.as_str())).min().unwrap_or(&0);
    println!("{header}: each of {} functions was compared, in {fewest} cases or more, with {}", wanted.len(), crate::driver::seed_words());
}
