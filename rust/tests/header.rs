//! The declarations of `src/face.rs` are those of `include/nuoskelma.h`: the same structs and functions, with the same names and types in the same order. The
//! limits are the same too, and so are the version, the numbers for no, and the versions and senses of records.

use nuoskelma::{Refusal, Sense, Version};
use std::collections::{BTreeMap, BTreeSet};
use std::fs;
use std::path::Path;

/// Structs and functions by name; each as its fields or parameters in order, `name: type`, and a function's result last.
type Declared = BTreeMap<String, Vec<String>>;

fn text(path: &str) -> String {
    let whole = Path::new(env!("CARGO_MANIFEST_DIR")).join(path);
    fs::read_to_string(&whole).unwrap_or_else(|e| panic!("{}: {e}", whole.display()))
}

/// What stands between `open` and the next `close`, and what follows.
fn between<'a>(text: &'a str, open: &str, close: &str) -> Option<(&'a str, &'a str)> {
    let (_, rest) = text.split_once(open)?;
    rest.split_once(close)
}

/// What the compiler sees: no comments, and no lines of the preprocessor, with those that such a line goes on in.
fn plain(header: &str) -> String {
    let mut c = header;
    let mut plain = String::new();
    while let Some((before, rest)) = c.split_once("/*") {
        plain.push_str(before);
        plain.push(' ');
        c = rest.split_once("*/").expect("a comment ends").1;
    }
    plain.push_str(c);
    let whole = plain.replace("\\\n", " ");
    whole.lines().filter(|line| !line.trim_start().starts_with('#')).collect::<Vec<_>>().join("\n")
}

/// The plain text in two: without its enums, and what stands between the braces of each, by its name.
fn enums_apart(plain: &str) -> (String, BTreeMap<String, String>) {
    let (mut others, mut enums) = (String::new(), BTreeMap::new());
    let mut rest = plain;
    while let Some((before, after)) = rest.split_once("enum ") {
        others.push_str(before.trim_end().trim_end_matches("typedef"));
        let (listed, ending) = between(after, "{", "}").expect("an enum lists its numbers");
        let (named, after_it) = ending.split_once(';').expect("an enum ends");
        let name = after.split('{').next().into_iter().chain([named]).map(str::trim).find(|name| !name.is_empty()).expect("an enum has a name");
        enums.insert(name.to_string(), listed.to_string());
        rest = after_it;
    }
    others.push_str(rest);
    (others, enums)
}

/// The numbers of an enum by name, each its own or one more than the one before.
fn numbers(listed: &str) -> BTreeMap<String, u32> {
    let mut next = 0;
    let items = listed.split(',').map(str::trim).filter(|item| !item.is_empty());
    items
        .map(|item| {
            let (name, number) = match item.split_once('=') {
                Some((name, number)) => (name.trim(), number.trim().parse().unwrap_or_else(|_| panic!("{item} has no plain number"))),
                None => (item, next),
            };
            next = number + 1;
            (name.to_string(), number)
        })
        .collect()
}

/// `nuoskelma_hand_made` is `HandMade` here.
fn struct_name(c: &str) -> String {
    let words = c.strip_prefix("nuoskelma_").unwrap_or_else(|| panic!("{c} is no type of the header")).split('_');
    words.map(|word| word[..1].to_uppercase() + &word[1..]).collect()
}

fn rust_type(c: &str) -> String {
    if let Some(item) = c.strip_suffix('*') {
        return match item.trim().strip_prefix("const ") {
            Some(item) => format!("*const {}", rust_type(item)),
            None => format!("*mut {}", rust_type(item.trim())),
        };
    }
    match c {
        "uint8_t" => "u8".into(),
        "int32_t" => "i32".into(),
        "uint32_t" => "u32".into(),
        "int64_t" => "i64".into(),
        "size_t" => "usize".into(),
        "double" => "f64".into(),
        _ => struct_name(c),
    }
}

/// `const int32_t *east` is `east: *const i32` here.
fn from_c(declared: &str) -> String {
    let declared = declared.split_whitespace().collect::<Vec<_>>().join(" ");
    let at = declared.rfind([' ', '*']).unwrap_or_else(|| panic!("no name in {declared}")) + 1;
    format!("{}: {}", &declared[at..], rust_type(declared[..at].trim()))
}

fn of_the_header(header: &str) -> Declared {
    let (plain, _) = enums_apart(&plain(header));
    let mut declared = Declared::new();
    let mut rest = plain.as_str();
    while let Some((fields, after)) = between(rest, "typedef struct {", "}") {
        let (name, after) = after.split_once(';').unwrap();
        declared.insert(struct_name(name.trim()), fields.split(';').filter(|f| !f.trim().is_empty()).map(from_c).collect());
        rest = after;
    }
    let chunks = plain.split(';').filter(|chunk| chunk.contains('('));
    for chunk in chunks {
        let (head, parameters) = chunk.split_once('(').unwrap();
        let (result, name) = head.trim().rsplit_once(char::is_whitespace).unwrap();
        let parameters = parameters.trim().trim_end_matches(')');
        let mut parts: Vec<String> = parameters.split(',').filter(|part| part.trim() != "void").map(from_c).collect();
        parts.push(rust_type(result.trim()));
        declared.insert(name.to_string(), parts);
    }
    declared
}

fn of_the_crate() -> Declared {
    let code = text("src/face.rs");
    let listed =
        |parts: &str| parts.split(',').map(|part| part.trim().trim_start_matches("pub ").to_string()).filter(|part| !part.is_empty()).collect();
    let mut declared = Declared::new();
    let mut rest = code.as_str();
    while let Some((head, after)) = between(rest, "pub struct ", " {") {
        let (fields, after) = after.split_once('}').unwrap();
        declared.insert(head.to_string(), listed(fields));
        rest = after;
    }
    let (functions, _) = between(&code, "extern \"C\" {", "\n}").unwrap();
    for chunk in functions.split(';').filter(|chunk| chunk.contains("fn ")) {
        let (name, rest) = between(chunk, "fn ", "(").unwrap();
        let (parameters, result) = rest.split_once(") -> ").unwrap();
        let mut parts: Vec<String> = listed(parameters);
        parts.push(result.trim().to_string());
        declared.insert(name.to_string(), parts);
    }
    declared
}

#[test]
fn the_crate_declares_what_the_header_declares() {
    let (header, ours) = (of_the_header(&text("../include/nuoskelma.h")), of_the_crate());
    assert!(header.len() > 20, "{header:?}");
    assert_eq!(header.keys().collect::<Vec<_>>(), ours.keys().collect::<Vec<_>>());
    for (name, parts) in &header {
        assert_eq!(parts, &ours[name], "{name}");
    }
}

#[test]
fn the_limits_are_the_headers() {
    let header = text("../include/nuoskelma.h");
    assert!(header.contains(&format!("#define NUOSKELMA_LIMIT {}\n", nuoskelma::LIMIT)));
    assert!(header.contains(&format!("#define NUOSKELMA_MOST {}\n", nuoskelma::MOST)));
    assert!(header.contains("#define NUOSKELMA_SCRATCH(items) (16 * (size_t)(items) + 64)\n"));
    assert_eq!(nuoskelma::scratch_words(1000), 16 * 1000 + 64);
    assert!(
        header.contains("#define NUOSKELMA_RECORD(version, corners) (8 * (size_t)(corners) + ((version) == NUOSKELMA_RECORD_VERSION_2 ? 6 : 5))\n")
    );
    assert_eq!(Version::ALL.map(|version| nuoskelma::record_bytes(version, 1000)), [8005, 8006, 8006]);
    if let Some((version, _)) = between(&header, "#define NUOSKELMA_VERSION_STRING \"", "\"\n") {
        assert_eq!(version, env!("CARGO_PKG_VERSION"));
    }
}

/// The numbers that the crate has words for.
fn numbers_of_the_crate() -> BTreeSet<u32> {
    (0..=1000).filter(|number| Refusal { number: *number, place: 0 }.words() != "no number of the rules").collect()
}

/// The numbers of the header's enum of refusals are those that the crate has words for, each named once; 0, a call that is done, and 15, which the program
/// alone gives, may be named beside them.
fn held_to(listed: &str) {
    let named = numbers(listed);
    let refused: Vec<u32> = named.values().copied().filter(|number| ![0, 15].contains(number)).collect();
    assert_eq!(refused.len(), refused.iter().collect::<BTreeSet<_>>().len(), "{named:?}");
    assert_eq!(refused.into_iter().collect::<BTreeSet<_>>(), numbers_of_the_crate(), "{named:?}");
}

#[test]
fn the_numbers_for_no_are_the_headers() {
    assert_eq!(numbers_of_the_crate(), (1..=22).filter(|number| *number != 15).collect());
    let (others, enums) = enums_apart(&plain(&text("../include/nuoskelma.h")));
    assert!(!others.contains("enum"));
    held_to(&enums["nuoskelma_refusal"]);
}

#[test]
fn the_versions_and_senses_are_the_headers() {
    let (_, enums) = enums_apart(&plain(&text("../include/nuoskelma.h")));
    let numbered = |name: &str| numbers(&enums[name]).into_values().collect::<BTreeSet<u32>>();
    assert_eq!(numbered("nuoskelma_record_version"), Version::ALL.map(|version| version.number().into()).into());
    assert_eq!(numbered("nuoskelma_sense"), Version::ALL.map(|version| version.sense() as u32).into());
    let senses = [("NUOSKELMA_COMING_FROM", Sense::ComingFrom as u32), ("NUOSKELMA_GOING_TO", Sense::GoingTo as u32)];
    assert!(numbers(&enums["nuoskelma_sense"]).into_iter().eq(senses.map(|(name, number)| (name.to_string(), number))));
}

#[test]
fn a_header_with_an_enum_and_a_version_is_read() {
    const ENUM: &str = "{\n    NUOSKELMA_DONE, /* (0); */\n    NUOSKELMA_LENGTHS = 1,\n    NUOSKELMA_MANY,\n    NUOSKELMA_LAST = 18,\n}";
    let header = text("../include/nuoskelma.h");
    let (before, after) = header.split_once("typedef struct").unwrap();
    let version = "#define NUOSKELMA_VERSION_MINOR 1\n  # define NUOSKELMA_VERSION \\\n    (1000 * 0 + \\\n     NUOSKELMA_VERSION_MINOR);\n";
    for (open, close) in [("enum nuoskelma_refusal ", ";\n"), ("typedef enum ", " nuoskelma_refusal;\n")] {
        let with = format!("{before}{version}{open}{ENUM}{close}typedef struct{after}");
        assert_eq!(of_the_header(&with), of_the_header(&header));
        let named = numbers(&enums_apart(&plain(&with)).1["nuoskelma_refusal"]);
        let expected = [("NUOSKELMA_DONE", 0), ("NUOSKELMA_LENGTHS", 1), ("NUOSKELMA_MANY", 2), ("NUOSKELMA_LAST", 18)];
        assert_eq!(named, expected.map(|(name, number)| (name.to_string(), number)).into());
    }
    held_to("A, B, C, D, E, F, G, H, I, J, K, L, M, N, O, P = 16, Q, R, S, T, U, V");
    for wrong in [
        "A, B, C, D, E, F, G, H, I, J, K, L, M, N, O, P, Q",
        "A, B, C, D, E, F, G, H, I, J, K, L, M, N, O, P = 16, Q, R, S, T, U, V, W",
        "A = 19, B = 19",
    ] {
        assert!(std::panic::catch_unwind(|| held_to(wrong)).is_err(), "{wrong}");
    }
}
