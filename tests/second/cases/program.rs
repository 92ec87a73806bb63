//! Cases of the program: texts on its standard input, good and bad.

use std::io::Write;
use std::process::{Command, Stdio};
use std::time::Instant;

use crate::driver::fail;
use crate::gen::{of_every_kind, samples, Chance, Samples};
use crate::rules::program::program;

/// The words that start an x86-64 program here.
pub fn started_by_kit(file: &str) -> Vec<String> {
    match Command::new("tests/driver/words").output() {
        Ok(said) if said.status.success() => String::from_utf8_lossy(&said.stdout).lines().chain([file]).map(str::to_string).collect(),
        other => fail(format!("tests/driver/words says {other:?}")),
    }
}

/// What a program writes for a text, and its exit status, if it ends by itself.
fn written(words: &[String], text: &[u8]) -> std::io::Result<(Vec<u8>, Option<i32>)> {
    let mut child = Command::new(&words[0]).args(&words[1..]).stdin(Stdio::piped()).stdout(Stdio::piped()).spawn()?;
    // a program that refuses need not read on
    let _ = child.stdin.take().expect("the program's input is a pipe").write_all(text);
    let said = child.wait_with_output()?;
    Ok((said.stdout, said.status.code()))
}

fn shown(bytes: &[u8]) -> String {
    const SHOWN: usize = 6_000;
    let rest = if bytes.len() > SHOWN { " .." } else { "" };
    format!("{} bytes: {:?}{rest}", bytes.len(), String::from_utf8_lossy(&bytes[..bytes.len().min(SHOWN)]))
}

/// The status is 0, for a ring and for a refusal.
fn compare_one(words: &[String], text: &[u8]) {
    let rules = program(text);
    let difference = match written(words, text) {
        Err(error) => format!("the program does not run: {error}"),
        Ok((wrote, _)) if wrote != rules.as_bytes() => format!("the rules write {}\nthe program wrote {}", shown(rules.as_bytes()), shown(&wrote)),
        Ok((_, None)) => "the program was ended by a signal".to_string(),
        Ok((_, Some(0))) => return,
        Ok((_, Some(status))) => format!("the program's status is {status}"),
    };
    fail(format!("DIFFERENCE\nstandard input, {}\n{difference}", shown(text)))
}

/// Compares the program that some words start, on all texts. Ends this program at the first difference. Many texts are shared out to the processors; a few
/// are run one after another.
pub fn compare(words: &[String], texts: Vec<Vec<u8>>) {
    let start = Instant::now();
    let processors = std::thread::available_parallelism().map_or(1, |count| count.get());
    let workers = if texts.len() < 100 { 1 } else { processors };
    std::thread::scope(|scope| {
        for worker in 0..workers {
            let own = texts.iter().skip(worker).step_by(workers);
            scope.spawn(move || own.for_each(|text| compare_one(words, text)));
        }
    });
    println!("{}: output and status of {} texts compared, all agree ({:.1} s)", words[words.len() - 1], texts.len(), start.elapsed().as_secs_f64());
}

pub const INPUT_A: &[u8] = b"0 0\n4 0\n4 3\n0 3\n2 1\n2 5\n4 0\n";

/// Lines that are bad, or good only just.
pub const LINES: [&[u8]; 92] = [
    b"",
    b" ",
    b"  ",
    b"\t",
    b"\r",
    b"1",
    b"-1",
    b"-",
    b"+",
    b"1 ",
    b"-1 ",
    b" 1",
    b"1  2",
    b"1   2",
    b"1 2 ",
    b"1 2  ",
    b" 1 2",
    b"  1 2",
    b"1 2 3",
    b"1 2 3 4",
    b"1\t2",
    b"1 \t2",
    b"\t1 2",
    b"1 2\t",
    b"1 2\r",
    b"1 2\r\r",
    b"1\r2",
    b"1\r 2",
    b"\r1 2",
    b"1 2\x0b",
    b"1\x0c2",
    b"1,2",
    b"1, 2",
    b"1;2",
    b"+1 2",
    b"1 +2",
    b"+0 0",
    b"0 +0",
    b"-+1 2",
    b"-0 0",
    b"0 -0",
    b"-0 -0",
    b"0 0",
    b"00 0",
    b"0 00",
    b"-00 0",
    b"01 2",
    b"2 01",
    b"-01 2",
    b"2 -01",
    b"0000001 2",
    b"00000001 2",
    b"- 1",
    b"1 -",
    b"- -",
    b"--1 2",
    b"1 --2",
    b"1- 2",
    b"1 2-",
    b"1-2",
    b"-1 -1",
    b"1 2a",
    b"a 2",
    b"1 a",
    b"abc",
    b"1.0 2",
    b"1 2.5",
    b"1e3 2",
    b"0x1 2",
    b"1_000 2",
    b"nan 1",
    b"inf -inf",
    b"1234567 0",
    b"-1234567 0",
    b"0 -7654321",
    b"12345678 0",
    b"0 12345678",
    b"-12345678 0",
    b"0 -12345678",
    b"9999999 -9999999",
    b"1000000 -1000000",
    b"1000001 0",
    b"0 -1000001",
    b"1 2\0",
    b"\0",
    b"\x001 2",
    b"1\0 2",
    b"1 \xff",
    b"\xc3\xa9 1",
    b"\xef\xbb\xbf1 2",
    b"99999999999999999999 1",
    b"-2147483648 1",
];

fn lines(samples: &Samples) -> Vec<u8> {
    samples.east.iter().zip(&samples.north).flat_map(|(east, north)| format!("{east} {north}\n").into_bytes()).collect()
}

/// So many good lines.
fn good(chance: &mut Chance, count: usize) -> Vec<Vec<u8>> {
    let Samples { east, north } = samples(chance, count).1;
    east.iter().zip(north).map(|(east, north)| format!("{east} {north}\n").into_bytes()).collect()
}

/// So many good lines but for one, in a place.
fn with_line(chance: &mut Chance, count: usize, place: usize, line: &[u8]) -> Vec<u8> {
    let mut lines = good(chance, count);
    lines[place] = [line, b"\n"].concat();
    lines.concat()
}

/// The first place, one in the middle and the last; the only one there is.
fn first_middle_last(chance: &mut Chance, count: usize) -> Vec<usize> {
    if count == 1 {
        vec![0]
    } else {
        vec![0, 1 + chance.below(count - 2), count - 1]
    }
}

fn without_last(text: &[u8]) -> Vec<u8> {
    text[..text.len() - 1].to_vec()
}

/// A sample that README shows with its ring.
const TIDAL_CELL: &str = "samples/tidal-cell.txt";

/// The texts of the page of the rules, and beside them one of each refusal, and the tidal cell.
pub fn few_texts() -> Vec<Vec<u8>> {
    let full = b"3 4\n".repeat(512);
    let tidal_cell = std::fs::read(TIDAL_CELL).unwrap_or_else(|error| fail(format!("{TIDAL_CELL} is not read: {error}")));
    vec![
        tidal_cell,
        INPUT_A.to_vec(),
        Vec::new(),
        b"1 1\n2 2\n3  3\n".to_vec(),
        b"0 0\n1000001 0\n".to_vec(),
        full.clone(),
        [&full[..], b"x"].concat(),
        without_last(INPUT_A),
        b"1000000 -1000000\n".to_vec(),
    ]
}

/// The texts that the program is given.
pub fn texts() -> Vec<Vec<u8>> {
    let mut chance = Chance::new(15);
    let mut texts = few_texts();
    every_line(&mut texts, &mut chance);
    about_512_lines(&mut texts, &mut chance);
    beyond_limit(&mut texts, &mut chance);
    around_input_a(&mut texts, &mut chance);
    other_ends_of_lines(&mut texts, &mut chance);
    large(&mut texts);
    noise(&mut texts, &mut chance);
    good_texts(&mut texts, &mut chance);
    texts
}

/// Every line of the list above in the first, a middle and the last place, with a newline at the end and without; one of them, and a part beyond the limit, in
/// every place there is.
fn every_line(texts: &mut Vec<Vec<u8>>, chance: &mut Chance) {
    for line in LINES {
        for count in [1, 3, 40, 512] {
            for place in first_middle_last(chance, count) {
                let text = with_line(chance, count, place, line);
                texts.push(without_last(&text));
                texts.push(text);
            }
        }
    }
    for place in 0..512 {
        for line in [chance.of(&LINES), b"0 1000001"] {
            texts.push(with_line(chance, 512, place, line));
        }
    }
}

/// 511, 512 and 513 lines; a 513th that is bad text; a bad line, or a part beyond the limit, somewhere before it.
fn about_512_lines(texts: &mut Vec<Vec<u8>>, chance: &mut Chance) {
    for count in [510, 511, 512, 513, 514, 1024, 2000] {
        let text = lines(&samples(chance, count).1);
        texts.push(without_last(&text));
        for more in [&b""[..], b"x", b"\n", b"3", b"3 3", b"3 3\n", b"\0", b"\r", b"\r\n", b" ", b"-", b"1000001 0\n"] {
            texts.push([&text[..], more].concat());
        }
        for place in [0, 1, count / 2, count - 2, count - 1] {
            texts.push(with_line(chance, count, place, b"bad"));
            texts.push(with_line(chance, count, place, b""));
            texts.push(with_line(chance, count, place, b"0 1000001"));
        }
    }
    for line in LINES {
        for count in [511, 512, 513] {
            let text = lines(&samples(chance, count).1);
            texts.push([&text[..], line].concat());
            texts.push([&text[..], line, b"\n"].concat());
        }
        // the 512th is the last that can be bad
        let text = with_line(chance, 513, 511, line);
        texts.push(text);
    }
}

/// A part at the limit or beyond it in the first, a middle and the last place, alone or before or behind a bad line.
fn beyond_limit(texts: &mut Vec<Vec<u8>>, chance: &mut Chance) {
    for line in [&b"1000000 0"[..], b"0 -1000000", b"1000001 0", b"-1000001 0", b"0 1000001", b"0 -1000001", b"9999999 1", b"1 -9999999"] {
        for count in [1, 5, 512] {
            for place in first_middle_last(chance, count) {
                let text = with_line(chance, count, place, line);
                texts.push([&text[..], b"0 0 0\n"].concat());
                texts.push([b"0  0\n", &text[..]].concat());
                texts.push([&text[..], b"-1000001 5\n"].concat());
                texts.push(text);
            }
        }
    }
}

/// Input A with every byte in some place of it, before it, behind it and instead of one of its own; cut at every length; with each byte left out or twice.
fn around_input_a(texts: &mut Vec<Vec<u8>>, chance: &mut Chance) {
    for byte in 0..=255u8 {
        let place = chance.below(INPUT_A.len());
        let (before, behind) = INPUT_A.split_at(place);
        texts.push([before, &[byte], behind].concat());
        texts.push([before, &[byte], &behind[1..]].concat());
        texts.push([INPUT_A, &[byte]].concat());
        texts.push([&[byte], INPUT_A].concat());
    }
    for place in 0..INPUT_A.len() {
        let (before, behind) = INPUT_A.split_at(place);
        texts.push(before.to_vec());
        texts.push([before, &behind[1..]].concat());
        texts.push([before, &behind[..1], behind].concat());
        texts.push([before, b"\n", behind].concat());
        texts.push([before, b" ", behind].concat());
        texts.push([before, b"-", behind].concat());
    }
}

fn replaced(text: &[u8], byte: u8, by: &[u8]) -> Vec<u8> {
    text.iter().flat_map(|&one| if one == byte { by.to_vec() } else { vec![one] }).collect()
}

/// Newlines and spaces of other systems, everywhere.
fn other_ends_of_lines(texts: &mut Vec<Vec<u8>>, chance: &mut Chance) {
    for count in [1, 2, 7, 100, 511, 512, 513] {
        let text = lines(&samples(chance, count).1);
        for by in [&b"\r\n"[..], b"\r", b"\n\r", b"\n\n", b" \n", b"\0\n", b"\0"] {
            texts.push(replaced(&text, b'\n', by));
        }
        for by in [&b"\t"[..], b"  ", b"\0", b" +", b",", b"\n", b""] {
            texts.push(replaced(&text, b' ', by));
        }
    }
}

/// A megabyte of one thing, alone and after a few good lines.
fn large(texts: &mut Vec<Vec<u8>>) {
    const MEGABYTE: usize = 1 << 20;
    for byte in *b"7901 \n-\0\r\tx\xff" {
        let many = vec![byte; MEGABYTE];
        texts.push([b"1 2\n3 4\n", &many[..]].concat());
        texts.push(many);
    }
    for line in [&b"12 -7\n"[..], b"12 -7", b"1 2\r\n", b"1000001 1\n"] {
        texts.push(line.repeat(MEGABYTE / line.len()));
    }
    texts.push([&b"3 3\n".repeat(512)[..], &vec![b'9'; MEGABYTE]].concat());
    texts.push([&b"3 3\n".repeat(511)[..], &vec![b'9'; MEGABYTE]].concat());
}

/// Bytes by chance, bytes of the program's own letters by chance, and lines of both kinds by chance.
fn noise(texts: &mut Vec<Vec<u8>>, chance: &mut Chance) {
    for _ in 0..300 {
        let length = chance.below(3_000);
        texts.push((0..length).map(|_| chance.bits() as u8).collect());
    }
    for _ in 0..700 {
        let length = chance.below(30);
        texts.push((0..length).map(|_| chance.of(b"0011299 \n\n--")).collect());
    }
    for _ in 0..400 {
        let count = 1 + chance.below(6);
        let mut all = good(chance, count);
        for _ in 0..chance.below(3) {
            all[chance.below(count)] = [chance.of(&LINES), b"\n"].concat();
        }
        texts.push(all.concat());
    }
}

/// Samples of every kind, few and as many as are taken.
fn good_texts(texts: &mut Vec<Vec<u8>>, chance: &mut Chance) {
    for _ in 0..600 {
        let n = chance.length();
        texts.push(lines(&samples(chance, n).1));
    }
    for count in [2, 3, 60, 511, 512] {
        texts.extend(of_every_kind(chance, count).iter().map(|(_, samples)| lines(samples)));
    }
}
