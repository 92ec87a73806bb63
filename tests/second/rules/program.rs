//! The program: what it writes for what it reads.

use super::chain::{positions, ring_of, Position};
use super::{parts_within, refuse, Answer};

const MOST_LINES: usize = 512;

/// A number as it is written: one to seven digits that read back as they stand.
fn number(text: &str) -> Option<i32> {
    let value: i32 = text.parse().ok()?;
    let as_written = value.to_string() == text;
    let digits = text.trim_start_matches('-').len();
    (as_written && digits <= 7).then_some(value)
}

/// A line without its newline.
fn sample(line: &[u8]) -> Option<(i32, i32)> {
    let (east, north) = std::str::from_utf8(line).ok()?.split_once(' ')?;
    Some((number(east)?, number(north)?))
}

/// All text is read first; only then are the parts tested.
fn ring_of_text(text: &[u8]) -> Answer<Vec<Position>> {
    let mut samples: Vec<(i32, i32)> = Vec::new();
    for (place, line) in text.split_inclusive(|&byte| byte == b'\n').enumerate() {
        if place == MOST_LINES {
            return refuse(2, 0);
        }
        match line.strip_suffix(b"\n").and_then(sample) {
            Some(read) => samples.push(read),
            None => return refuse(15, place + 1),
        }
    }
    let (east, north): (Vec<i32>, Vec<i32>) = samples.into_iter().unzip();
    parts_within(&east, &north)?;
    Ok(ring_of(&positions(&east, &north)))
}

pub fn program(text: &[u8]) -> String {
    match ring_of_text(text) {
        Err(no) => format!("refused {} {}\n", no.number, no.place),
        Ok(ring) => {
            let corner = |corner: &Position| format!("{} {}\n", corner.east, corner.north);
            format!("ring {}\n", ring.len()) + &ring.iter().map(corner).collect::<String>()
        }
    }
}
