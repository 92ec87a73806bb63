//! The record reader and the record writer.

use std::cmp::Ordering;

use super::chain::{positions, write_ring, Position};
use super::using::{envelope, is_envelope, turned};
use super::{not_too_many, output_enough, parts_within, refuse, Answer};

pub const HEAD: usize = 5;

/// A record's version, and its sense: 0 going to, 1 coming from.
#[derive(Clone, Copy, Debug)]
pub struct Form {
    pub version: u8,
    pub sense: u8,
}

/// The forms in which a ring has a record.
pub const FORMS: [Form; 3] = [Form { version: 1, sense: 0 }, Form { version: 2, sense: 0 }, Form { version: 2, sense: 1 }];

/// The record that stores a list of positions as it is.
pub fn record_of(form: Form, stored: &[Position]) -> Vec<u8> {
    let mut rest = Vec::new();
    if form.version == 2 {
        rest.push(form.sense);
    }
    for p in stored {
        rest.extend((p.east as i32).to_be_bytes());
        rest.extend((p.north as i32).to_be_bytes());
    }
    [&[form.version][..], &(rest.len() as u32).to_be_bytes(), &rest].concat()
}

/// The going-to ring that a stored one means, and the ring to be stored for a going-to one.
fn in_sense(sense: u8, ring: Vec<Position>) -> Vec<Position> {
    if sense == 1 {
        turned(&ring)
    } else {
        ring
    }
}

fn big_endian(bytes: &[u8]) -> u32 {
    bytes.iter().fold(0, |number, &byte| number << 8 | byte as u32)
}

/// The sense, and the bytes of the corners, if they are as many as the head says and whole corners.
fn taken_apart(bytes: &[u8]) -> Answer<(u8, &[u8])> {
    let given = bytes.len();
    let sense_bytes = match bytes.first() {
        None => return refuse(17, 0),
        Some(1) => 0,
        Some(2) => 1,
        Some(_) => return refuse(16, 0),
    };
    let Some(length) = bytes.get(1..HEAD) else {
        return refuse(17, given);
    };
    let length = big_endian(length) as usize;
    if !length.checked_sub(sense_bytes).is_some_and(|corners| corners % 8 == 0) {
        return refuse(21, 1);
    }
    match given.cmp(&(HEAD + length)) {
        Ordering::Less => return refuse(17, given),
        Ordering::Greater => return refuse(20, HEAD + length),
        Ordering::Equal => {}
    }
    match bytes[HEAD..].split_at(sense_bytes) {
        ([], corners) => Ok((0, corners)),
        ([sense @ (0 | 1)], corners) => Ok((*sense, corners)),
        _ => refuse(22, HEAD),
    }
}

/// How many corners the record has.
pub fn record(bytes: &[u8], out_east: &mut [i32], out_north: &mut [i32]) -> Answer<usize> {
    let (sense, rest) = taken_apart(bytes)?;
    not_too_many(rest.len() / 8)?;
    let part = |part: &[u8]| big_endian(part) as i32;
    let east: Vec<i32> = rest.chunks(8).map(|corner| part(&corner[..4])).collect();
    let north: Vec<i32> = rest.chunks(8).map(|corner| part(&corner[4..])).collect();
    parts_within(&east, &north)?;
    let stored = positions(&east, &north);
    if !is_envelope(&stored) {
        return refuse(9, 0);
    }
    write_ring(&in_sense(sense, stored), out_east, out_north)
}

/// How many bytes the record of the ring has.
pub fn write_record(form: Form, east: &[i32], north: &[i32], out: &mut [u8]) -> Answer<usize> {
    match (form.version, form.sense) {
        (1, 0) | (2, 0 | 1) => {}
        (1 | 2, _) => return refuse(22, 0),
        _ => return refuse(16, 0),
    }
    let bytes = record_of(form, &in_sense(form.sense, envelope(east, north)?));
    output_enough(out.len(), bytes.len())?;
    out[..bytes.len()].copy_from_slice(&bytes);
    Ok(bytes.len())
}
