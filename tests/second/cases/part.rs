//! Cases of one float at the door.

use crate::driver::{Case, Desk, PART};
use crate::gen::{times, Chance};
use crate::rules::door::part;

fn put(desk: &mut Desk, words: &'static str, float: u64) {
    let taken = part(float);
    let said = vec![taken.number() as i64, taken.value() as i64, taken.back() as i64];
    desk.put(Case { entry: &PART, words, scalars: vec![float as i64], lent: Vec::new(), said, altered: Vec::new() });
}

/// A float, its two neighbours in the last bit, and the three with the other sign.
fn put_around(desk: &mut Desk, words: &'static str, float: f64) {
    for bits in [float.to_bits().wrapping_sub(1), float.to_bits(), float.to_bits().wrapping_add(1)] {
        put(desk, words, bits);
        put(desk, words, bits ^ 1 << 63);
    }
}

pub const SPECIAL: [f64; 17] = [
    0.0,
    f64::MIN_POSITIVE,
    f64::MAX,
    f64::EPSILON,
    f64::INFINITY,
    0.5,
    0.1,
    999_999.5,
    1_000_000.0,
    1_000_000.5,
    1_000_001.0,
    1_000_000.000_000_000_1,
    2_147_483_648.0,
    4_294_967_296.0,
    9_007_199_254_740_992.0,
    9_223_372_036_854_775_808.0,
    18_446_744_073_709_551_616.0,
];

/// Quiet and signalling, of both signs, with payloads.
pub const NOT_NUMBERS: [u64; 8] = [
    0x7ff8_0000_0000_0000,
    0xfff8_0000_0000_0000,
    0x7ff0_0000_0000_0001,
    0xfff0_0000_0000_0001,
    0x7fff_ffff_ffff_ffff,
    0xffff_ffff_ffff_ffff,
    0x7ff8_dead_beef_0000,
    0x7ff4_0000_0000_0000,
];

pub fn cases(desk: &mut Desk) {
    let mut chance = Chance::new(12);
    put(desk, "the run of the soundings", 1_000_000.5f64.to_bits());
    put(desk, "the run of the soundings", 0.5f64.to_bits());
    for float in SPECIAL {
        put_around(desk, "special", float);
    }
    for bits in NOT_NUMBERS {
        put(desk, "not a number", bits);
    }
    for exponent in 0..2047u64 {
        put_around(desk, "a power of two", f64::from_bits(exponent << 52));
        put(desk, "the last of a power of two", exponent << 52 | ((1 << 52) - 1));
    }
    for bit in 0..52 {
        put_around(desk, "subnormal", f64::from_bits(1 << bit));
    }
    for size in (0..=20_000).chain(980_000..=1_020_000) {
        put_around(desk, "whole, or beside it", size as f64);
    }
    by_chance(desk, &mut chance);
}

fn by_chance(desk: &mut Desk, chance: &mut Chance) {
    for _ in 0..times(30_000) {
        put_around(desk, "whole, or beside it", chance.between(0, 1_100_000) as f64);
    }
    for _ in 0..times(100_000) {
        let fraction = 2f64.powi(-(chance.below(30) as i32));
        put(desk, "a fraction of a power of two", (chance.between(-1_000_001, 1_000_001) as f64 + fraction).to_bits());
        put(desk, "whole and large", (chance.bits() as i64 as f64).to_bits());
        let fraction = chance.bits() & ((1 << 52) - 1);
        let exponent = 1023 + chance.between(-3, 24) as u64;
        put(desk, "near the limit", chance.bits() & 1 << 63 | exponent << 52 | fraction);
        put(desk, "near the limit, few bits", exponent << 52 | fraction >> 30 << 30);
    }
    for _ in 0..times(80_000) {
        put(desk, "any bits", chance.bits());
    }
}
