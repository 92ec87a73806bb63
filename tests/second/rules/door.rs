//! The float door, over the bits of a float: no float is compared, rounded or cast here. A float is its 64 bits.

use super::{not_too_many, output_enough, same_length, Refusal, LIMIT};

#[derive(Clone, Copy, PartialEq, Eq, Debug)]
pub enum Part {
    Whole(i32),
    NotANumber,
    Beyond(u64),
    Fraction(u64),
}

impl Part {
    pub fn number(self) -> u32 {
        match self {
            Part::Whole(_) => 0,
            Part::NotANumber => 12,
            Part::Beyond(_) => 13,
            Part::Fraction(_) => 14,
        }
    }

    pub fn value(self) -> i32 {
        match self {
            Part::Whole(value) => value,
            _ => 0,
        }
    }

    /// The bits of what is handed back; 0, the bits of zero, where nothing is.
    pub fn back(self) -> u64 {
        match self {
            Part::Beyond(float) | Part::Fraction(float) => float,
            _ => 0,
        }
    }
}

/// The float is its mantissa times two to a power; below, the power is turned round into halvings.
pub fn part(float: u64) -> Part {
    let negative = float >> 63 == 1;
    let exponent = (float >> 52 & 0x7ff) as u32;
    let fraction = float & ((1 << 52) - 1);
    if exponent == 0x7ff {
        return if fraction == 0 { Part::Beyond(float) } else { Part::NotANumber };
    }
    let mantissa = if exponent == 0 { fraction } else { fraction | 1 << 52 } as u128;
    if exponent >= 1075 {
        // at least 2 to the 52
        return Part::Beyond(float);
    }
    let halvings = 1075 - exponent.max(1);
    if halvings > 52 {
        // below 1
        return if mantissa == 0 { Part::Whole(0) } else { Part::Fraction(float) };
    }
    let one = 1u128 << halvings;
    if mantissa > LIMIT as u128 * one {
        return Part::Beyond(float);
    }
    if mantissa % one != 0 {
        return Part::Fraction(float);
    }
    let size = (mantissa / one) as i32;
    Part::Whole(if negative { -size } else { size })
}

/// A refusal of readings: its number and place, and the bits handed back.
#[derive(Clone, Copy, PartialEq, Eq, Debug)]
pub struct Refused {
    pub refusal: Refusal,
    pub back: u64,
}

impl From<Refusal> for Refused {
    fn from(refusal: Refusal) -> Refused {
        Refused { refusal, back: 0 }
    }
}

/// The first bad reading decides, east before north.
fn taken(east: &[u64], north: &[u64]) -> Result<Vec<(i32, i32)>, Refused> {
    let mut readings = Vec::new();
    for place in 0..east.len() {
        let parts = [part(east[place]), part(north[place])];
        if let Some(bad) = parts.iter().find(|part| part.number() != 0) {
            return Err(Refused { refusal: Refusal { number: bad.number(), place }, back: bad.back() });
        }
        readings.push((parts[0].value(), parts[1].value()));
    }
    Ok(readings)
}

/// How many readings were taken.
pub fn readings(east: &[u64], north: &[u64], out_east: &mut [i32], out_north: &mut [i32]) -> Result<usize, Refused> {
    same_length(east.len(), north.len())?;
    not_too_many(east.len())?;
    let readings = taken(east, north)?;
    output_enough(out_east.len(), readings.len())?;
    output_enough(out_north.len(), readings.len())?;
    for (place, &(east, north)) in readings.iter().enumerate() {
        out_east[place] = east;
        out_north[place] = north;
    }
    Ok(readings.len())
}
