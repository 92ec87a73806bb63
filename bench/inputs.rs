//! What is timed: lists of numbers for the picker and sheets of samples for the bridge, the chains and the rings that are written or added, the same at every run.

use std::f64::consts::TAU;

/// A part lies from -LIMIT to LIMIT.
const LIMIT: f64 = 1_000_000.0;

/// Chance that is the same at every run: splitmix64.
pub struct Chance {
    state: u64,
}

impl Chance {
    pub fn new(seed: u64) -> Chance {
        Chance { state: seed }
    }

    pub fn bits(&mut self) -> u64 {
        self.state = self.state.wrapping_add(0x9e37_79b9_7f4a_7c15);
        let z = (self.state ^ self.state >> 30).wrapping_mul(0xbf58_476d_1ce4_e5b9);
        let z = (z ^ z >> 27).wrapping_mul(0x94d0_49bb_1331_11eb);
        z ^ z >> 31
    }

    pub fn below(&mut self, end: usize) -> usize {
        ((self.bits() as u128 * end as u128) >> 64) as usize
    }

    /// From least to greatest, both included.
    pub fn between(&mut self, least: i32, greatest: i32) -> i32 {
        (least as i64 + self.below((greatest as i64 - least as i64 + 1) as usize) as i64) as i32
    }

    /// From 0 up to 1.
    fn share(&mut self) -> f64 {
        (self.bits() >> 11) as f64 / (1u64 << 53) as f64
    }

    /// From -1 to 1, the middle likeliest.
    fn noise(&mut self) -> f64 {
        self.share() - self.share()
    }

    /// Of mean 0 and deviation 1.
    fn normal(&mut self) -> f64 {
        (-2.0 * (1.0 - self.share()).ln()).sqrt() * (TAU * self.share()).cos()
    }
}

/// A kind of input, by name.
pub type Kind<T> = (&'static str, fn(&mut Chance, usize) -> T);

pub const LISTS: [Kind<Vec<i32>>; 4] = [("random", random), ("16 values", few_valued), ("ascending", ascending), ("descending", descending)];

fn random(chance: &mut Chance, n: usize) -> Vec<i32> {
    (0..n).map(|_| chance.bits() as i32).collect()
}

fn few_valued(chance: &mut Chance, n: usize) -> Vec<i32> {
    let values = random(chance, 16);
    (0..n).map(|_| values[chance.below(16)]).collect()
}

fn ascending(chance: &mut Chance, n: usize) -> Vec<i32> {
    let mut list = random(chance, n);
    list.sort_unstable();
    list
}

fn descending(chance: &mut Chance, n: usize) -> Vec<i32> {
    let mut list = ascending(chance, n);
    list.reverse();
    list
}

/// Samples: their easts and their norths.
#[derive(Clone, Debug, Default)]
pub struct Sheet {
    pub east: Vec<i32>,
    pub north: Vec<i32>,
}

impl Sheet {
    pub fn push(&mut self, east: f64, north: f64) {
        let part = |x: f64| x.round().clamp(-LIMIT, LIMIT) as i32;
        self.east.push(part(east));
        self.north.push(part(north));
    }

    pub fn len(&self) -> usize {
        self.east.len()
    }

    pub fn position(&self, number: u32) -> (i32, i32) {
        (self.east[number as usize], self.north[number as usize])
    }

    /// Room for so many.
    #[cfg(has_library)]
    pub fn room(n: usize) -> Sheet {
        Sheet { east: vec![0; n], north: vec![0; n] }
    }

    /// The first so many positions.
    #[cfg(has_library)]
    pub fn positions(&self, count: usize) -> Vec<(i32, i32)> {
        (0..count as u32).map(|number| self.position(number)).collect()
    }
}

fn sheet(n: usize, mut one: impl FnMut(usize) -> (f64, f64)) -> Sheet {
    let mut sheet = Sheet::default();
    for place in 0..n {
        let (east, north) = one(place);
        sheet.push(east, north);
    }
    sheet
}

pub const SHEETS: [Kind<Sheet>; 5] = [("tides", tides), ("square", square), ("gauss", gauss), ("few easts", few_easts), ("circle", circle)];

/// A tide that turns: half its length and half its breadth, the turn of its ellipse, its hours once round, and where it starts.
struct Ellipse {
    long: f64,
    broad: f64,
    turn: f64,
    hours: f64,
    start: f64,
}

/// Four tides that turn once in so many hours, each an ellipse of its own size and turn, the smaller ones leaning on the largest; noise; a sample every ten
/// minutes.
pub fn tides(chance: &mut Chance, n: usize) -> Sheet {
    let lean = TAU * chance.share();
    let mut ellipses = Vec::new();
    for (size, hours) in [(300_000.0, 12.4206), (110_000.0, 12.0), (60_000.0, 25.8193), (40_000.0, 23.9345)] {
        let long = size * (0.8 + 0.4 * chance.share());
        let (broad, turn, start) = (long * (0.1 + 0.4 * chance.share()), lean + 0.6 * chance.noise(), TAU * chance.share());
        ellipses.push(Ellipse { long, broad, turn, hours, start });
    }
    sheet(n, |place| {
        let hour = place as f64 / 6.0;
        let (mut east, mut north) = (4_000.0 * chance.noise(), 4_000.0 * chance.noise());
        for e in &ellipses {
            let phase = e.start + TAU * hour / e.hours;
            let (along, across) = (e.long * phase.cos(), e.broad * phase.sin());
            east += along * e.turn.cos() - across * e.turn.sin();
            north += along * e.turn.sin() + across * e.turn.cos();
        }
        (east, north)
    })
}

/// Even over the whole square of the limit.
pub fn square(chance: &mut Chance, n: usize) -> Sheet {
    sheet(n, |_| (chance.between(-1_000_000, 1_000_000) as f64, chance.between(-1_000_000, 1_000_000) as f64))
}

fn gauss(chance: &mut Chance, n: usize) -> Sheet {
    sheet(n, |_| (150_000.0 * chance.normal(), 150_000.0 * chance.normal()))
}

/// Tides whose easts come from a grid of 20,000.
fn few_easts(chance: &mut Chance, n: usize) -> Sheet {
    let Sheet { east, north } = tides(chance, n);
    sheet(n, |place| ((east[place] as f64 / 20_000.0).round() * 20_000.0, north[place] as f64))
}

/// As near as whole numbers come to the circle of the limit.
pub fn circle(chance: &mut Chance, n: usize) -> Sheet {
    circle_of(chance, n, LIMIT)
}

/// As near as they come to the circle of half the limit.
pub fn small_circle(chance: &mut Chance, n: usize) -> Sheet {
    circle_of(chance, n, LIMIT / 2.0)
}

fn circle_of(chance: &mut Chance, n: usize, radius: f64) -> Sheet {
    sheet(n, |_| {
        let turn = TAU * chance.share();
        (radius * turn.cos(), radius * turn.sin())
    })
}

/// Inputs of one kind and length. There are so many that together they have some 65,536 items: on a single short one, repeated, a processor would learn
/// every branch.
pub fn several<T>(make: fn(&mut Chance, usize) -> T, n: usize) -> Vec<T> {
    (0..(65_536 / n).max(1)).map(|seed| make(&mut Chance::new(seed as u64), n)).collect()
}
