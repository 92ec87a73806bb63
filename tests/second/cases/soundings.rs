//! The soundings that are run, at every entry that they concern: part 1,000,000 taken, 1,000,001 refused 3; float 1000000.5 refused 13, 0.5 refused 14; 65,536
//! samples taken, 65,537 refused 2; what later requests say of an entry. What is wanted stands here as the page of the rules has it; the rules of this program
//! are not asked.

use crate::driver::{
    Case, Desk, Entry, Lent, BRIDGE, CHAINS, COVER, HAND_FOR, HAND_STEP, JOIN, PART, PICK, READINGS, RECORD, RING, ROUND, STRONGEST, SUM, TURN_ABOUT,
    WRITE_RECORD,
};
use crate::gen::{large_ring, Samples};
use crate::rules::chain::at;
use crate::rules::record::{record_of, FORMS};
use crate::rules::scratch_for;

const PART_TAKEN: &str = "part 1,000,000 taken";
const PART_REFUSED: &str = "1,000,001 refused 3";
const SAMPLES_TAKEN: &str = "65,536 samples taken";
const SAMPLES_REFUSED: &str = "65,537 refused 2";
const CORNERS_NOT_REFUSED: &str = "65,536 corners not refused 2";
const MOST: usize = 65_536;

/// A call, and what it leaves: every slice as it was lent but the ones named.
struct Call {
    entry: &'static Entry,
    scalars: Vec<i64>,
    lent: Vec<Lent>,
}

impl Call {
    fn leaves(self, desk: &mut Desk, words: &'static str, said: &[i64], altered: Vec<(usize, Lent)>) {
        let Call { entry, scalars, lent } = self;
        desk.put(Case { entry, words, scalars, lent, said: said.to_vec(), altered });
    }

    /// Refused with a number and a place; every other field is 0, and nothing lent is altered.
    fn refused(self, desk: &mut Desk, words: &'static str, number: i64, place: i64) {
        let mut said = vec![0; self.entry.fields.len()];
        (said[0], said[1]) = (number, place);
        self.leaves(desk, words, &said, Vec::new());
    }
}

fn i32s(list: &[i32]) -> Lent {
    Lent::I32(list.to_vec())
}

fn u32s(list: &[u32]) -> Lent {
    Lent::U32(list.to_vec())
}

/// Scratch for so many, as it is lent and as it is left.
fn scratch(count: usize) -> Lent {
    Lent::U32(vec![7; scratch_for(count)])
}

fn cleared(count: usize) -> Lent {
    Lent::U32(vec![0; scratch_for(count)])
}

/// Two samples with parts at the limit, the right one first. As a ring it is none; the other way round it is one.
fn at_limit() -> (Lent, Lent) {
    (i32s(&[1_000_000, -1_000_000]), i32s(&[-1_000_000, 1_000_000]))
}

fn ring_at_limit() -> (Lent, Lent) {
    (i32s(&[-1_000_000, 1_000_000]), i32s(&[1_000_000, -1_000_000]))
}

/// Two streams of which one has a part just beyond the limit, and its place.
fn beyond_limit() -> Vec<(Lent, Lent, i64)> {
    let mut lists = Vec::new();
    for part in [1_000_001, -1_000_001] {
        lists.push((i32s(&[part, 0]), i32s(&[0, 0]), 0));
        lists.push((i32s(&[0, part]), i32s(&[0, 0]), 1));
        lists.push((i32s(&[0, 0]), i32s(&[part, 0]), 0));
        lists.push((i32s(&[0, 0]), i32s(&[0, part]), 1));
    }
    lists
}

/// So many samples on one line, from west to east.
fn many(count: usize) -> (Lent, Lent) {
    (Lent::I32((0..count as i32).collect()), Lent::I32(vec![-5; count]))
}

pub fn pick(desk: &mut Desk) {
    let call = |numbers: Vec<i32>, rank| {
        let scratch = scratch(numbers.len());
        Call { entry: &PICK, scalars: vec![rank], lent: vec![Lent::I32(numbers), scratch] }
    };
    let wide = || vec![1_000_001, i32::MIN, i32::MAX];
    call(wide(), 2).leaves(desk, "numbers of any size taken", &[0, 0, 1_000_001], vec![(1, cleared(3))]);
    call((0..65_536).rev().collect(), 65_536).leaves(desk, "65,536 numbers taken", &[0, 0, 65_535], vec![(1, cleared(MOST))]);
    call((0..65_537).collect(), 1).refused(desk, SAMPLES_REFUSED, 2, 0);
}

pub fn round(desk: &mut Desk) {
    let call = |(east, north): (Lent, Lent), list: Vec<u32>, a| {
        let scratch = scratch(list.len());
        Call { entry: &ROUND, scalars: vec![a], lent: vec![east, north, Lent::U32(list), u32s(&[9, 9]), scratch] }
    };
    call(at_limit(), vec![0, 1], 0).leaves(desk, PART_TAKEN, &[0, 0, 1, 1, 0, 0], vec![(4, cleared(2))]);
    for (east, north, place) in beyond_limit() {
        call((east, north), vec![0, 1], 0).refused(desk, PART_REFUSED, 3, place);
    }
    call(many(MOST), vec![3, 65_535], 3).leaves(desk, SAMPLES_TAKEN, &[0, 0, 1, 3, 65_535, 0], vec![(4, cleared(2))]);
    call(many(MOST + 1), vec![3, 65_535], 3).refused(desk, SAMPLES_REFUSED, 2, 0);
    // on one line the ends of the list are farthest along every slope
    let all = |count: u32| (0..count).map(|number| number % 65_536).collect::<Vec<u32>>();
    call(many(MOST), all(65_536), 3).leaves(desk, "65,536 list items taken", &[0, 0, 1, 0, 65_535, 0], vec![(4, cleared(MOST))]);
    call(many(MOST), all(65_537), 3).refused(desk, "65,537 list items refused 2", 2, 0);
}

pub fn bridge(desk: &mut Desk) {
    let call = |(east, north): (Lent, Lent), count, a| Call { entry: &BRIDGE, scalars: vec![a], lent: vec![east, north, scratch(count)] };
    call(at_limit(), 2, 999_999).leaves(desk, PART_TAKEN, &[0, 0, 1, 0], vec![(2, cleared(2))]);
    for (east, north, place) in beyond_limit() {
        call((east, north), 2, 0).refused(desk, PART_REFUSED, 3, place);
    }
    call(many(MOST), MOST, 40_000).leaves(desk, SAMPLES_TAKEN, &[0, 0, 0, 65_535], vec![(2, cleared(MOST))]);
    call(many(MOST + 1), MOST + 1, 40_000).refused(desk, SAMPLES_REFUSED, 2, 0);
}

pub fn chains(desk: &mut Desk) {
    let call = |(east, north): (Lent, Lent), count| Call {
        entry: &CHAINS,
        scalars: Vec::new(),
        lent: vec![east, north, u32s(&[8, 8, 8]), u32s(&[9, 9, 9]), scratch(count)],
    };
    let both = |left, right, count| vec![(2, u32s(&[left, right, 8])), (3, u32s(&[left, right, 9])), (4, cleared(count))];
    call(at_limit(), 2).leaves(desk, PART_TAKEN, &[0, 0, 2, 2], both(1, 0, 2));
    for (east, north, place) in beyond_limit() {
        call((east, north), 2).refused(desk, PART_REFUSED, 3, place);
    }
    call(many(MOST), MOST).leaves(desk, SAMPLES_TAKEN, &[0, 0, 2, 2], both(0, 65_535, MOST));
    call(many(MOST + 1), MOST + 1).refused(desk, SAMPLES_REFUSED, 2, 0);
}

pub fn ring(desk: &mut Desk) {
    let call = |(east, north): (Lent, Lent), count| Call {
        entry: &RING,
        scalars: Vec::new(),
        lent: vec![east, north, i32s(&[8, 8, 8]), i32s(&[9, 9, 9]), scratch(count)],
    };
    let left = vec![(2, i32s(&[-1_000_000, 1_000_000, 8])), (3, i32s(&[1_000_000, -1_000_000, 9])), (4, cleared(2))];
    call(at_limit(), 2).leaves(desk, PART_TAKEN, &[0, 0, 2], left);
    for (east, north, place) in beyond_limit() {
        call((east, north), 2).refused(desk, PART_REFUSED, 3, place);
    }
    let left = vec![(2, i32s(&[0, 65_535, 8])), (3, i32s(&[-5, -5, 9])), (4, cleared(MOST))];
    call(many(MOST), MOST).leaves(desk, SAMPLES_TAKEN, &[0, 0, 2], left);
    call(many(MOST + 1), MOST + 1).refused(desk, SAMPLES_REFUSED, 2, 0);
}

pub fn hand(desk: &mut Desk) {
    let made = |corners| Call { entry: &HAND_FOR, scalars: vec![corners], lent: Vec::new() };
    made(65_536).leaves(desk, "65,536 corners taken", &[0, 0, 65_536, 0], Vec::new());
    made(65_537).refused(desk, SAMPLES_REFUSED, 2, 0);
    let stepped = |count, place| Call { entry: &HAND_STEP, scalars: vec![count, place], lent: Vec::new() };
    stepped(65_536, 65_535).leaves(desk, "65,536 corners taken", &[0, 0, 65_535, 0, 65_536, 0], Vec::new());
    stepped(65_537, 65_535).leaves(desk, SAMPLES_REFUSED, &[2, 0, 0, 0, 65_537, 65_535], Vec::new());
}

/// An entry that is given a ring and a course or a stream, on which a ring with parts at the limit answers as said. No ring has 65,536 corners, so such a
/// list is refused, and not for its length.
fn ring_and_stream(desk: &mut Desk, entry: &'static Entry, said: &[i64]) {
    let call = |(east, north): (Lent, Lent), x, y| Call { entry, scalars: vec![x, y], lent: vec![east, north] };
    call(ring_at_limit(), 1_000_000, -1_000_000).leaves(desk, PART_TAKEN, said, Vec::new());
    for (east, north, place) in beyond_limit() {
        call((east, north), 1, 1).refused(desk, PART_REFUSED, 3, place);
    }
    for part in [1_000_001, -1_000_001] {
        call(ring_at_limit(), part, 1).refused(desk, PART_REFUSED, 3, 0);
        call(ring_at_limit(), 1, part).refused(desk, PART_REFUSED, 3, 0);
    }
    call(many(MOST), 1, 1).refused(desk, CORNERS_NOT_REFUSED, 9, 0);
    call(many(MOST + 1), 1, 1).refused(desk, SAMPLES_REFUSED, 2, 0);
}

pub fn strongest(desk: &mut Desk) {
    ring_and_stream(desk, &STRONGEST, &[0, 0, 2_000_000_000_000, 1]);
}

pub fn cover(desk: &mut Desk) {
    ring_and_stream(desk, &COVER, &[0, 0, 1]);
    let mut of = |words, east: &[i32], north: &[i32], streams: &[(i64, i64)], covered| {
        for &(x, y) in streams {
            Call { entry: &COVER, scalars: vec![x, y], lent: vec![i32s(east), i32s(north)] }.leaves(desk, words, &[0, 0, covered], Vec::new());
        }
    };
    let (east, north) = ([0, 2, 4, 4, 0], [3, 5, 3, 0, 0]);
    of("P12: cover of (2,1) yes", &east, &north, &[(2, 1)], 1);
    of("(0,1) in A is now yes", &east, &north, &[(0, 1)], 1);
    of("a corner of A is covered", &east, &north, &[(0, 3), (2, 5), (4, 3), (4, 0), (0, 0)], 1);
    of("the outline of A is covered", &east, &north, &[(1, 4), (3, 4), (4, 2), (2, 0), (0, 2)], 1);
    of("outside A is not", &east, &north, &[(1, 5), (2, 6), (5, 2), (4, -1), (0, -1), (-1, 4), (0, 4), (6, 1), (-1, 1)], 0);
    of("a two-corner ring covers the whole segment", &[0, 4], &[0, 2], &[(0, 0), (2, 1), (4, 2)], 1);
    of("and not its line beyond or what is beside it", &[0, 4], &[0, 2], &[(6, 3), (-2, -1), (2, 0), (2, 2), (3, 1), (1, 1)], 0);
    of("an upright one too", &[3, 3], &[5, 1], &[(3, 5), (3, 3), (3, 1)], 1);
    of("an upright one's line beyond it is not", &[3, 3], &[5, 1], &[(3, 6), (3, 0), (2, 3), (4, 3)], 0);
    of("a flat one too", &[-3, 3], &[7, 7], &[(-3, 7), (0, 7), (3, 7)], 1);
    of("a flat one's line beyond it is not", &[-3, 3], &[7, 7], &[(-4, 7), (4, 7), (0, 6), (0, 8)], 0);
    let wide = [-1_000_000, 1_000_000];
    of("the segment between two ends of the sheet", &wide, &wide, &[(-1_000_000, -1_000_000), (0, 0), (999_999, 999_999), (1_000_000, 1_000_000)], 1);
    of("beside that segment", &wide, &wide, &[(0, 1), (1, 0), (999_999, 1_000_000), (1_000_000, 999_999)], 0);
    of("a one-corner ring covers its one position", &[3], &[4], &[(3, 4)], 1);
    of("and nothing else", &[3], &[4], &[(4, 4), (2, 4), (3, 5), (3, 3), (0, 0), (4, 3)], 0);
    of("an empty ring covers nothing", &[], &[], &[(0, 0), (1, 0), (-1_000_000, 1_000_000)], 0);
    for (x, y, number) in [(1_000_001, 0, 3), (0, -1_000_001, 3), (1, 0, 9), (4, 0, 9)] {
        let call = Call { entry: &COVER, scalars: vec![x, y], lent: vec![i32s(&[4, 0]), i32s(&[0, 0])] };
        call.refused(desk, "the stream's 3 before 9, and no stream is covered by what is no envelope", number, 0);
    }
}

pub fn turn_about(desk: &mut Desk) {
    let call =
        |(east, north): (Lent, Lent)| Call { entry: &TURN_ABOUT, scalars: Vec::new(), lent: vec![east, north, i32s(&[8, 8, 8]), i32s(&[9, 9, 9])] };
    let left = vec![(2, i32s(&[-1_000_000, 1_000_000, 8])), (3, i32s(&[1_000_000, -1_000_000, 9]))];
    call(ring_at_limit()).leaves(desk, PART_TAKEN, &[0, 0, 2], left);
    for (east, north, place) in beyond_limit() {
        call((east, north)).refused(desk, PART_REFUSED, 3, place);
    }
    call(many(MOST)).refused(desk, CORNERS_NOT_REFUSED, 9, 0);
    call(many(MOST + 1)).refused(desk, SAMPLES_REFUSED, 2, 0);
}

/// A call of an entry over two rings, with outputs of one length and scratch for so many corners.
fn two_rings(entry: &'static Entry, (east, north): (Lent, Lent), (east2, north2): (Lent, Lent), room: usize, count: usize) -> Call {
    let outputs = [Lent::I32(vec![8; room]), Lent::I32(vec![9; room]), scratch(count)];
    Call { entry, scalars: Vec::new(), lent: [east, north, east2, north2].into_iter().chain(outputs).collect() }
}

/// What such a call leaves that is done.
fn ring_written(east: &[i32], north: &[i32], count: usize) -> Vec<(usize, Lent)> {
    vec![(4, i32s(east)), (5, i32s(north)), (6, cleared(count))]
}

fn ring_of_corners(corners: usize) -> (Lent, Lent) {
    let Samples { east, north } = Samples::of(&large_ring(corners));
    (Lent::I32(east), Lent::I32(north))
}

/// What every entry over two rings refuses.
fn of_two_rings(desk: &mut Desk, entry: &'static Entry) {
    let one = || (i32s(&[1_000_000]), i32s(&[-1_000_000]));
    for (east, north, place) in beyond_limit() {
        two_rings(entry, (east.clone(), north.clone()), one(), 3, 3).refused(desk, PART_REFUSED, 3, place);
        two_rings(entry, one(), (east, north), 3, 3).refused(desk, PART_REFUSED, 3, place);
    }
    two_rings(entry, many(MOST), one(), 3, 3).refused(desk, CORNERS_NOT_REFUSED, 9, 0);
    two_rings(entry, many(MOST + 1), one(), 3, 3).refused(desk, SAMPLES_REFUSED, 2, 0);
    two_rings(entry, one(), many(MOST + 1), 3, 3).refused(desk, SAMPLES_REFUSED, 2, 0);
    let (first, second) = (ring_of_corners(32_768), ring_of_corners(32_769));
    two_rings(entry, first, second, 32_769, MOST + 1).refused(desk, "65,537 corners of both refused 2", 2, 0);
}

pub fn join(desk: &mut Desk) {
    let one = (i32s(&[1_000_000]), i32s(&[-1_000_000]));
    let left = ring_written(&[-1_000_000, 1_000_000], &[1_000_000, -1_000_000], 3);
    two_rings(&JOIN, ring_at_limit(), one, 2, 3).leaves(desk, PART_TAKEN, &[0, 0, 2], left);
    of_two_rings(desk, &JOIN);
    // a ring joined with itself is itself
    let (east, north) = ring_of_corners(32_768);
    let left = vec![(4, east.clone()), (5, north.clone()), (6, cleared(MOST))];
    let twice = two_rings(&JOIN, (east.clone(), north.clone()), (east, north), 32_768, MOST);
    twice.leaves(desk, "65,536 corners of both taken", &[0, 0, 32_768], left);
}

pub fn sum(desk: &mut Desk) {
    of_two_rings(desk, &SUM);
    // a ring added to itself is twice as large
    let Samples { east, north } = Samples::of(&large_ring(32_768));
    let twice = |list: &[i32]| list.iter().map(|part| 2 * part).collect::<Vec<i32>>();
    let left = ring_written(&twice(&east), &twice(&north), MOST);
    let ring = (Lent::I32(east), Lent::I32(north));
    two_rings(&SUM, ring.clone(), ring, 32_768, MOST).leaves(desk, "65,536 corners of both taken", &[0, 0, 32_768], left);
    // the table of sums in the definitions
    let of = |east: &[i32], north: &[i32]| (i32s(east), i32s(north));
    let ring_a = || of(&[0, 2, 4, 4, 0], &[3, 5, 3, 0, 0]);
    let nothing = || of(&[], &[]);
    let mut done = |words, first: (Lent, Lent), second: (Lent, Lent), count, east: &[i32], north: &[i32]| {
        let left = ring_written(east, north, count);
        two_rings(&SUM, first, second, east.len(), count).leaves(desk, words, &[0, 0, east.len() as i64], left);
    };
    done("two sides that cross", of(&[0, 2], &[0, 0]), of(&[0, 0], &[1, 0]), 4, &[0, 2, 2, 0], &[1, 1, 0, 0]);
    done("two along one line", of(&[0, 1], &[0, 1]), of(&[0, 2], &[0, 2]), 4, &[0, 3], &[0, 3]);
    let (triangle, about) = (of(&[0, 1, 1], &[0, 1, 0]), of(&[-1, 0, -1], &[0, 0, -1]));
    done("a triangle and its turning about", triangle, about, 6, &[-1, 0, 1, 1, 0, -1], &[0, 1, 1, 0, -1, -1]);
    done("one position moves a ring", of(&[10], &[-1]), ring_a(), 6, &[10, 12, 14, 14, 10], &[2, 4, 2, -1, -1]);
    done("adding an empty ring gives an empty ring", nothing(), ring_a(), 5, &[], &[]);
    done("adding an empty ring gives an empty ring", ring_a(), nothing(), 5, &[], &[]);
    done("adding an empty ring gives an empty ring", nothing(), nothing(), 0, &[], &[]);
    for (x, y) in [(1_000_000, 0), (-1_000_000, 0), (0, 1_000_000), (0, -1_000_000)] {
        let (far, beside) = (of(&[x], &[y]), of(&[-y], &[x]));
        done("the limit is met", far.clone(), beside, 2, &[x - y], &[y + x]);
        done("no corner of an empty sum is beyond the limit", far, nothing(), 1, &[], &[]);
    }
    for (x, y) in [(1, 0), (-1, 0), (0, 1), (0, -1)] {
        let (far, step) = (of(&[1_000_000 * x], &[1_000_000 * y]), of(&[x], &[y]));
        two_rings(&SUM, far.clone(), step.clone(), 1, 2).refused(desk, "one beyond the limit refused 19", 19, 0);
        two_rings(&SUM, step.clone(), far.clone(), 0, 2).refused(desk, "19 before 5", 19, 0);
        // scratch for one corner is too short for two
        two_rings(&SUM, far, step, 1, 1).refused(desk, "4 before 19", 4, 0);
    }
    let one = || of(&[1], &[0]);
    two_rings(&SUM, one(), one(), 0, 2).leaves(desk, "5 leaves the scratch zero", &[5, 0, 0], vec![(6, cleared(2))]);
}

pub fn part(desk: &mut Desk) {
    let mut of = |words, float: f64, number, value| {
        let back = if number == 0 { 0 } else { float.to_bits() as i64 };
        Call { entry: &PART, scalars: vec![float.to_bits() as i64], lent: Vec::new() }.leaves(desk, words, &[number, value, back], Vec::new());
    };
    of(PART_TAKEN, 1_000_000.0, 0, 1_000_000);
    of(PART_TAKEN, -1_000_000.0, 0, -1_000_000);
    of("float 1000000.5 refused 13", 1_000_000.5, 13, 0);
    of("float 1000000.5 refused 13", -1_000_000.5, 13, 0);
    of("0.5 refused 14", 0.5, 14, 0);
    of("0.5 refused 14", -0.5, 14, 0);
    of("minus zero taken as 0", -0.0, 0, 0);
}

pub fn readings(desk: &mut Desk) {
    let floats = |list: &[f64]| Lent::F64(list.iter().map(|float| float.to_bits()).collect());
    let call = |east: &[f64], north: &[f64]| Call {
        entry: &READINGS,
        scalars: Vec::new(),
        lent: vec![floats(east), floats(north), Lent::I32(vec![8; east.len() + 1]), Lent::I32(vec![9; east.len() + 1])],
    };
    let taken = vec![(2, i32s(&[1_000_000, 0, 8])), (3, i32s(&[-1_000_000, 3, 9]))];
    call(&[1_000_000.0, -0.0], &[-1_000_000.0, 3.0]).leaves(desk, PART_TAKEN, &[0, 0, 2, 0], taken);
    for (words, float, number) in [("float 1000000.5 refused 13", 1_000_000.5f64, 13), ("0.5 refused 14", 0.5, 14)] {
        let back = float.to_bits() as i64;
        call(&[float, 1.0], &[f64::NAN, 1.0]).leaves(desk, words, &[number, 0, 0, back], Vec::new());
        call(&[1.0, 1.0], &[1.0, float]).leaves(desk, words, &[number, 1, 0, back], Vec::new());
    }
    let (east, north) = (vec![-7.0; MOST], vec![1_000_000.0; MOST]);
    let whole = |part: i32, behind: i32| Lent::I32([vec![part; MOST], vec![behind]].concat());
    call(&east, &north).leaves(desk, "65,536 readings taken", &[0, 0, 65_536, 0], vec![(2, whole(-7, 8)), (3, whole(1_000_000, 9))]);
    let longer = vec![0.0; MOST + 1];
    call(&longer, &longer).refused(desk, SAMPLES_REFUSED, 2, 0);
}

pub fn record(desk: &mut Desk) {
    let call = |bytes: Vec<u8>| Call { entry: &RECORD, scalars: Vec::new(), lent: vec![Lent::Bytes(bytes), i32s(&[8, 8, 8]), i32s(&[9, 9, 9])] };
    let bytes = vec![1, 0, 0, 0, 8, 0, 15, 66, 64, 255, 240, 189, 192];
    call(bytes).leaves(desk, PART_TAKEN, &[0, 0, 1], vec![(1, i32s(&[1_000_000, 8, 8])), (2, i32s(&[-1_000_000, 9, 9]))]);
    call(vec![1, 0, 0, 0, 8, 0, 15, 66, 65, 0, 0, 0, 0]).refused(desk, PART_REFUSED, 3, 0);
    call(vec![1, 0, 0, 0, 16, 0, 0, 0, 0, 0, 0, 0, 0, 0, 0, 0, 0, 255, 240, 189, 191]).refused(desk, PART_REFUSED, 3, 1);
    for form in FORMS {
        call(record_of(form, &vec![at(4, 4); MOST])).refused(desk, CORNERS_NOT_REFUSED, 9, 0);
        call(record_of(form, &vec![at(4, 4); MOST + 1])).refused(desk, SAMPLES_REFUSED, 2, 0);
    }
    // the table of frames in the definitions
    call(vec![]).refused(desk, "no byte", 17, 0);
    call(vec![3]).refused(desk, "16 before 17", 16, 0);
    call(vec![3, 0, 0, 0, 7]).refused(desk, "16 before 21", 16, 0);
    call(vec![1, 0, 0]).refused(desk, "cut in the head", 17, 3);
    call(vec![1, 0, 0, 0, 0]).leaves(desk, "the empty ring read", &[0, 0, 0], Vec::new());
    let corner = [1, 0, 0, 0, 8, 0, 0, 0, 7, 0, 0, 0, 7, 0];
    call(corner[..12].to_vec()).refused(desk, "cut in a corner", 17, 12);
    call(corner.to_vec()).refused(desk, "a byte after a corner", 20, 13);
    call(vec![1, 0, 0, 0, 0, 1]).refused(desk, "a byte after no corner", 20, 5);
    let odd = [1, 0, 0, 0, 7, 0, 0, 0, 7, 0, 0, 0, 7, 0];
    for given in [6, 12, 14] {
        call(odd[..given].to_vec()).refused(desk, "21 before 17 and 20", 21, 1);
    }
    call(vec![1, 255, 255, 255, 248, 0]).refused(desk, "the greatest length", 17, 6);
    call(vec![1, 255, 255, 255, 255, 0]).refused(desk, "the greatest length, no multiple of 8", 21, 1);
    // the table of senses in the definitions
    let read = |easts, norths| vec![(1, i32s(easts)), (2, i32s(norths))];
    let corner = |sense| vec![2, 0, 0, 0, 9, sense, 0, 0, 0, 7, 255, 255, 255, 249];
    call(corner(0)).leaves(desk, "a corner going to", &[0, 0, 1], read(&[7, 8, 8], &[-7, 9, 9]));
    call(corner(1)).leaves(desk, "a corner coming from", &[0, 0, 1], read(&[-7, 8, 8], &[7, 9, 9]));
    let two = |sense, corner: [u8; 8], other: [u8; 8]| [&[2, 0, 0, 0, 17, sense][..], &corner, &other].concat();
    let (none, leg, flat, far) = ([0; 8], [0, 0, 0, 1, 0, 0, 0, 2], [0, 0, 0, 1, 0, 0, 0, 0], [127, 0, 0, 0, 0, 0, 0, 0]);
    call(two(1, none, leg)).leaves(desk, "two corners coming from", &[0, 0, 2], read(&[-1, 0, 8], &[-2, 0, 9]));
    call(two(1, flat, none)).refused(desk, "no envelope as stored, though one turned about", 9, 0);
    call(two(1, none, far)).refused(desk, "the place of 3 is that as stored", 3, 1);
    call(two(2, flat, none)).refused(desk, "22 before 9", 22, 5);
    call(two(2, none, far)).refused(desk, "22 before 3", 22, 5);
    for sense in [0, 1] {
        call(vec![2, 0, 0, 0, 1, sense]).leaves(desk, "the empty ring in either sense", &[0, 0, 0], Vec::new());
    }
    call(vec![2, 0, 0, 0, 0]).refused(desk, "length 0 in version 2", 21, 1);
    call(vec![2, 0, 0, 0, 8, 0, 0, 0, 0, 7, 0, 0, 0]).refused(desk, "length 8 in version 2", 21, 1);
    call(vec![2, 0, 0, 0, 1]).refused(desk, "the sense missing", 17, 5);
    call(vec![2, 0, 0, 0, 1, 2]).refused(desk, "sense 2", 22, 5);
    call(vec![2, 0, 0, 0, 9, 2]).refused(desk, "17 before 22", 17, 6);
    call(vec![2, 0, 0, 0, 1, 2, 0]).refused(desk, "20 before 22", 20, 6);
    call(vec![3, 0, 0, 0, 0]).refused(desk, "version 3", 16, 0);
}

pub fn write_record(desk: &mut Desk) {
    let call = |version, sense, (east, north): (Lent, Lent), room: usize| Call {
        entry: &WRITE_RECORD,
        scalars: vec![version, sense],
        lent: vec![east, north, Lent::Bytes(vec![9; room])],
    };
    let left = |bytes: &[u8], behind: usize| vec![(2, Lent::Bytes([bytes, &vec![9; behind]].concat()))];
    let limits = [1, 0, 0, 0, 16, 255, 240, 189, 192, 0, 15, 66, 64, 0, 15, 66, 64, 255, 240, 189, 192];
    call(1, 0, ring_at_limit(), 23).leaves(desk, PART_TAKEN, &[0, 0, 21], left(&limits, 2));
    for (version, sense) in [(1, 0), (2, 0), (2, 1)] {
        for (east, north, place) in beyond_limit() {
            call(version, sense, (east, north), 0).refused(desk, PART_REFUSED, 3, place);
        }
        call(version, sense, many(MOST), 0).refused(desk, CORNERS_NOT_REFUSED, 9, 0);
        call(version, sense, many(MOST + 1), 0).refused(desk, SAMPLES_REFUSED, 2, 0);
    }
    // the table of records in the definitions
    let empty = || (i32s(&[]), i32s(&[]));
    call(1, 0, empty(), 5).leaves(desk, "the empty ring written", &[0, 0, 5], left(&[1, 0, 0, 0, 0], 0));
    call(1, 0, empty(), 4).refused(desk, "the empty ring, a byte short", 5, 0);
    let pair = || (i32s(&[0, 2]), i32s(&[3, -1]));
    let bytes = [1, 0, 0, 0, 16, 0, 0, 0, 0, 0, 0, 0, 3, 0, 0, 0, 2, 255, 255, 255, 255];
    call(1, 0, pair(), 21).leaves(desk, "two corners written", &[0, 0, 21], left(&bytes, 0));
    call(1, 0, pair(), 20).refused(desk, "two corners, a byte short", 5, 0);
    call(1, 0, (i32s(&[2, 0]), i32s(&[-1, 3])), 0).refused(desk, "9 before 5", 9, 0);
    call(1, 0, (i32s(&[0, 1_000_001, 0]), i32s(&[0, 0, 0])), 0).refused(desk, "3 before 9", 3, 1);
    call(1, 0, (i32s(&[0, 1_000_001]), i32s(&[0])), 0).refused(desk, "1 before 3", 1, 0);
    // the table of senses there
    let leg = || (i32s(&[-1, 0]), i32s(&[-2, 0]));
    let from = [2, 0, 0, 0, 17, 1, 0, 0, 0, 0, 0, 0, 0, 0, 0, 0, 0, 1, 0, 0, 0, 2];
    let to = [2, 0, 0, 0, 17, 0, 255, 255, 255, 255, 255, 255, 255, 254, 0, 0, 0, 0, 0, 0, 0, 0];
    call(2, 1, leg(), 23).leaves(desk, "two corners coming from", &[0, 0, 22], left(&from, 1));
    call(2, 0, leg(), 23).leaves(desk, "two corners going to", &[0, 0, 22], left(&to, 1));
    call(2, 1, leg(), 21).refused(desk, "two corners coming from, a byte short", 5, 0);
    call(2, 1, empty(), 6).leaves(desk, "the empty ring coming from", &[0, 0, 6], left(&[2, 0, 0, 0, 1, 1], 0));
    let uneven = || (i32s(&[0]), i32s(&[]));
    call(3, 2, uneven(), 0).refused(desk, "16 before 22", 16, 0);
    call(0, 0, uneven(), 0).refused(desk, "16 before 1", 16, 0);
    call(1, 1, uneven(), 0).refused(desk, "no sense 1 with version 1", 22, 0);
    call(2, 2, uneven(), 0).refused(desk, "22 before 1", 22, 0);
    call(2, 1, uneven(), 0).refused(desk, "then 1", 1, 0);
}
