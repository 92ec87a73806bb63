//! Samples and envelopes that are owned: they answer as the slices do, over many lists; laws of joining, adding and turning about; what is refused.

use nuoskelma::*;
use std::collections::HashSet;

/// Input A, samples 0 to 6, and its ring.
const A: [(i32, i32); 7] = [(0, 0), (4, 0), (4, 3), (0, 3), (2, 1), (2, 5), (4, 0)];
const RING: [(i32, i32); 5] = [(0, 3), (2, 5), (4, 3), (4, 0), (0, 0)];

fn a() -> Samples {
    A.into_iter().collect()
}

fn no<T>(number: u32, place: usize) -> Result<T, Refusal> {
    Err(Refusal { number, place })
}

/// Numbers by shifts, always the same.
struct Shifted(u64);

impl Shifted {
    fn next(&mut self) -> u64 {
        self.0 ^= self.0 << 13;
        self.0 ^= self.0 >> 7;
        self.0 ^= self.0 << 17;
        self.0
    }

    fn below(&mut self, bound: usize) -> usize {
        ((self.next() >> 20) % bound as u64) as usize
    }

    /// From -size to size.
    fn part(&mut self, size: i32) -> i32 {
        self.below(2 * size as usize + 1) as i32 - size
    }

    fn samples(&mut self, count: usize, size: i32) -> Samples {
        (0..count).map(|_| (self.part(size), self.part(size))).collect()
    }
}

/// Parts of these sizes; beyond the limit by one now and then.
const SIZES: [i32; 5] = [1, 3, 20, 1000, LIMIT];

/// What the slices answer, by outputs of noise that are longer than they need be.
mod slices {
    use super::*;

    pub type Ring = Result<Vec<(i32, i32)>, Refusal>;

    fn ring_by(room: usize, call: impl FnOnce(&mut [i32], &mut [i32]) -> Result<usize, Refusal>) -> Ring {
        let (mut easts, mut norths) = (vec![-77; room], vec![-78; room]);
        let corners = call(&mut easts, &mut norths)?;
        Ok(easts.into_iter().zip(norths).take(corners).collect())
    }

    pub fn envelope(s: &Samples) -> Ring {
        ring_by(s.len() + 3, |easts, norths| ring(s.easts(), s.norths(), easts, norths, &mut Scratch::of(s.len())))
    }

    pub fn joined(s: &Envelope, t: &Envelope) -> Ring {
        let both = s.len() + t.len();
        ring_by(both + 3, |easts, norths| join(s.easts(), s.norths(), t.easts(), t.norths(), easts, norths, &mut Scratch::of(both)))
    }

    pub fn added(s: &Envelope, t: &Envelope) -> Ring {
        let both = s.len() + t.len();
        ring_by(both + 3, |easts, norths| sum(s.easts(), s.norths(), t.easts(), t.norths(), easts, norths, &mut Scratch::of(both)))
    }

    pub fn turned(s: &Envelope) -> Ring {
        ring_by(s.len() + 3, |easts, norths| turn_about(s.easts(), s.norths(), easts, norths))
    }

    pub fn read(bytes: &[u8]) -> Ring {
        ring_by(bytes.len(), |easts, norths| read_record(bytes, easts, norths))
    }

    pub fn both_chains(s: &Samples) -> Result<BothChains, Refusal> {
        let (mut upper, mut lower) = (vec![77; s.len() + 3], vec![78; s.len() + 3]);
        let counts = chains(s.easts(), s.norths(), &mut upper, &mut lower, &mut Scratch::of(s.len()))?;
        upper.truncate(counts.upper);
        lower.truncate(counts.lower);
        Ok(BothChains { upper, lower })
    }
}

fn corners(envelope: Result<Envelope, Refusal>) -> slices::Ring {
    envelope.map(|e| e.corners().collect())
}

/// The record that stores streams as they are.
fn record(version: Version, streams: Streams<'_>) -> Vec<u8> {
    let mut rest = match version {
        Version::One => vec![],
        Version::Two(sense) => vec![sense as u8],
    };
    streams.for_each(|(east, north)| rest.extend([east.to_be_bytes(), north.to_be_bytes()].concat()));
    [&[version.number()][..], &(rest.len() as u32).to_be_bytes(), &rest].concat()
}

/// The ring that means the same in the other sense.
fn in_sense(version: Version, envelope: &Envelope) -> Envelope {
    match version.sense() {
        Sense::GoingTo => envelope.clone(),
        Sense::ComingFrom => envelope.turned(),
    }
}

#[test]
fn input_a() {
    let samples = a();
    assert_eq!(samples.chains(), Ok(BothChains { upper: vec![3, 5, 2], lower: vec![0, 1] }));
    assert_eq!(samples.bridge(2), Ok(Bridge { left: 5, right: 2 }));
    assert_eq!(samples.bridge(1), Ok(Bridge { left: 3, right: 5 }));
    assert_eq!(samples.bridge(4), no(6, 0));

    let envelope = samples.envelope().unwrap();
    assert_eq!(envelope.corners().collect::<Vec<_>>(), RING);
    assert_eq!((envelope.easts(), envelope.norths()), (&[0, 2, 4, 4, 0][..], &[3, 5, 3, 0, 0][..]));
    assert_eq!((0..6).map(|place| envelope.corner(place)).collect::<Vec<_>>(), [RING.map(Some).as_slice(), &[None]].concat());
    assert_eq!(envelope.strongest(-1, 1), Ok(StrongestSet { set: 3, place: 0 }));
    assert_eq!(envelope.strongest(1, 0), Ok(StrongestSet { set: 4, place: 2 }));
    assert_eq!((envelope.covers(2, 1), envelope.covers(4, 2), envelope.covers(5, 1)), (Ok(true), Ok(true), Ok(false)));
    assert!(samples.iter().all(|(east, north)| envelope.covers(east, north) == Ok(true)));

    let joined = Envelope::of(&[2, 2], &[5, 1]).unwrap().join(&Envelope::of(&[0, 4], &[0, 0]).unwrap()).unwrap();
    assert!(joined.corners().eq([(0, 0), (2, 5), (4, 0)]));
    assert!(joined.turned().corners().eq([(-4, 0), (0, 0), (-2, -5)]));
    assert!(joined.plus(&joined.turned()).unwrap().corners().eq([(-4, 0), (-2, 5), (2, 5), (4, 0), (2, -5), (-2, -5)]));
}

#[test]
fn as_the_slices_answer() {
    let mut some = Shifted(0x9e37_79b9_7f4a_7c15);
    let (mut refused, mut covered, mut flat) = (0, 0, 0);
    let mut before = Envelope::empty();
    for turn in 0..4000 {
        let size = SIZES[turn % SIZES.len()];
        let count = some.below(if turn % 50 == 0 { 700 } else { 30 });
        let mut samples = some.samples(count, size);
        if turn % 9 == 0 {
            samples.push(some.part(size), if turn % 2 == 0 { LIMIT + 1 } else { i32::MIN });
        }
        assert_eq!(samples.chains(), slices::both_chains(&samples));
        let over = some.part(size);
        assert_eq!(samples.bridge(over), bridge(samples.easts(), samples.norths(), over, &mut Scratch::of(samples.len())));
        assert_eq!(corners(samples.envelope()), slices::envelope(&samples));
        assert_eq!(samples.envelope(), Envelope::of(samples.easts(), samples.norths()));
        let version = Version::ALL[turn % Version::ALL.len()];
        let bytes = record(version, samples.iter());
        assert_eq!(corners(Envelope::read(&bytes)), slices::read(&bytes));
        let ring = Envelope::from_ring(samples.easts().to_vec(), samples.norths().to_vec());
        assert_eq!(ring.map(|ring| in_sense(version, &ring)), Envelope::read(&bytes));

        let Ok(envelope) = samples.envelope() else {
            refused += 1;
            continue;
        };
        for version in Version::ALL {
            let bytes = record(version, in_sense(version, &envelope).corners());
            assert_eq!(corners(Envelope::read(&bytes)), slices::read(&bytes));
            assert_eq!(Envelope::read(&bytes).as_ref(), Ok(&envelope));
            assert_eq!(envelope.record(version), bytes);
        }
        let (x, y) = (some.part(size), some.part(size));
        assert_eq!(envelope.strongest(x, y), strongest(envelope.easts(), envelope.norths(), x, y));
        assert_eq!(envelope.covers(x, y), cover(envelope.easts(), envelope.norths(), x, y));
        covered += usize::from(envelope.covers(x, y) == Ok(true));
        flat += usize::from(envelope.len() < 3);
        assert_eq!(corners(envelope.join(&before)), slices::joined(&envelope, &before));
        assert_eq!(corners(envelope.plus(&before)), slices::added(&envelope, &before));
        assert_eq!(corners(Ok(envelope.turned())), slices::turned(&envelope));
        before = envelope;
    }
    assert!(refused > 300 && covered > 300 && flat > 300, "{refused} {covered} {flat}");
}

#[test]
fn laws_of_joining_and_turning_about() {
    let mut some = Shifted(0x0dd0_ba11);
    let mut larger = 0;
    for turn in 0..1500 {
        let size = SIZES[turn % SIZES.len()];
        let [s, t, u] = [8, 20, 3].map(|most| {
            let count = some.below(most);
            some.samples(count, size)
        });
        let [a, b, c] = [&s, &t, &u].map(|samples| samples.envelope().unwrap());
        let both = a.join(&b).unwrap();
        larger += usize::from(both != a && both != b);

        // its definition, order, grouping, repeats, nothing
        assert_eq!(s.iter().chain(&t).collect::<Samples>().envelope().as_ref(), Ok(&both));
        assert_eq!(b.join(&a).as_ref(), Ok(&both));
        assert_eq!(both.join(&c), a.join(&b.join(&c).unwrap()));
        assert_eq!(a.join(&a).as_ref(), Ok(&a));
        assert_eq!(both.join(&b).as_ref(), Ok(&both));
        assert_eq!(a.join(&Envelope::empty()).as_ref(), Ok(&a));
        assert_eq!(Envelope::empty().join(&a).as_ref(), Ok(&a));

        // turning about: its definition, twice, joined
        assert_eq!(Ok(a.turned()), a.corners().map(|(east, north)| (-east, -north)).collect::<Samples>().envelope());
        assert_eq!(a.turned().turned(), a);
        assert_eq!(Ok(both.turned()), a.turned().join(&b.turned()));

        // an envelope is the ring of its own positions
        assert_eq!(both.corners().collect::<Samples>().envelope().as_ref(), Ok(&both));
        assert_eq!(Envelope::from_ring(both.easts().to_vec(), both.norths().to_vec()).as_ref(), Ok(&both));

        // the joined set is the greater of both, and the turned one's is that of the other way
        let (x, y) = (some.part(size), some.part(size));
        if (x, y) != (0, 0) && !a.is_empty() && !b.is_empty() {
            let set = |e: &Envelope| e.strongest(x, y).unwrap().set;
            assert_eq!(set(&both), set(&a).max(set(&b)));
            assert_eq!(set(&both), both.turned().strongest(-x, -y).unwrap().set);
        }
        assert_eq!(both.covers(x, y), both.turned().covers(-x, -y));

        // a stream is covered exactly if joining it changes nothing, and every sample is
        let with = both.join(&Envelope::of(&[x], &[y]).unwrap());
        assert_eq!(both.covers(x, y), Ok(with.as_ref() == Ok(&both)));
        assert!(s.iter().chain(&t).all(|(east, north)| both.covers(east, north) == Ok(true)));
    }
    assert!(larger > 500, "{larger}");
}

/// Every stream of the one added to every stream of the other.
fn all_added(s: Streams<'_>, t: Streams<'_>) -> Samples {
    s.flat_map(|(east, north)| t.clone().map(move |(east2, north2)| (east + east2, north + north2))).collect()
}

#[test]
fn laws_of_adding() {
    let mut some = Shifted(0x7e1d_e5a9);
    let (mut more, mut beyond) = (0, 0);
    for turn in 0..1500 {
        // two of the largest parts reach beyond the limit, three of a third of it do not
        let size = SIZES[turn % SIZES.len()].min(if turn % 2 == 0 { LIMIT } else { LIMIT / 3 });
        let [s, t, u] = [8, 12, 4].map(|most| {
            let count = some.below(most);
            some.samples(count, size)
        });
        let [a, b, c] = [&s, &t, &u].map(|samples| samples.envelope().unwrap());

        // its definition: the envelope of every stream behind the one added to every stream behind the other, unless a corner is beyond the limit
        let all = all_added(s.iter(), t.iter());
        let sum = a.plus(&b);
        let far = all.iter().any(|(east, north)| east.abs() > LIMIT || north.abs() > LIMIT);
        assert_eq!(sum, if far { no(19, 0) } else { all.envelope() });
        assert_eq!(b.plus(&a), sum);
        beyond += usize::from(far);
        let Ok(sum) = sum else { continue };
        more += usize::from(sum.len() > a.len().max(b.len()));
        assert!(sum.len() <= a.len() + b.len());

        // grouping, spreading over a join, turning about, a stream alone, nothing
        if let (Ok(left), Ok(right)) = (sum.plus(&c), b.plus(&c).and_then(|both| a.plus(&both))) {
            assert_eq!(left, right);
        }
        if let (Ok(with), Ok(other)) = (a.plus(&b.join(&c).unwrap()), a.plus(&c)) {
            assert_eq!(with, sum.join(&other).unwrap());
        }
        assert_eq!(a.turned().plus(&b.turned()), Ok(sum.turned()));
        assert_eq!(a.plus(&Envelope::of(&[0], &[0]).unwrap()).as_ref(), Ok(&a));
        assert_eq!(a.plus(&Envelope::empty()), Ok(Envelope::empty()));
        assert_eq!(Envelope::empty().plus(&a), Ok(Envelope::empty()));

        // the strongest sets add up
        let (x, y) = (some.part(size), some.part(size));
        if (x, y) != (0, 0) && !sum.is_empty() {
            let set = |e: &Envelope| e.strongest(x, y).unwrap().set;
            assert_eq!(set(&sum), set(&a) + set(&b));
        }
    }
    assert!(more > 500 && beyond > 50, "{more} {beyond}");
}

#[test]
fn edges_once_round() {
    assert_eq!(Envelope::empty().edges().next(), None);
    assert_eq!(Envelope::of(&[7], &[7]).unwrap().edges().collect::<Vec<_>>(), [Edge { from: 0, to: 0 }]);
    let envelope = a().envelope().unwrap();
    let mut edges = envelope.edges();
    for left in (0..5).rev() {
        let edge = edges.next().unwrap();
        assert_eq!((edge.from, edge.to), (4 - left, (5 - left) % 5));
        assert_eq!((edges.len(), edges.size_hint()), (left, (left, Some(left))));
    }
    assert_eq!((edges.next(), edges.next()), (None, None));
}

#[test]
fn collected_and_compared() {
    let mut samples = Samples::new();
    assert_eq!((samples.len(), samples.is_empty(), &samples), (0, true, &Samples::default()));
    samples.push(0, 0);
    samples.extend(A.into_iter().skip(1));
    assert_eq!((samples.len(), samples.is_empty(), &samples), (7, false, &a()));
    assert!((&samples).into_iter().eq(A));
    assert!(samples.iter().rev().eq(A.into_iter().rev()));
    assert_eq!((samples.iter().len(), samples.iter().skip(3).size_hint()), (7, (4, Some(4))));
    assert!(A.iter().map(|(_, north)| north).eq(samples.norths()));

    let envelope = samples.envelope().unwrap();
    assert_eq!((envelope.len(), envelope.is_empty()), (5, false));
    assert!((&envelope).into_iter().eq(RING));
    assert_eq!((Envelope::default(), Envelope::empty().len(), Envelope::empty().is_empty()), (Envelope::empty(), 0, true));
    assert_eq!(Samples::new().envelope(), Ok(Envelope::empty()));
    assert_eq!(Envelope::read(&[1, 0, 0, 0, 0]), Ok(Envelope::empty()));
    assert_eq!(Envelope::empty().record(Version::One), [1, 0, 0, 0, 0]);
    assert_eq!(Envelope::empty().record(Version::Two(Sense::GoingTo)), [2, 0, 0, 0, 1, 0]);
    assert_eq!(Envelope::empty().record(Version::Two(Sense::ComingFrom)), [2, 0, 0, 0, 1, 1]);

    // in whatever order the samples come there is one envelope
    let mut turned = A;
    let seen: HashSet<Envelope> = (0..7)
        .map(|_| {
            turned.rotate_left(1);
            Samples::from_iter(turned).envelope().unwrap()
        })
        .collect();
    assert_eq!(seen, HashSet::from([envelope.clone()]));
}

#[test]
fn samples_refused() {
    assert_eq!(Envelope::of(&[0, 1], &[0]), no(1, 0));
    assert_eq!(Envelope::of(&[], &[0]), no(1, 0));

    let mut samples: Samples = (0..=MOST as i32).map(|k| (k, k % 7)).collect();
    assert_eq!(samples.len(), 65_537);
    assert_eq!(samples.chains(), no(2, 0));
    assert_eq!(samples.bridge(0), no(2, 0));
    assert_eq!(samples.envelope(), no(2, 0));
    samples = samples.iter().take(MOST).collect();
    assert_eq!(samples.bridge(0), Ok(Bridge { left: 0, right: 6 }));
    assert_eq!(samples.envelope().map(|e| e.covers(9, 3)), Ok(Ok(true)));

    for beyond in [(LIMIT + 1, 0), (0, -LIMIT - 1), (i32::MIN, i32::MAX)] {
        let samples = Samples::from_iter([(LIMIT, -LIMIT), beyond, beyond]);
        assert_eq!(samples.chains(), no(3, 1));
        assert_eq!(samples.bridge(0), no(3, 1));
        assert_eq!(samples.envelope(), no(3, 1));
    }
    assert_eq!(Samples::new().bridge(0), no(6, 0));
}

#[test]
fn readings_refused_and_taken() {
    let door = |number, place, back| Err(DoorRefusal { number, place, back });
    assert_eq!(Samples::from_readings(&[1e6, -0.0], &[-1e6, 7.0]), Ok(Samples::from_iter([(LIMIT, -LIMIT), (0, 7)])));
    assert_eq!(Samples::from_readings(&[], &[]), Ok(Samples::new()));
    assert_eq!(Samples::from_readings(&[0.0], &[]), door(1, 0, None));
    assert_eq!(Samples::from_readings(&[], &[0.0]), door(1, 0, None));
    let (most, more) = (vec![1.0; MOST], vec![1.0; MOST + 1]);
    assert_eq!(Samples::from_readings(&most, &most).map(|s| s.len()), Ok(MOST));
    assert_eq!(Samples::from_readings(&more, &more), door(2, 0, None));
    assert_eq!(Samples::from_readings(&[0.0, 0.0], &[0.0, f64::NAN]), door(12, 1, None));
    assert_eq!(Samples::from_readings(&[0.0, 1_000_000.5], &[0.0, 0.5]), door(13, 1, Some(1_000_000.5)));
    assert_eq!(Samples::from_readings(&[0.0, 0.0], &[0.5, 2e9]), door(14, 0, Some(0.5)));
}

#[test]
fn rings_refused() {
    // a flush corner, a repeat, the wrong way round, and entered at another corner
    let rings = [([0, 1, 2], [0, 1, 2]), ([0, 0, 0], [2, 2, 1]), ([0, 4, 2], [0, 0, 5]), ([2, 4, 0], [5, 0, 0])];
    for (easts, norths) in rings {
        assert_eq!(Envelope::from_ring(easts.to_vec(), norths.to_vec()), no(9, 0));
        let samples: Samples = easts.into_iter().zip(norths).collect();
        Version::ALL.into_iter().for_each(|version| assert_eq!(Envelope::read(&record(version, samples.iter())), no(9, 0)));
    }
    assert_eq!(Envelope::from_ring(vec![0], vec![]), no(1, 0));
    assert_eq!(Envelope::from_ring(vec![0; MOST + 1], vec![0; MOST + 1]), no(2, 0));
    assert_eq!(Envelope::from_ring(vec![0, LIMIT + 1], vec![0, 0]), no(3, 1));
    assert_eq!(Envelope::from_ring(vec![], vec![]), Ok(Envelope::empty()));

    assert_eq!(Envelope::read(&[]), no(17, 0));
    assert_eq!(Envelope::read(&[3]), no(16, 0));
    assert_eq!(Envelope::read(&[1, 0, 0, 0, 8, 0, 0, 0]), no(17, 8));
    assert_eq!(Envelope::read(&[1, 0, 0, 0, 0, 0, 0, 0]), no(20, 5));
    assert_eq!(Envelope::read(&[1, 0, 0, 0, 3, 0, 0, 0]), no(21, 1));
    assert_eq!(Envelope::read(&[2, 0, 0, 0, 1, 2]), no(22, 5));
    let far = Samples::from_iter([(0, 0), (LIMIT + 1, 0)]);
    let many: Samples = (0..=MOST).map(|_| (0, 0)).collect();
    for version in Version::ALL {
        assert_eq!(Envelope::read(&record(version, far.iter())), no(3, 1));
        assert_eq!(Envelope::read(&record(version, many.iter())), no(2, 0));
    }
}

#[test]
fn courses_and_streams_refused() {
    let envelope = a().envelope().unwrap();
    assert_eq!(Envelope::empty().strongest(1, 0), no(10, 0));
    assert_eq!(Envelope::empty().strongest(0, 0), no(10, 0));
    assert_eq!(envelope.strongest(0, 0), no(11, 0));
    assert_eq!(envelope.strongest(0, LIMIT + 1), no(3, 0));
    assert_eq!(envelope.strongest(0, LIMIT).map(|s| s.place), Ok(1));
    assert_eq!(envelope.covers(-LIMIT - 1, 0), no(3, 0));
    assert_eq!(envelope.covers(-LIMIT, 0), Ok(false));
    assert_eq!(Envelope::empty().covers(0, 0), Ok(false));
}

/// The ring whose edges are all the ways (x, y) with x and y coprime and |x| + |y| at most `longest`, each once.
fn many_cornered(longest: i32) -> Envelope {
    fn coprime(x: i32, y: i32) -> bool {
        if y == 0 {
            x == 1
        } else {
            coprime(y, x % y)
        }
    }
    let ways = (0..=longest).flat_map(|x| (0..=longest - x).map(move |y| (x, y)));
    // from north round to just before east, steepest first, then the same a quarter turn on
    let mut quarter: Vec<(i32, i32)> = ways.filter(|(x, y)| *y > 0 && coprime(*x, *y)).collect();
    quarter.sort_by(|(x, y), (x2, y2)| (x * y2).cmp(&(x2 * y)));
    let (mut east, mut north) = (-LIMIT, 0);
    let mut ring = Samples::new();
    for (turned_east, turned_north) in [((1, 0), (0, 1)), ((0, 1), (-1, 0)), ((-1, 0), (0, -1)), ((0, -1), (1, 0))] {
        for (x, y) in &quarter {
            ring.push(east, north);
            east += x * turned_east.0 + y * turned_east.1;
            north += x * turned_north.0 + y * turned_north.1;
        }
    }
    let envelope = ring.envelope().unwrap();
    assert_eq!(envelope.len(), ring.len());
    envelope
}

#[test]
fn two_envelopes_of_too_many_corners() {
    let large = many_cornered(170);
    assert!(large.len() > MOST / 2, "{}", large.len());
    assert_eq!(large.join(&large), no(2, 0));
    assert_eq!(large.plus(&large), no(2, 0));
    assert_eq!(large.plus(&Envelope::of(&[0], &[0]).unwrap()).as_ref(), Ok(&large));
    assert_eq!(large.join(&Envelope::empty()).as_ref(), Ok(&large));
    assert_eq!(large.turned().turned(), large);
    assert_eq!(large.edges().last(), Some(Edge { from: large.len() - 1, to: 0 }));
    for version in Version::ALL {
        assert_eq!(large.record(version), record(version, in_sense(version, &large).corners()));
        assert_eq!(Envelope::read(&large.record(version)).as_ref(), Ok(&large));
    }
}
