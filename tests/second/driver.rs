//! Lends cases to the library through the driver, and compares what it left with what the rules say; or lends it something and hands back what it left.

use std::collections::BTreeMap;
use std::io::{BufReader, BufWriter, Read, Write};
use std::process::{exit, Child, ChildStdin, ChildStdout, Command, ExitStatus, Stdio};
use std::sync::mpsc::{channel, Receiver, Sender};
use std::thread::JoinHandle;

use crate::gen::seed;

/// An entry as the driver's table has it: its op, and the names of its scalars, its slices and its result's fields.
pub struct Entry {
    pub op: u32,
    pub name: &'static str,
    pub scalars: &'static [&'static str],
    pub slices: &'static [&'static str],
    pub fields: &'static [&'static str],
}

const fn entry(
    op: u32,
    name: &'static str,
    scalars: &'static [&'static str],
    slices: &'static [&'static str],
    fields: &'static [&'static str],
) -> Entry {
    Entry { op, name, scalars, slices, fields }
}

pub const PICK: Entry = entry(1, "pick", &["rank"], &["numbers", "scratch"], &["number", "place", "value"]);
pub const ROUND: Entry =
    entry(2, "round", &["a"], &["east", "north", "list", "output", "scratch"], &["number", "place", "kind", "left", "right", "kept"]);
pub const BRIDGE: Entry = entry(3, "bridge", &["a"], &["east", "north", "scratch"], &["number", "place", "left", "right"]);
pub const CHAINS: Entry = entry(4, "chains", &[], &["east", "north", "upper", "lower", "scratch"], &["number", "place", "upper", "lower"]);
pub const RING: Entry = entry(5, "ring", &[], &["east", "north", "out_east", "out_north", "scratch"], &["number", "place", "count"]);
pub const HAND_FOR: Entry = entry(6, "hand_for", &["corners"], &[], &["number", "place", "hand.count", "hand.place"]);
pub const HAND_STEP: Entry =
    entry(7, "hand_step", &["hand.count", "hand.place"], &[], &["number", "place", "from", "to", "hand.count", "hand.place"]);
pub const STRONGEST: Entry = entry(8, "strongest", &["x", "y"], &["east", "north"], &["number", "place", "set", "at"]);
pub const COVER: Entry = entry(9, "cover", &["x", "y"], &["east", "north"], &["number", "place", "covered"]);
pub const TURN_ABOUT: Entry = entry(10, "turn_about", &[], &["east", "north", "out_east", "out_north"], &["number", "place", "count"]);
pub const JOIN: Entry =
    entry(11, "join", &[], &["east", "north", "east2", "north2", "out_east", "out_north", "scratch"], &["number", "place", "count"]);
pub const PART: Entry = entry(12, "part", &["x (bits)"], &[], &["number", "value", "back (bits)"]);
pub const READINGS: Entry = entry(13, "readings", &[], &["east", "north", "out_east", "out_north"], &["number", "place", "count", "back (bits)"]);
pub const RECORD: Entry = entry(14, "record", &[], &["bytes", "out_east", "out_north"], &["number", "place", "count"]);
pub const WRITE_RECORD: Entry = entry(15, "write_record", &["version", "sense"], &["east", "north", "out"], &["number", "place", "count"]);
pub const SUM: Entry = entry(16, "sum", &[], JOIN.slices, JOIN.fields);
/// No entry: the driver writes so many bytes of its stack.
pub const USE_STACK: Entry = entry(17, "use_stack", &["bytes"], &[], &[]);

/// A lent list. Floats are their bits.
#[derive(Clone, PartialEq, Eq)]
pub enum Lent {
    I32(Vec<i32>),
    U32(Vec<u32>),
    F64(Vec<u64>),
    Bytes(Vec<u8>),
}

impl Lent {
    fn length(&self) -> usize {
        match self {
            Lent::I32(list) => list.len(),
            Lent::U32(list) => list.len(),
            Lent::F64(list) => list.len(),
            Lent::Bytes(list) => list.len(),
        }
    }

    /// What counts as long: a record by its corners, 8 bytes each.
    fn items(&self) -> usize {
        match self {
            Lent::Bytes(list) => list.len() / 8,
            _ => self.length(),
        }
    }

    fn bytes(&self) -> Vec<u8> {
        match self {
            Lent::I32(list) => list.iter().flat_map(|x| x.to_le_bytes()).collect(),
            Lent::U32(list) => list.iter().flat_map(|x| x.to_le_bytes()).collect(),
            Lent::F64(list) => list.iter().flat_map(|x| x.to_le_bytes()).collect(),
            Lent::Bytes(list) => list.clone(),
        }
    }

    /// The list of the same type that bytes stand for.
    fn alike(&self, bytes: &[u8]) -> Lent {
        let four = |word: &[u8]| u32::from_le_bytes([word[0], word[1], word[2], word[3]]);
        match self {
            Lent::I32(_) => Lent::I32(bytes.chunks_exact(4).map(|word| four(word) as i32).collect()),
            Lent::U32(_) => Lent::U32(bytes.chunks_exact(4).map(four).collect()),
            Lent::F64(_) => Lent::F64(bytes.chunks_exact(8).map(|word| four(word) as u64 | (four(&word[4..]) as u64) << 32).collect()),
            Lent::Bytes(_) => Lent::Bytes(bytes.to_vec()),
        }
    }

    fn item(&self, place: usize) -> String {
        match self {
            Lent::I32(list) => list[place].to_string(),
            Lent::U32(list) => list[place].to_string(),
            Lent::F64(list) => format!("{:?} (bits {:#018x})", f64::from_bits(list[place]), list[place]),
            Lent::Bytes(list) => format!("{:#04x}", list[place]),
        }
    }

    fn shown(&self) -> String {
        const SHOWN: usize = 400;
        let items: Vec<String> = (0..self.length().min(SHOWN)).map(|place| self.item(place)).collect();
        let rest = if self.length() > SHOWN { ", .." } else { "" };
        format!("{} items: {}{rest}", self.length(), items.join(", "))
    }
}

/// What is lent to an entry, and what the rules say of it.
pub struct Case {
    pub entry: &'static Entry,
    /// what kind of case it is, in words
    pub words: &'static str,
    pub scalars: Vec<i64>,
    pub lent: Vec<Lent>,
    /// the fields of the result
    pub said: Vec<i64>,
    /// the slices that the entry alters, each by its place among `lent`; every other slice comes back as it was lent
    pub altered: Vec<(usize, Lent)>,
}

/// The pointer that an empty list is lent with.
#[derive(Clone, Copy, PartialEq, Eq)]
enum Empty {
    Address,
    Null,
}

impl Empty {
    /// Every other time, so that a case that is put twice has both.
    fn at(time: u64) -> Empty {
        if time % 2 == 0 {
            Empty::Null
        } else {
            Empty::Address
        }
    }
}

fn request(entry: &Entry, stack: Stack, empty: Empty, scalars: &[i64], lent: &[Lent]) -> Vec<u8> {
    let mut bytes = Vec::new();
    let op = entry.op + if stack == Stack::Small { ON_SMALL_STACK } else { 0 } + if empty == Empty::Null { EMPTY_IS_NULL } else { 0 };
    bytes.extend(op.to_le_bytes());
    bytes.extend((scalars.len() as u32).to_le_bytes());
    bytes.extend(scalars.iter().flat_map(|x| x.to_le_bytes()));
    bytes.extend((lent.len() as u32).to_le_bytes());
    for slice in lent {
        let content = slice.bytes();
        bytes.extend((content.len() as u32).to_le_bytes());
        bytes.extend(content);
    }
    bytes
}

impl Case {
    /// The slice as the entry must leave it.
    fn left(&self, place: usize) -> &Lent {
        match self.altered.iter().find(|(altered, _)| *altered == place) {
            Some((_, slice)) => slice,
            None => &self.lent[place],
        }
    }

    fn shown(&self, empty: Empty) -> String {
        let mut text = format!("entry {}, case: {}\n", self.entry.name, self.words);
        for (name, scalar) in self.entry.scalars.iter().zip(&self.scalars) {
            text += &format!("  lent {name}: {scalar} ({scalar:#x})\n");
        }
        for (name, slice) in self.entry.slices.iter().zip(&self.lent) {
            let null = if empty == Empty::Null && slice.length() == 0 { " (NULL)" } else { "" };
            text += &format!("  lent {name}{null}: {}\n", slice.shown());
        }
        text
    }

    /// In what a response differs from what the rules say.
    fn difference(&self, said: &[i64], slices: &[Vec<u8>]) -> Option<String> {
        if said != self.said {
            let mut text = String::new();
            for (place, name) in self.entry.fields.iter().enumerate() {
                let library = said.get(place).map_or("nothing".to_string(), i64::to_string);
                let different = if said.get(place) == Some(&self.said[place]) { "" } else { ", DIFFERENT" };
                text += &format!("  {name}: the rules say {}, the library {library}{different}\n", self.said[place]);
            }
            return Some(text);
        }
        if slices.len() != self.lent.len() {
            return Some(format!("  {} slices were lent and {} came back\n", self.lent.len(), slices.len()));
        }
        let differs = (0..slices.len()).find(|&place| self.left(place).bytes() != slices[place])?;
        let (rules, library) = (self.left(differs), self.lent[differs].alike(&slices[differs]));
        let name = self.entry.slices[differs];
        if library.length() != rules.length() {
            return Some(format!("  {name} came back with {} items\n", library.length()));
        }
        let place = (0..rules.length()).find(|&place| rules.item(place) != library.item(place))?;
        let head = format!("  {name} at {place}: the rules say {}, the library {}\n", rules.item(place), library.item(place));
        Some(head + &format!("  {name} by the rules: {}\n  {name} by the library: {}\n", rules.shown(), library.shown()))
    }
}

/// The stack that the library is called on.
#[derive(Clone, Copy, PartialEq, Eq)]
pub enum Stack {
    Ordinary,
    /// SMALL_STACK bytes and not one more; the driver says how many of them were used
    Small,
}

/// So many bytes has the driver's small stack.
pub const SMALL_STACK: i64 = 65_536;

/// What is added to an op that the driver runs on the small stack.
const ON_SMALL_STACK: u32 = 100;

/// What is added to an op for which the driver lends empty lists with the pointer NULL.
const EMPTY_IS_NULL: u32 = 200;

/// Where cases are put to be compared.
pub struct Desk {
    stack: Stack,
    /// how many cases with an empty list were put
    empty: u64,
    to_driver: BufWriter<ChildStdin>,
    to_reader: Sender<(Case, Empty)>,
}

impl Desk {
    /// The reader is told of the case before the driver is, so it never waits for one that it does not know. A driver that has ended is noticed by the
    /// reader, so nothing is made of that here.
    pub fn put(&mut self, case: Case) {
        let mut empty = Empty::Address;
        if case.lent.iter().any(|list| list.length() == 0) {
            empty = Empty::at(self.empty);
            self.empty += 1;
        }
        let request = request(case.entry, self.stack, empty, &case.scalars, &case.lent);
        let _ = self.to_reader.send((case, empty));
        let _ = self.to_driver.write_all(&request);
    }
}

fn read_u32(from: &mut impl Read) -> std::io::Result<u32> {
    let mut word = [0; 4];
    from.read_exact(&mut word)?;
    Ok(u32::from_le_bytes(word))
}

/// A response's scalars and slices.
fn read_response(from: &mut impl Read) -> std::io::Result<(Vec<i64>, Vec<Vec<u8>>)> {
    let mut said = Vec::new();
    for _ in 0..read_u32(from)? {
        let mut word = [0; 8];
        from.read_exact(&mut word)?;
        said.push(i64::from_le_bytes(word));
    }
    let mut slices = Vec::new();
    for _ in 0..read_u32(from)? {
        let mut slice = vec![0; read_u32(from)? as usize];
        from.read_exact(&mut slice)?;
        slices.push(slice);
    }
    Ok((said, slices))
}

/// The words with which a run has the same cases again.
pub fn seed_words() -> String {
    format!("SEED={}", seed())
}

/// Ends the program. What was not as it should be is told together with the seed.
pub fn fail(text: String) -> ! {
    println!("{text}\nthe same cases again: {} before the command", seed_words());
    exit(1)
}

/// Cases of one kind, by the words for it: how many they were, and how many bytes of the small stack the deepest of them used.
pub struct Kind {
    pub words: &'static str,
    pub count: u64,
    pub deepest: i64,
}

/// What was compared: kind by kind in the order in which they came; how many cases each function of the C face had; in how many each list of a function was
/// lent as NULL, by the names of both; and how many had a first list of 2 to the k items or more, and fewer than twice as many, for each k.
#[derive(Default)]
pub struct Compared {
    pub kinds: Vec<Kind>,
    pub functions: BTreeMap<&'static str, u64>,
    pub nulls: BTreeMap<(&'static str, &'static str), u64>,
    pub lengths: BTreeMap<u32, u64>,
}

impl Compared {
    pub fn count(&self) -> u64 {
        self.kinds.iter().map(|kind| kind.count).sum()
    }

    fn add(&mut self, case: &Case, empty: Empty, used: i64) {
        match self.kinds.iter_mut().find(|kind| kind.words == case.words) {
            Some(kind) => {
                kind.count += 1;
                kind.deepest = kind.deepest.max(used);
            }
            None => self.kinds.push(Kind { words: case.words, count: 1, deepest: used }),
        }
        *self.functions.entry(case.entry.name).or_default() += 1;
        for (name, _) in case.entry.slices.iter().zip(&case.lent).filter(|(_, list)| empty == Empty::Null && list.length() == 0) {
            *self.nulls.entry((case.entry.name, name)).or_default() += 1;
        }
        if let Some(power) = case.lent.first().and_then(|list| list.items().checked_ilog2()) {
            *self.lengths.entry(power).or_default() += 1;
        }
    }
}

/// A driver that is running, and the thread that makes the cases and writes the requests, so that neither pipe can block the other.
struct Running {
    child: Child,
    from_driver: BufReader<ChildStdout>,
    from_desk: Receiver<(Case, Empty)>,
    writer: JoinHandle<()>,
}

/// The driver is its command and the words for it, with spaces between.
fn spawn(driver: &str) -> Child {
    let mut words = driver.split_whitespace();
    match Command::new(words.next().unwrap_or("")).args(words).stdin(Stdio::piped()).stdout(Stdio::piped()).spawn() {
        Ok(child) => child,
        Err(error) => fail(format!("{driver} does not start: {error}")),
    }
}

fn start(driver: &str, stack: Stack, cases: impl FnOnce(&mut Desk) + Send + 'static) -> Running {
    let mut child = spawn(driver);
    let (to_reader, from_desk) = channel();
    let to_driver = BufWriter::with_capacity(1 << 16, child.stdin.take().expect("the driver's input is a pipe"));
    let from_driver = BufReader::with_capacity(1 << 16, child.stdout.take().expect("the driver's output is a pipe"));
    let writer = std::thread::spawn(move || {
        let mut desk = Desk { stack, empty: 0, to_driver, to_reader };
        cases(&mut desk);
        let _ = desk.to_driver.flush();
    });
    Running { child, from_driver, from_desk, writer }
}

/// Compares the library with the rules on every case that `cases` puts on the desk. Ends the program at the first difference.
pub fn compare(driver: &str, stack: Stack, cases: impl FnOnce(&mut Desk) + Send + 'static) -> Compared {
    let Running { mut child, mut from_driver, from_desk, writer } = start(driver, stack, cases);
    let mut compared = Compared::default();
    for (case, empty) in from_desk {
        match read_response(&mut from_driver) {
            Ok((mut said, slices)) => {
                let used = if stack == Stack::Small { said.pop().unwrap_or(SMALL_STACK) } else { 0 };
                if let Some(difference) = case.difference(&said, &slices) {
                    fail(format!("DIFFERENCE in case {}\n{}{difference}", compared.count() + 1, case.shown(empty)));
                }
                compared.add(&case, empty, used);
            }
            Err(error) => {
                let status = child.wait().map_or("unknown".to_string(), |status| status.to_string());
                fail(format!("NO RESPONSE to case {} ({error}; the driver: {status})\n{}", compared.count() + 1, case.shown(empty)));
            }
        }
    }
    if writer.join().is_err() {
        fail("the cases were not all made".to_string());
    }
    match child.wait() {
        Ok(status) if status.success() => compared,
        other => fail(format!("the driver did not end well: {other:?}")),
    }
}

/// How a driver ends that is put cases which it cannot live through, if it does not respond to the first of them.
pub fn end_of(driver: &str, stack: Stack, cases: impl FnOnce(&mut Desk) + Send + 'static) -> Option<ExitStatus> {
    let Running { mut child, mut from_driver, writer, .. } = start(driver, stack, cases);
    let responded = read_response(&mut from_driver).is_ok();
    let _ = writer.join();
    let status = child.wait().ok()?;
    (!responded).then_some(status)
}

/// The library alone: what it is lent, and what it hands back, call by call.
pub struct Library {
    child: Child,
    to_driver: BufWriter<ChildStdin>,
    from_driver: BufReader<ChildStdout>,
    calls: u64,
}

impl Library {
    pub fn start(driver: &str) -> Library {
        let mut child = spawn(driver);
        let to_driver = BufWriter::with_capacity(1 << 16, child.stdin.take().expect("the driver's input is a pipe"));
        let from_driver = BufReader::with_capacity(1 << 16, child.stdout.take().expect("the driver's output is a pipe"));
        Library { child, to_driver, from_driver, calls: 0 }
    }

    /// The fields of the result, and every lent list as the library left it. The driver reads a request whole before it responds, so neither waits for the
    /// other.
    pub fn call(&mut self, entry: &'static Entry, scalars: &[i64], lent: &[Lent]) -> (Vec<i64>, Vec<Lent>) {
        self.calls += 1;
        let wrote =
            self.to_driver.write_all(&request(entry, Stack::Ordinary, Empty::at(self.calls), scalars, lent)).and_then(|()| self.to_driver.flush());
        match wrote.and_then(|()| read_response(&mut self.from_driver)) {
            Ok((said, slices)) if said.len() == entry.fields.len() && slices.len() == lent.len() => {
                (said, lent.iter().zip(&slices).map(|(lent, left)| lent.alike(left)).collect())
            }
            other => fail(format!(
                "NO RESPONSE to call {} of {} ({})",
                self.calls,
                entry.name,
                other.err().map_or("of another form".to_string(), |e| e.to_string())
            )),
        }
    }

    /// How many calls it was; the driver must end well.
    pub fn end(self) -> u64 {
        let Library { mut child, to_driver, calls, .. } = self;
        drop(to_driver);
        match child.wait() {
            Ok(status) if status.success() => calls,
            other => fail(format!("the driver did not end well: {other:?}")),
        }
    }
}
