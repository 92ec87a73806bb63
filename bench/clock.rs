//! Times, and tables of their ratios.

use std::hint::black_box;

/// As C has it on 64-bit Linux.
#[repr(C)]
struct Timespec {
    seconds: i64,
    nanoseconds: i64,
}

extern "C" {
    fn clock_gettime(clock: i32, time: *mut Timespec) -> i32;
}

/// The processor time of this thread, in seconds: what other programs take is not in it.
fn worked() -> f64 {
    const CLOCK_THREAD_CPUTIME_ID: i32 = 3;
    let mut time = Timespec { seconds: 0, nanoseconds: 0 };
    let status = unsafe { clock_gettime(CLOCK_THREAD_CPUTIME_ID, &mut time) };
    assert_eq!(status, 0, "no clock of the thread's processor time");
    time.seconds as f64 + time.nanoseconds as f64 * 1e-9
}

/// Works on the input of a place.
pub type Contestant<'a> = Box<dyn FnMut(usize) + 'a>;

/// The least time that each contestant takes for an input, in seconds: a turn goes over all inputs. The contestants take turns, so that the machine's other
/// work, which leaves less of the caches, falls on all alike; of several turns the least is the one that it lengthened least.
pub fn contest(inputs: usize, mut contestants: Vec<Contestant>) -> Vec<f64> {
    const TURNS: usize = 9;
    const LONG: f64 = 0.25;
    let mut least = vec![f64::INFINITY; contestants.len()];
    let begin = worked();
    let mut turns = 0;
    while turns < TURNS || worked() - begin < LONG {
        for (least, contestant) in least.iter_mut().zip(&mut contestants) {
            let start = worked();
            (0..inputs).for_each(&mut *contestant);
            *least = least.min((worked() - start) / inputs as f64);
        }
        turns += 1;
    }
    least
}

/// Takes an answer as if it were used, so that the work for it is done.
pub fn done<T>(answer: T) {
    black_box(answer);
}

/// A ratio in three figures; below a tenth in two.
pub fn ratio(part: f64, whole: f64) -> String {
    let ratio = part / whole;
    let places = match ratio {
        10.0.. => 1,
        0.1.. => 2,
        0.01.. => 3,
        0.001.. => 4,
        _ => 5,
    };
    format!("{ratio:.places$}")
}

pub fn microseconds(time: f64) -> String {
    format!("{:.1}", time * 1e6)
}

/// A number with its thousands apart.
pub fn thousands(n: usize) -> String {
    if n < 1000 {
        n.to_string()
    } else {
        format!("{},{:03}", thousands(n / 1000), n % 1000)
    }
}

/// A table with a name before each line and columns as wide as their heads.
pub struct Table {
    heads: Vec<String>,
}

impl Table {
    pub fn new(words: &[&str], heads: Vec<String>) -> Table {
        println!();
        words.iter().for_each(|word| println!("{word}"));
        println!();
        let table = Table { heads };
        table.line("", &table.heads);
        table
    }

    pub fn line(&self, name: &str, cells: &[String]) {
        let wide = |head: &String| head.chars().count().max(7);
        let cells: Vec<String> = self.heads.iter().zip(cells).map(|(head, cell)| format!("{cell:>0$}", wide(head))).collect();
        println!("{name:<11}  {}", cells.join("  "));
    }
}
