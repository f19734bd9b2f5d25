//! bench PAGES: times of the port and of the published Rust for the same work, as a table. Compiled for another machine than
//! x86-64 it has the readers alone: the archive `probe` hands records over by value, as x86-64 does it.
//! bench PAGES list: a line for each side of each work: its numbers, its units, its names. As the table, it ends where the sums
//! of a work's sides differ.
//! bench PAGES only WORK SIDE TIMES: does that side of that work so often, for a counter of instructions: what two numbers
//! of times differ by is the work's own.
use std::hint::black_box;
use std::sync::OnceLock;
use std::sync::atomic::{AtomicUsize, Ordering};

#[cfg(target_arch = "x86_64")]
mod collectors;
#[cfg(target_arch = "x86_64")]
mod pages;
#[cfg(target_arch = "x86_64")]
#[path = "../../tests/differential/src/bin/sequences/probe.rs"]
#[allow(dead_code, unused_imports)]
mod probe;
mod readers;
#[cfg(target_arch = "x86_64")]
#[path = "../../tests/differential/src/bin/walks/recorder.rs"]
#[allow(dead_code)]
mod recorder;
#[cfg(target_arch = "x86_64")]
mod walks;

/// How often each work is timed; the least time counts.
const REPEATS: usize = 15;

enum Mode {
    Table,
    List,
    Only { work: usize, side: usize, times: usize },
}

static MODE: OnceLock<Mode> = OnceLock::new();
/// How many works there were before.
static WORKS: AtomicUsize = AtomicUsize::new(0);

/// The processor time of this thread in nanoseconds: another program on the machine does not add to it.
fn clock() -> u64 {
    #[repr(C)]
    struct Time {
        seconds: i64,
        nanoseconds: i64,
    }
    unsafe extern "C" {
        safe fn clock_gettime(clock: i32, time: &mut Time) -> i32;
    }
    const THREAD_CPUTIME: i32 = 3;
    let mut time = Time { seconds: 0, nanoseconds: 0 };
    assert_eq!(clock_gettime(THREAD_CPUTIME, &mut time), 0);
    1_000_000_000 * time.seconds as u64 + time.nanoseconds as u64
}

/// A work done by each of several sides, in turn, so that a slow moment of the machine meets all of them.
pub struct Work<'a> {
    pub name: &'static str,
    /// How many pages, calls or blocks it has.
    pub units: usize,
    /// The Rust first, then the ways of the port. Each gives a sum of its answers, the same for all.
    pub sides: Vec<(&'static str, Box<dyn FnMut() -> u64 + 'a>)>,
}

impl Work<'_> {
    /// The least time of each side for one unit, in nanoseconds.
    fn times(&mut self) -> Vec<f64> {
        let mut least = vec![f64::MAX; self.sides.len()];
        let mut sums = vec![0; self.sides.len()];
        for _ in 0..REPEATS {
            for (place, side) in self.sides.iter_mut().enumerate() {
                let begin = clock();
                sums[place] = black_box(side.1());
                least[place] = least[place].min((clock() - begin) as f64 / self.units as f64);
            }
        }
        self.agree(&sums);
        least
    }

    fn agree(&self, sums: &[u64]) {
        assert!(sums.iter().all(|sum| *sum == sums[0]), "{}: the sides answer differently: {sums:?}", self.name);
    }

    /// Where no table is asked for, what is.
    fn asked_else(&mut self) -> bool {
        let number = WORKS.fetch_add(1, Ordering::Relaxed);
        match MODE.get() {
            Some(Mode::List) => {
                let sums: Vec<u64> = self.sides.iter_mut().map(|side| side.1()).collect();
                self.agree(&sums);
                for (place, (side, _)) in self.sides.iter().enumerate() {
                    println!("{number} {place} {} {}, {side}", self.units, self.name);
                }
            }
            Some(Mode::Only { work, side, times }) if *work == number => {
                for _ in 0..*times {
                    black_box(self.sides[*side].1());
                }
            }
            Some(Mode::Only { .. }) => {}
            Some(Mode::Table) | None => return false,
        }
        true
    }

    /// A row for each side.
    #[cfg(target_arch = "x86_64")]
    pub fn print(mut self) {
        if self.asked_else() {
            return;
        }
        let times = self.times();
        for ((side, _), time) in self.sides.iter().zip(&times) {
            println!("| {} | {side} | {time:.1} | {:.2} |", self.name, time / times[0]);
        }
    }

    /// One row for two sides.
    pub fn print_pair(mut self) {
        if self.asked_else() {
            return;
        }
        let times = self.times();
        println!("| {} | {:.1} | {:.1} | {:.2} |", self.name, times[0], times[1], times[1] / times[0]);
    }
}

fn main() {
    let words: Vec<String> = std::env::args().collect();
    let number = |place: usize| words.get(place).and_then(|word| word.parse().ok());
    let mode = match words.get(2).map(String::as_str) {
        None => Mode::Table,
        Some("only") => Mode::Only {
            work: number(3).expect("a work"),
            side: number(4).expect("a side"),
            times: number(5).expect("how often"),
        },
        Some(_) => Mode::List,
    };
    let table = matches!(mode, Mode::Table);
    let _ = MODE.set(mode);
    #[cfg(target_arch = "x86_64")]
    {
        if table {
            println!("| work | side | ns for each | of the Rust's time |\n|---|---|---|---|");
        }
        pages::run(number(1).unwrap_or(2_000_000));
        collectors::run();
        walks::run();
    }
    if table {
        println!("\n| reader | Rust, ns | C boundary, ns | of the Rust's time |\n|---|---|---|---|");
    }
    readers::run();
}

/// SplitMix64.
pub struct Random(u64);

impl Random {
    pub fn new(seed: u64) -> Random {
        Random(seed)
    }

    pub fn number(&mut self) -> u64 {
        self.0 = self.0.wrapping_add(0x9e37_79b9_7f4a_7c15);
        let mut z = self.0;
        z = (z ^ z >> 30).wrapping_mul(0xbf58_476d_1ce4_e5b9);
        z = (z ^ z >> 27).wrapping_mul(0x94d0_49bb_1331_11eb);
        z ^ z >> 31
    }

    pub fn fill(&mut self, bytes: &mut [u8]) {
        bytes.iter_mut().for_each(|byte| *byte = self.number() as u8);
    }
}
