//! Times of the contestants, taken by turns, each time on fresh copies of the lists.
use crate::day::{self, SetUp};
use crate::ours;
use crate::sqlite::Sqlite;
use std::ffi::{c_int, c_long};
use std::hint::black_box;

pub const ROOM: usize = 170_000;

#[inline(never)]
pub fn run_by_hand(set_up: &mut SetUp, tape: &[u8], lines: &mut Vec<u8>) {
    let SetUp { thresholds, cells, rights, policies } = set_up;
    day::run_tape(thresholds, cells, rights, policies, tape, ROOM, lines).expect("a set-up and room");
}

#[inline(never)]
pub fn run_ours(set_up: &mut SetUp, tape: &[u8], lines: &mut [u8]) -> usize {
    let SetUp { thresholds, cells, rights, policies } = set_up;
    let (number, used) = ours::run_tape(thresholds, cells, rights, policies, tape, lines);
    assert_eq!(number, 0);
    used
}

#[repr(C)]
struct Timespec {
    seconds: c_long,
    nanoseconds: c_long,
}

unsafe extern "C" {
    fn clock_gettime(clock: c_int, time: *mut Timespec) -> c_int;
}

/// CLOCK_THREAD_CPUTIME_ID of Linux.
const THREAD_TIME: c_int = 3;

/// The time in which this thread had a processor, so that what others run on it meanwhile does not count.
fn thread_nanoseconds() -> f64 {
    let mut time = Timespec { seconds: 0, nanoseconds: 0 };
    // The place is there, and is of the type that the C library has for it.
    let got = unsafe { clock_gettime(THREAD_TIME, &mut time) };
    assert_eq!(got, 0, "a clock");
    time.seconds as f64 * 1e9 + time.nanoseconds as f64
}

fn share(mut times: Vec<f64>, percent: usize) -> f64 {
    times.sort_by(f64::total_cmp);
    times[(times.len() - 1) * percent / 100]
}

/// The times in nanoseconds of one contestant on one day, for each call or each transaction.
#[derive(Default)]
pub struct Times(Vec<f64>);

impl Times {
    fn add(&mut self, count: usize, run: impl FnOnce()) {
        let start = thread_nanoseconds();
        run();
        self.0.push((thread_nanoseconds() - start) / count as f64);
    }

    pub fn is_empty(&self) -> bool {
        self.0.is_empty()
    }

    /// So many of a hundred are not above this.
    pub fn share(&self, percent: usize) -> f64 {
        share(self.0.clone(), percent)
    }

    pub fn median(&self) -> f64 {
        self.share(50)
    }

    /// The median of how these times compare with the others of the same turn, so that what slows a whole turn counts for nothing.
    pub fn ratio_to(&self, other: &Times) -> f64 {
        share(self.0.iter().zip(&other.0).map(|(a, b)| a / b).collect(), 50)
    }
}

/// A day, how many calls or transactions it has, and its times.
pub struct Day {
    pub set_up: SetUp,
    pub tape: Vec<u8>,
    pub count: usize,
    pub ours: Times,
    pub hand: Times,
    /// Of SQLite with a journal and with none, where it takes part.
    pub sqlite: [Times; 2],
    lines: Vec<u8>,
}

impl Day {
    pub fn new(set_up: &SetUp, tape: Vec<u8>, count: usize) -> Day {
        Day {
            set_up: set_up.clone(),
            tape,
            count,
            ours: Times::default(),
            hand: Times::default(),
            sqlite: Default::default(),
            lines: Vec::with_capacity(ROOM),
        }
    }

    pub fn take_turn(&mut self, room: &mut [u8]) {
        let mut fresh = self.set_up.clone();
        self.ours.add(self.count, || {
            black_box(run_ours(&mut fresh, &self.tape, room));
        });
        let mut fresh = self.set_up.clone();
        self.lines.clear();
        self.hand.add(self.count, || run_by_hand(&mut fresh, &self.tape, &mut self.lines));
        black_box(&self.lines);
    }

    pub fn take_sqlite_turn(&mut self, stores: &mut [Sqlite; 2], room: &mut [u8]) {
        for (times, store) in self.sqlite.iter_mut().zip(stores) {
            store.cells.copy_from_slice(&self.set_up.cells);
            store.put_cells();
            times.add(self.count, || {
                black_box(store.run_tape(&self.tape, room));
            });
        }
    }
}
