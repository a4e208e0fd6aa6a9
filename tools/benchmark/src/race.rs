//! Times several sides by turns, so that what else the machine does weighs on all of them, and says how far a figure can be
//! trusted.

use std::time::{Duration, Instant};
use std::{mem, ptr};

const FEWEST_ROUNDS: usize = 9;
const ROUND: Duration = Duration::from_millis(3);
const RACE: Duration = Duration::from_millis(1200);

/// A figure whose middle half spreads by more than this factor says nothing.
const WIDEST: f64 = 1.2;

/// The same value, of which the compiler knows nothing (std::hint::black_box is younger than Debian's compiler).
pub fn black_box<T>(value: T) -> T {
    let copy = unsafe { ptr::read_volatile(&value) };
    mem::forget(value);
    copy
}

#[repr(C)]
struct Timespec {
    seconds: i64,
    nanoseconds: i64,
}

extern "C" {
    fn clock_gettime(clock: i32, time: *mut Timespec) -> i32;
    fn mallopt(parameter: i32, value: i32) -> i32;
}

/// M_TRIM_THRESHOLD and M_MMAP_THRESHOLD of glibc.
const ALLOCATOR: [i32; 2] = [-1, -3];

/// Leaves freed memory with the process. Else glibc gives large pieces back to the system at each call or not, as earlier
/// calls of any side have taught it, and a list with large vectors takes up to twice the time for its pages.
pub fn keep_memory() {
    for parameter in ALLOCATOR {
        assert_eq!(unsafe { mallopt(parameter, 1 << 30) }, 1);
    }
}

/// CLOCK_THREAD_CPUTIME_ID of Linux.
const OWN_TIME: i32 = 3;

/// The processor's time for this thread: it does not run on while others have the processor.
pub fn own_time() -> Duration {
    let mut time = Timespec { seconds: 0, nanoseconds: 0 };
    assert_eq!(unsafe { clock_gettime(OWN_TIME, &mut time) }, 0);
    Duration::new(time.seconds as u64, time.nanoseconds as u32)
}

/// A call, of which a round has as many as fill it, and the time of one call in each round.
pub struct Side<'a> {
    call: Box<dyn FnMut() + 'a>,
    calls: u32,
    times: Vec<f64>,
}

impl<'a> Side<'a> {
    pub fn new(call: impl FnMut() + 'a) -> Side<'a> {
        Side { call: Box::new(call), calls: 0, times: Vec::new() }
    }

    /// Makes the call; nothing is timed.
    pub fn once(&mut self) {
        (self.call)();
    }

    /// How many calls fill a round. These warm the memory, too.
    fn measure(&mut self) {
        let start = own_time();
        while own_time() - start < ROUND {
            self.once();
            self.calls += 1;
        }
    }

    fn round(&mut self) {
        let start = own_time();
        for _ in 0..self.calls {
            self.once();
        }
        self.times.push((own_time() - start).as_secs_f64() / f64::from(self.calls));
    }

    /// The time of one call in s, in the middle of all rounds.
    pub fn time(&self) -> f64 {
        Spread::new(self.times.iter().copied()).middle
    }

    /// How many times as long as another side it takes, round by round.
    pub fn over(&self, other: &Side) -> Spread {
        Spread::new(self.times.iter().zip(&other.times).map(|(this, other)| this / other))
    }
}

/// A figure of many rounds: the middle one, and the two that the middle half of them lies between.
pub struct Spread {
    pub low: f64,
    pub middle: f64,
    pub high: f64,
}

impl Spread {
    pub fn new(figures: impl Iterator<Item = f64>) -> Spread {
        let mut figures: Vec<f64> = figures.collect();
        figures.sort_by(f64::total_cmp);
        let at = |quarter: usize| figures[(figures.len() - 1) * quarter / 4];
        Spread { low: at(1), middle: at(2), high: at(3) }
    }

    pub fn trusted(&self) -> bool {
        self.high <= WIDEST * self.low
    }

    /// What stands behind a figure that is not to be trusted.
    pub fn doubt(&self) -> &'static str {
        if self.trusted() {
            ""
        } else {
            "  NOT TO BE TRUSTED: the rounds differ too much"
        }
    }
}

/// How much of the time the processor was others', over all races.
#[derive(Default)]
pub struct Watch {
    whole: Duration,
    own: Duration,
}

impl Watch {
    /// Runs all sides round by round, by turns.
    pub fn race(&mut self, sides: &mut [Side]) {
        sides.iter_mut().for_each(Side::measure);
        let (start, own) = (Instant::now(), own_time());
        let mut rounds = 0;
        while rounds < FEWEST_ROUNDS || start.elapsed() < RACE {
            sides.iter_mut().for_each(Side::round);
            rounds += 1;
        }
        self.whole += start.elapsed();
        self.own += own_time() - own;
    }

    pub fn others(&self) -> f64 {
        1.0 - self.own.as_secs_f64() / self.whole.as_secs_f64().max(1e-9)
    }
}
