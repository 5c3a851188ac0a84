//! The clock: two pieces of work in turn, round by round, and what is made of their times.

use std::ffi::c_int;
use std::hint::black_box;

use crate::beside::{choose, Archive};

/// The processor time of the calling thread, as Linux numbers its clocks.
const THREAD_TIME: c_int = 3;

/// What the clock writes, as x86-64 Linux lays it out.
#[repr(C)]
struct Moment {
    seconds: i64,
    nanoseconds: i64,
}

extern "C" {
    fn clock_gettime(clock: c_int, moment: *mut Moment) -> c_int;
}

/// Seconds of each round, of the other side's span (the vendor's, or an old archive's) and of ours.
pub struct Times {
    other: Vec<f64>,
    ours: Vec<f64>,
}

impl Times {
    pub fn rounds(&self) -> usize {
        self.ours.len()
    }

    /// The rounds of both.
    pub fn and(mut self, more: Times) -> Times {
        self.other.extend(more.other);
        self.ours.extend(more.ours);
        self
    }

    /// The median of the other side's spans.
    pub fn other(&self) -> f64 {
        median(&self.other)
    }

    /// The median of our spans.
    pub fn ours(&self) -> f64 {
        median(&self.ours)
    }

    /// Our median over the other's: below 1, ours is quicker.
    pub fn ratio(&self) -> f64 {
        self.ours() / self.other()
    }

    /// The median of the ratios of single rounds. Two archives differ by less than the machine drifts from one round to the next, and the
    /// spans of one round drift together.
    pub fn ratio_in_rounds(&self) -> f64 {
        median(&self.ratios())
    }

    /// The 10th and the 90th percentile of the ratios of single rounds.
    pub fn spread(&self) -> (f64, f64) {
        let ratios = self.ratios();
        (quantile(&ratios, 0.1), quantile(&ratios, 0.9))
    }

    fn ratios(&self) -> Vec<f64> {
        self.ours.iter().zip(&self.other).map(|(ours, other)| ours / other).collect()
    }
}

/// Vendor, ours, vendor, ours and so on, each as often as there are rounds.
pub fn alternate<V, O>(rounds: usize, mut vendor: impl FnMut() -> V, mut ours: impl FnMut() -> O) -> Times {
    let mut times = Times { other: Vec::with_capacity(rounds), ours: Vec::with_capacity(rounds) };
    for _ in 0..rounds {
        times.other.push(span(&mut vendor));
        times.ours.push(span(&mut ours));
    }
    times
}

/// One piece of work by the old archive and by the new one, in each round once; which is first changes from round to round.
pub fn by_turns<O>(rounds: usize, mut work: impl FnMut() -> O) -> Times {
    let mut by = |archive: Archive| {
        choose(archive);
        span(&mut work)
    };
    let mut times = Times { other: Vec::with_capacity(rounds), ours: Vec::with_capacity(rounds) };
    for round in 0..rounds {
        let order = if round % 2 == 0 { [Archive::Old, Archive::New] } else { [Archive::New, Archive::Old] };
        for archive in order {
            let seconds = by(archive);
            if archive == Archive::Old { times.other.push(seconds) } else { times.ours.push(seconds) }
        }
    }
    choose(Archive::New);
    times
}

/// The seconds that one piece of work takes. What it makes is given back after the clock has stopped.
pub fn span<T>(work: &mut impl FnMut() -> T) -> f64 {
    let since = now();
    let made = black_box(work());
    let until = now();
    drop(made);
    until - since
}

/// Seconds that the processor has worked for this thread. On shared cores the wall's clock would count the waiting too, and a long span
/// waits more often than a short one.
fn now() -> f64 {
    let mut moment = Moment { seconds: 0, nanoseconds: 0 };
    let answer = unsafe { clock_gettime(THREAD_TIME, &mut moment) };
    assert_eq!(answer, 0, "the system has no clock of a thread's processor time");
    moment.seconds as f64 + 1e-9 * moment.nanoseconds as f64
}

pub fn median(values: &[f64]) -> f64 {
    quantile(values, 0.5)
}

/// The value so far up the sorted list, by the nearest place.
fn quantile(values: &[f64], share: f64) -> f64 {
    let mut sorted = values.to_vec();
    sorted.sort_by(f64::total_cmp);
    sorted[(share * (sorted.len() - 1) as f64).round() as usize]
}
