//! Time of several pieces of work, measured in turn.

use std::time::{Duration, Instant};

#[derive(Clone, Copy)]
pub struct Effort {
    /// How many samples are taken of each piece of work, unless the time for all of them is over.
    pub samples: usize,
    pub in_all: Duration,
    /// How long a sample is meant to take; it has one run at least.
    pub sample: Duration,
}

impl Effort {
    pub const FULL: Effort =
        Effort { samples: 1000, in_all: Duration::from_secs(3), sample: Duration::from_micros(100) };
    pub const QUICK: Effort =
        Effort { samples: 150, in_all: Duration::from_millis(400), sample: Duration::from_micros(50) };
}

const LEAST_SAMPLES: usize = 5;

/// Nanoseconds of one run of each piece of work, the least of its samples. Samples are short and taken in turn, so that
/// other load on the machine meets all pieces of work alike.
pub fn least<const N: usize>(effort: Effort, mut works: [&mut dyn FnMut(); N]) -> [f64; N] {
    let runs: [u32; N] = std::array::from_fn(|index| runs_in(effort.sample, works[index]));
    let mut least = [f64::INFINITY; N];
    let start = Instant::now();
    for taken in 0..effort.samples {
        if taken >= LEAST_SAMPLES && start.elapsed() > effort.in_all {
            break;
        }
        for (index, work) in works.iter_mut().enumerate() {
            let time = time_of(runs[index], *work).as_nanos() as f64;
            least[index] = least[index].min(time / f64::from(runs[index]));
        }
    }
    least
}

/// How many runs fill a sample; the first run, which warms up, is not counted.
fn runs_in(sample: Duration, work: &mut dyn FnMut()) -> u32 {
    work();
    let mut runs = 1;
    loop {
        let taken = time_of(runs, work);
        if taken * 2 >= sample {
            return (f64::from(runs) * sample.as_secs_f64() / taken.as_secs_f64()).max(1.0) as u32;
        }
        runs *= 2;
    }
}

fn time_of(runs: u32, work: &mut dyn FnMut()) -> Duration {
    let start = Instant::now();
    for _ in 0..runs {
        work();
    }
    start.elapsed()
}
