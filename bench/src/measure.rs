//! Times of pieces of work, in turn.

use std::hint::black_box;

use crate::archive::ARCHIVE;
use crate::plain::{Calls, PLAIN};
use crate::work::Work;

/// A round repeats the work for at least as many seconds.
const ROUND: f64 = 0.004;
/// About as many seconds are spent on a line, within these numbers of rounds.
const LINE: f64 = 1.6;
const ROUNDS: (f64, f64) = (9.0, 101.0);

/// Seconds that the work takes once, and how fast the archive is in terms of the plain side:
/// medians of the rounds.
pub struct Times {
    pub archive: f64,
    pub plain: f64,
    pub ratio: f64,
}

/// Both sides must answer the same, and so do the same work.
pub fn measure(work: &Work) -> Times {
    let [archive, plain] = both(work);
    let ratio = median(archive.iter().zip(&plain).map(|(archive, plain)| plain / archive));
    Times { archive: median(archive), plain: median(plain), ratio }
}

/// The seconds of the best round of the archive and of the plain side: what other programs do to
/// the caches is no part of it.
pub fn measure_best(work: &Work) -> [f64; 2] {
    both(work).map(|seconds| seconds.into_iter().fold(f64::INFINITY, f64::min))
}

fn both(work: &Work) -> [Vec<f64>; 2] {
    work.assert_agreement();
    rounds([(work, &ARCHIVE), (work, &PLAIN)])
}

/// The medians of several pieces of work, each on its own side.
pub fn measure_in_turn<const N: usize>(sides: [(&Work, &Calls); N]) -> [f64; N] {
    rounds(sides).map(median)
}

/// The seconds of each side, round by round.
fn rounds<const N: usize>(sides: [(&Work, &Calls); N]) -> [Vec<f64>; N] {
    let mut lent = sides.map(|(work, _)| work.lent());
    let mut run = |index: usize, repeats: u32| {
        let (work, calls) = sides[index];
        let start = clock::thread_seconds();
        for _ in 0..repeats {
            black_box(work.run(black_box(calls), &mut lent[index]));
        }
        (clock::thread_seconds() - start) / f64::from(repeats)
    };
    let once: [f64; N] = std::array::from_fn(|index| run(index, 1));
    let repeats = once.map(|seconds| (ROUND / seconds).ceil());
    let round: f64 = once.iter().zip(repeats).map(|(seconds, repeats)| seconds * repeats).sum();
    let count = (LINE / round).clamp(ROUNDS.0, ROUNDS.1) as usize;
    let mut seconds = [const { Vec::new() }; N];
    for _ in 0..count {
        for (index, seconds) in seconds.iter_mut().enumerate() {
            seconds.push(run(index, repeats[index] as u32));
        }
    }
    seconds
}

fn median(values: impl IntoIterator<Item = f64>) -> f64 {
    let mut values: Vec<f64> = values.into_iter().collect();
    values.sort_by(f64::total_cmp);
    values[values.len() / 2]
}

/// The processor's time that this thread had, to which others on a busy machine do not add.
mod clock {
    /// As Linux has it, with the number of the clock.
    #[repr(C)]
    struct Timespec {
        seconds: i64,
        nanoseconds: i64,
    }

    const THREAD_CPUTIME: i32 = 3;

    unsafe extern "C" {
        fn clock_gettime(clock: i32, time: *mut Timespec) -> i32;
    }

    pub fn thread_seconds() -> f64 {
        let mut time = Timespec { seconds: 0, nanoseconds: 0 };
        // SAFETY: the call writes the one struct that it is lent.
        let status = unsafe { clock_gettime(THREAD_CPUTIME, &mut time) };
        assert_eq!(status, 0, "the thread has a clock");
        time.seconds as f64 + 1e-9 * time.nanoseconds as f64
    }
}
