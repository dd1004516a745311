//! The same work through the archive and through plain Rust written for speed, in one run: how fast
//! each is, and their ratio.

mod agreement;
// The tests' own files, which have their own line length.
#[rustfmt::skip]
#[path = "../../rust/tests/archive/mod.rs"]
mod archive;
#[rustfmt::skip]
#[path = "../../rust/tests/comparison/mod.rs"]
mod comparison;
mod files;
#[rustfmt::skip]
#[path = "../../rust/tests/inputs/mod.rs"]
mod inputs;
mod measure;
mod plain;
#[rustfmt::skip]
#[path = "../../rust/tests/plain/mod.rs"]
mod reference;
mod work;

use std::process::ExitCode;

use archive::ARCHIVE;
use measure::{Times, measure, measure_best, measure_in_turn};
use plain::PLAIN;
use work::Work;

struct Bar {
    /// The archive's speed, in terms of the plain side's.
    ratio: f64,
    /// The cost of a save of 1 MiB, in terms of comparing, copying and reading as many bytes.
    save: f64,
    /// The cost of a byte in a file of 1 MiB, in terms of that in one of 1 KiB: it does not grow
    /// with the file. A tenth is left to chance.
    growth: f64,
    /// The highest cost of a byte at any length, in terms of the lowest. A call has a cost of its
    /// own, the same for every file, which 1 KiB has few bytes to share: a quarter is left to that
    /// and to chance.
    spread: f64,
}

const BAR: Bar = Bar { ratio: 1.0, save: 3.0, growth: 1.1, spread: 1.25 };

fn main() -> ExitCode {
    agreement::assert_agreement();
    let met = [compare(), compare_save(), compare_sizes()];
    if met.iter().all(|met| *met) { ExitCode::SUCCESS } else { ExitCode::FAILURE }
}

/// Each piece of work on both sides; whether all lines meet the bar.
fn compare() -> bool {
    println!("{:<42} {:>12} {:>12} {:<8} {:>6}", "work", "archive", "plain Rust", "", "ratio");
    let mut below = Vec::new();
    for make in work::all() {
        let work = make();
        let times = measure(&work);
        print_row(&work, &times);
        if times.ratio < BAR.ratio {
            below.push(work.name);
        }
    }
    let lines = below.len();
    println!("ratio: {lines} lines are below the bar of {}", BAR.ratio);
    below.iter().for_each(|name| println!("  {name}"));
    below.is_empty()
}

fn print_row(work: &Work, times: &Times) {
    let (archive, plain) = (work.speed(times.archive), work.speed(times.plain));
    let (name, unit, ratio) = (&work.name, work.unit(), times.ratio);
    println!("{name:<42} {archive:>12.0} {plain:>12.0} {unit:<8} {ratio:>6.2}");
}

/// A save of 1 MiB through the archive, and comparing, copying and reading the bytes by plain Rust;
/// whether the bar is met.
fn compare_save() -> bool {
    let save = work::longest_save();
    let [compare, copy, read] = work::save_pieces();
    let sides = [(&save, &ARCHIVE), (&compare, &PLAIN), (&copy, &PLAIN), (&read, &PLAIN)];
    let microseconds = |seconds| 1e6 * seconds / save.steps() as f64;
    let [saved, compared, copied, read] = measure_in_turn(sides).map(microseconds);
    let pieces = compared + copied + read;
    println!(
        "\nsave of 1 MiB: {saved:.0} us; memcmp {compared:.0}, memcpy {copied:.0} and reading \
         {read:.0} are {pieces:.0} us"
    );
    met("save", saved / pieces, |factor| factor <= BAR.save)
}

/// What a byte of a known.met costs from 1 KiB to 1 MiB; whether the cost stays flat.
fn compare_sizes() -> bool {
    println!("\n{:<42} {:>12} {:>12}", "cost of a byte of known.met", "archive", "plain Rust");
    let costs = [1 << 10, 16 << 10, 256 << 10, 1 << 20].map(|length| {
        let work = work::known_met(length);
        let [archive, plain] = measure_best(&work).map(|seconds| 1e9 * seconds / work.amount);
        println!("{:<42} {archive:>12.3} {plain:>12.3} ns", work.name);
        archive
    });
    let [shortest, .., longest] = costs;
    let lowest = costs.into_iter().fold(f64::INFINITY, f64::min);
    let highest = costs.into_iter().fold(0.0, f64::max);
    let grows_not = met("growth", longest / shortest, |growth| growth <= BAR.growth);
    let is_even = met("spread", highest / lowest, |spread| spread <= BAR.spread);
    grows_not && is_even
}

fn met(what: &str, value: f64, test: impl Fn(f64) -> bool) -> bool {
    let met = test(value);
    println!("{what} {value:.2}: the bar is {}", if met { "met" } else { "NOT met" });
    met
}
