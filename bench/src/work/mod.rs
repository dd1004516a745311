//! The pieces of work.

mod parts;
mod reading;
mod searching;

pub use parts::{longest_save, save_pieces};
pub use reading::known_met;

use std::hint::black_box;
use std::ops::Range;

use crate::archive::ARCHIVE;
use crate::inputs::Random;
use crate::plain::{Calls, FIELDS, GAP_NUMBERS, PLAIN};

/// How much is read before the first message comes again. A processor's branch prediction learns
/// the jumps of messages that are read again and again, of 1 MiB of them nearly all; a box reads
/// each file once.
const READ: usize = 16 << 20;

/// Messages one after the other in memory, so that the first bytes of each are fetched in time.
#[derive(Clone)]
struct Messages {
    bytes: Vec<u8>,
    ranges: Vec<Range<usize>>,
}

impl FromIterator<Vec<u8>> for Messages {
    fn from_iter<I: IntoIterator<Item = Vec<u8>>>(made: I) -> Self {
        let mut messages = Messages { bytes: Vec::new(), ranges: Vec::new() };
        for message in made {
            let at = messages.bytes.len();
            messages.bytes.extend(message);
            messages.ranges.push(at..messages.bytes.len());
        }
        messages
    }
}

impl Messages {
    fn count(&self) -> usize {
        self.ranges.len()
    }

    fn at(&self, index: usize) -> &[u8] {
        black_box(&self.bytes[self.ranges[index].clone()])
    }
}

/// As many as make the amount that is read, each about as long as this.
fn made<T>(length: usize, make: impl Fn(&mut Random) -> T) -> impl Iterator<Item = T> {
    let mut random = random();
    (0..READ / length).map(move |_| make(&mut random))
}

/// All that calls are lent to write.
#[derive(Clone, Debug, PartialEq)]
pub struct Lent {
    fields: [u64; FIELDS],
    gaps: [u64; GAP_NUMBERS],
    missing: u64,
    written: usize,
    truth: u8,
    output: Vec<u8>,
    saved: Vec<u8>,
}

#[derive(Clone, Copy)]
enum Unit {
    Bytes,
    Calls,
}

/// Steps that answer with a number each.
pub struct Work {
    pub name: String,
    /// How many bytes or calls it is.
    pub amount: f64,
    unit: Unit,
    /// Room in each of the outputs.
    room: usize,
    steps: Box<dyn Steps>,
}

impl Work {
    fn new<S>(name: impl Into<String>, steps: usize, step: S) -> Self
    where
        S: Fn(&Calls, usize, &mut Lent) -> u8 + 'static,
    {
        let steps = Box::new(Counted { count: steps, step });
        let amount = steps.count as f64;
        Work { name: name.into(), amount, unit: Unit::Calls, room: 0, steps }
    }

    fn of_bytes(self, amount: usize) -> Self {
        Work { amount: amount as f64, unit: Unit::Bytes, ..self }
    }

    fn with_room(self, room: usize) -> Self {
        Work { room, ..self }
    }

    pub fn steps(&self) -> usize {
        self.steps.count()
    }

    pub fn speed(&self, seconds: f64) -> f64 {
        match self.unit {
            Unit::Bytes => self.amount / seconds / 1e6,
            Unit::Calls => self.amount / seconds,
        }
    }

    pub fn unit(&self) -> &'static str {
        match self.unit {
            Unit::Bytes => "MB/s",
            Unit::Calls => "calls/s",
        }
    }

    pub fn lent(&self) -> Lent {
        let (output, saved) = (vec![0xA5; self.room], vec![0xA5; self.room]);
        let fields = [0xFEED; FIELDS];
        Lent {
            fields,
            gaps: [0xFEED; GAP_NUMBERS],
            missing: 0xFEED,
            written: 0xFEED,
            truth: 9,
            output,
            saved,
        }
    }

    /// All steps once: the sum of the numbers answered.
    pub fn run(&self, calls: &Calls, lent: &mut Lent) -> u64 {
        self.steps.run(calls, lent)
    }

    /// Each step is accepted and leaves the same in all that it is lent, on both sides.
    pub fn assert_agreement(&self) {
        let (mut archive, mut plain) = (self.lent(), self.lent());
        for index in 0..self.steps() {
            assert_eq!(self.steps.step(&ARCHIVE, index, &mut archive), 0, "{} {index}", self.name);
            assert_eq!(self.steps.step(&PLAIN, index, &mut plain), 0, "{} {index}", self.name);
            assert!(archive == plain, "{} {index}: the answers differ", self.name);
        }
    }
}

trait Steps {
    fn count(&self) -> usize;
    fn step(&self, calls: &Calls, index: usize, lent: &mut Lent) -> u8;
    fn run(&self, calls: &Calls, lent: &mut Lent) -> u64;
}

struct Counted<S> {
    count: usize,
    step: S,
}

impl<S: Fn(&Calls, usize, &mut Lent) -> u8> Steps for Counted<S> {
    fn count(&self) -> usize {
        self.count
    }

    fn step(&self, calls: &Calls, index: usize, lent: &mut Lent) -> u8 {
        (self.step)(calls, index, lent)
    }

    fn run(&self, calls: &Calls, lent: &mut Lent) -> u64 {
        (0..self.count).map(|index| u64::from((self.step)(calls, index, lent))).sum()
    }
}

/// The generator of a line's inputs.
fn random() -> Random {
    Random::new(8)
}

pub fn all() -> Vec<fn() -> Work> {
    [reading::LINES, parts::LINES, searching::LINES].concat()
}
