//! One call through the archive and through the plain reading, side by side.
#![allow(dead_code, unused_imports)]

mod tally;

pub use tally::Tally;

use std::collections::BTreeMap;
use std::fmt::Debug;

use crate::archive::ARCHIVE;
use crate::inputs::{Case, Random};
use crate::plain::{Calls, FIELDS, OfThree, PART_MET, PLAIN, WHY_NUMBERS};

const SENTINEL: u64 = 0xFEED_FACE_CAFE;
const FILL: u8 = 0xA5;
const SHOWN: usize = 2_000;

/// Compares calls, and counts how often each answered which number.
pub struct Comparison {
    seed: u64,
    turn: u64,
    seen: BTreeMap<&'static str, [u64; 13]>,
}

impl Comparison {
    pub fn new(seed: u64) -> Self {
        println!("first seed {seed}");
        Comparison { seed, turn: 0, seen: BTreeMap::new() }
    }

    /// The seed of the present input.
    pub fn seed(&self) -> u64 {
        self.seed
    }

    /// The generator of the next input.
    pub fn next_input(&mut self) -> Random {
        self.seed += 1;
        Random::new(self.seed)
    }

    /// So many rounds, each with the generator of its own input.
    pub fn rounds(&mut self, rounds: u64, mut round: impl FnMut(&mut Self, &mut Random)) {
        for _ in 0..rounds {
            let mut random = self.next_input();
            round(self, &mut random);
        }
    }

    /// Runs the call on both sides; `run` gives the number and all that was lent, as it is afterwards.
    pub fn same<T: PartialEq + Debug>(
        &mut self,
        call: &'static str,
        input: &[&[u8]],
        run: impl Fn(&Calls) -> (u8, T),
    ) -> (u8, T) {
        let (archive, plain) = (run(&ARCHIVE), run(&PLAIN));
        if archive != plain {
            let (archive, plain) = (cut(format!("{archive:?}")), cut(format!("{plain:?}")));
            let seed = self.seed;
            panic!("seed {seed}, {call}\n archive {archive}\n plain   {plain}\n input   {}", hex(input));
        }
        self.seen.entry(call).or_default()[usize::from(plain.0)] += 1;
        plain
    }

    /// A call that returns fields: what they are if it accepts. Now and then the room for them is too small, or larger than needed.
    pub fn fields(
        &mut self,
        call: &'static str,
        input: &[&[u8]],
        run: impl Fn(&Calls, &mut [u64]) -> u8,
    ) -> Option<Vec<u64>> {
        let lent = |room| {
            let run = &run;
            move |calls: &Calls| {
                let mut fields = vec![SENTINEL; room];
                (run(calls, &mut fields), fields)
            }
        };
        self.turn += 1;
        match self.turn % 16 {
            0 => drop(self.same(call, input, lent(FIELDS - 1))),
            1 => drop(self.same(call, input, lent(0))),
            2 => drop(self.same(call, input, lent(FIELDS + 3))),
            _ => (),
        }
        let (number, fields) = self.same(call, input, lent(FIELDS));
        (number == 0).then_some(fields)
    }

    /// The four numbers of why a packet is refused. Now and then the array is too small for them, or larger than needed.
    pub fn why(&mut self, link: u8, bytes: &[u8]) -> [u64; WHY_NUMBERS] {
        let lent = |room| {
            move |calls: &Calls| {
                let mut numbers = vec![SENTINEL; room];
                ((calls.why)(link, bytes, &mut numbers), numbers)
            }
        };
        self.turn += 1;
        match self.turn as usize % 16 {
            room @ 0..WHY_NUMBERS => drop(self.same("why", &[bytes], lent(room))),
            WHY_NUMBERS => drop(self.same("why", &[bytes], lent(WHY_NUMBERS + 3))),
            _ => (),
        }
        let (_, numbers) = self.same("why", &[bytes], lent(WHY_NUMBERS));
        numbers.try_into().expect("as many numbers as were lent")
    }

    /// What a call that writes writes, if it accepts.
    pub fn writing(
        &mut self,
        call: &'static str,
        input: &[&[u8]],
        run: impl Fn(&Calls, &mut [u8], &mut usize) -> u8,
    ) -> Option<Vec<u8>> {
        self.written(call, input, run).ok()
    }

    /// A call that writes, with room to spare, with just enough, with one byte less, and now and then with none: what it writes, or
    /// its number. One that refuses does so with no room too.
    pub fn written(
        &mut self,
        call: &'static str,
        input: &[&[u8]],
        run: impl Fn(&Calls, &mut [u8], &mut usize) -> u8,
    ) -> Result<Vec<u8>, u8> {
        let lent = |room| {
            let run = &run;
            move |calls: &Calls| left(room, |output, written| run(calls, output, written))
        };
        let most = 4_096 + input.iter().map(|bytes| bytes.len()).sum::<usize>();
        let (number, (length, _)) = self.same(call, input, lent(most));
        if number != 0 {
            let (again, _) = self.same(call, input, lent(0));
            assert_eq!(again, number, "seed {}, {call}: room is asked for last", self.seed);
            return Err(number);
        }
        let (_, (_, output)) = self.same(call, input, lent(length));
        self.same(call, input, lent(length.saturating_sub(1)));
        self.turn += 1;
        if self.turn.is_multiple_of(4) {
            self.same(call, input, lent(0));
        }
        Ok(output)
    }

    /// A call on three files: what it writes, or its number.
    pub fn of_three(
        &mut self,
        call: &'static str,
        files: &[Vec<u8>; 3],
        choose: fn(&Calls) -> OfThree,
    ) -> Result<Vec<u8>, u8> {
        let [one, two, three] = files;
        self.written(call, &[one, two, three], |calls, output, written| {
            choose(calls)(one, two, three, output, written)
        })
    }

    /// A call on three files in exactly so much room: what it leaves.
    pub fn in_room(
        &mut self,
        call: &'static str,
        files: [&[u8]; 3],
        room: usize,
        choose: fn(&Calls) -> OfThree,
    ) -> Left {
        let [one, two, three] = files;
        self.same(call, &files, |calls| {
            left(room, |output, written| choose(calls)(one, two, three, output, written))
        })
    }

    /// A case of an independent reading, in exactly its room: number, length and the whole output are as told.
    pub fn case(&mut self, call: &'static str, case: &Case, choose: fn(&Calls) -> OfThree) {
        let files = case.files.each_ref().map(Vec::as_slice);
        let (number, (length, output)) = self.in_room(call, files, case.room, choose);
        let mut told = case.output.clone();
        told.resize(case.room, FILL);
        let is_as_told = number == case.number && length == case.output.len() && output == told;
        assert!(is_as_told, "{call}, line {}: number {number}, length {length}", case.line);
    }

    /// A marking over lent numbers: its number, all of these numbers as it leaves them, and how many bytes it says are missing.
    pub fn mark(&mut self, record: &[u64], start: u64, end: u64) -> (u8, (Vec<u64>, u64)) {
        self.same("mark", &[&bytes_of(record), &bytes_of(&[start, end])], |calls| {
            let (mut record, mut missing) = (record.to_vec(), SENTINEL);
            ((calls.mark)(&mut record, start, end, &mut missing), (record, missing))
        })
    }

    /// How often the call answered which number.
    pub fn counts(&self, call: &'static str) -> [u64; 13] {
        self.seen.get(call).copied().unwrap_or_default()
    }

    /// The call answered each of these numbers, and no other.
    pub fn assert_seen(&self, call: &'static str, numbers: &[usize]) {
        let counts = self.counts(call);
        println!("{call}: {}", shown(&counts));
        let seen: Vec<usize> = (0..counts.len()).filter(|&number| counts[number] > 0).collect();
        assert_eq!(seen, numbers, "the numbers that {call} answered");
    }
}

/// What a call that writes leaves: its number, the length and the whole output.
pub type Left = (u8, (usize, Vec<u8>));

fn left(room: usize, run: impl FnOnce(&mut [u8], &mut usize) -> u8) -> Left {
    let (mut output, mut written) = (vec![FILL; room], SENTINEL as usize);
    let number = run(&mut output, &mut written);
    (number, (written, output))
}

/// The number of a call on three files and what it writes into so much room. Its length is that of what it wrote, and it leaves
/// alone what is after that, or all if it refuses.
pub fn written_into(call: OfThree, room: usize, [one, two, three]: [&[u8]; 3]) -> (u8, Vec<u8>) {
    let (number, (written, mut output)) =
        left(room, |output, written| call(one, two, three, output, written));
    assert!(number == 0 || written == 0, "number {number}, length {written}");
    assert!(output[written..].iter().all(|byte| *byte == FILL), "number {number}: what is after the outcome");
    output.truncate(written);
    (number, output)
}

/// Whether a file is accepted as a part.met.
pub fn is_accepted(file: &[u8]) -> bool {
    (PLAIN.read)(PART_MET, file, &mut [0; FIELDS]) == 0
}

/// Whether each of the files is accepted by itself.
pub fn are_accepted(files: &[Vec<u8>; 3]) -> bool {
    files.iter().all(|file| is_accepted(file))
}

/// Numbers, to be shown where a call on them differs.
pub fn bytes_of(numbers: &[u64]) -> Vec<u8> {
    numbers.iter().flat_map(|number| number.to_le_bytes()).collect()
}

impl Drop for Comparison {
    fn drop(&mut self) {
        let calls: u64 = self.seen.values().flatten().sum();
        println!("{calls} calls compared");
    }
}

fn shown(counts: &[u64]) -> String {
    let seen = counts.iter().enumerate().filter(|(_, count)| **count > 0);
    let shown: Vec<String> = seen.map(|(number, count)| format!("{number}: {count}")).collect();
    shown.join(", ")
}

fn cut(mut text: String) -> String {
    if text.len() > SHOWN {
        text.truncate(SHOWN);
        text.push_str("..");
    }
    text
}

fn hex(input: &[&[u8]]) -> String {
    let pieces = input.iter().map(|bytes| {
        let shown: String = bytes.iter().take(SHOWN / 4).map(|byte| format!("{byte:02X}")).collect();
        format!("{} bytes {shown}", bytes.len())
    });
    pieces.collect::<Vec<_>>().join(" | ")
}
