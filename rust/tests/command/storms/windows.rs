//! Windows that opened one file, each mark another range and save at the same time, by the save that merges: what was saved is there,
//! and nothing else has changed, whichever of them are killed.

use std::ffi::OsStr;
use std::fs;
use std::process::Stdio;
use std::thread;
use std::time::{Duration, Instant};

use ed2k::disk::{self, Mode};
use ed2k::{Gap, GapRecord};

use super::Dice;
use crate::packets;
use crate::studio::{PATIENT, Studio};

const ROUNDS: u64 = 1_000;
const SEED: u64 = 0x0ED2_2027;

/// How many rounds are made at the same time, each in a folder of its own.
const LANES: u64 = 4;

const MOST_WINDOWS: u64 = 16;

/// The bytes of the model: so many for each window, of which it marks some; then those of which some have arrived before.
const SLOT: u64 = 10;
const SLOTS: u64 = MOST_WINDOWS * SLOT;
const SIZE: u64 = SLOTS + 50;

/// How a window saves.
#[derive(Clone, Copy)]
enum Way {
    /// By the library, in a thread.
    Thread,
    /// By the command.
    Process,
    /// By the command, which is killed after so long.
    Killed(Duration),
}

/// What became of a window's save.
#[derive(Clone, Copy, PartialEq)]
enum Ended {
    Saved,
    Merged,
    Killed,
}

/// A window, the range that has arrived in it, and the file that it wants to save.
struct Window {
    name: String,
    way: Way,
    range: Gap,
    new: Vec<u8>,
}

impl Window {
    fn save(&self, studio: &Studio, opened: &[u8]) -> Ended {
        match self.way {
            Way::Thread => self.save_by_the_library(studio, opened),
            Way::Process => self.save_by_the_command(studio, None),
            Way::Killed(after) => self.save_by_the_command(studio, Some(after)),
        }
    }

    /// What it is told to go on from has its own range.
    fn save_by_the_library(&self, studio: &Studio, opened: &[u8]) -> Ended {
        let wait = Duration::from_secs(PATIENT.parse().expect("seconds"));
        let saved = disk::save(studio.path("stored"), Mode::Merge, opened, &self.new, wait).expect("a save");
        assert_eq!(missing_in(&saved.bytes, self.range), 0);
        if saved.merged_with.is_some() { Ended::Merged } else { Ended::Saved }
    }

    /// A save that has ended when it is to be killed is one that was made.
    fn save_by_the_command(&self, studio: &Studio, killed_after: Option<Duration>) -> Ended {
        let opened = "windows/opened";
        let words = ["save", "--wait", PATIENT, "--opened", opened, "--new", &self.name, "stored"];
        let mut command = studio.command(&words.map(OsStr::new));
        let mut child = command.stdout(Stdio::piped()).stderr(Stdio::inherit()).spawn().expect("a process");
        if let Some(moment) = killed_after {
            thread::sleep(moment);
            child.kill().expect("a process that can be killed");
        }
        let output = child.wait_with_output().expect("the process ends");
        match output.status.code() {
            None => Ended::Killed,
            Some(0) if output.stdout.starts_with(b"saved: ") => Ended::Saved,
            Some(0) if output.stdout.starts_with(b"merged: ") => Ended::Merged,
            other => panic!("{other:?}: {}", String::from_utf8_lossy(&output.stdout)),
        }
    }
}

/// How many bytes of the range a part.met misses.
fn missing_in(part_met: &[u8], range: Gap) -> u64 {
    let record = GapRecord::read(part_met).expect("an accepted file");
    let common = |gap: Gap| gap.end.min(range.end).saturating_sub(gap.start.max(range.start));
    record.gaps().map(common).sum()
}

/// A range within these bytes.
fn some_range(start: u64, end: u64, dice: &mut Dice) -> Gap {
    let start = start + dice.below(end - start);
    Gap { start, end: start + 1 + dice.below(end - start) }
}

/// A part.met that misses all that windows will mark.
fn opened(dice: &mut Dice) -> Vec<u8> {
    let mut record = GapRecord::all_missing(SIZE).unwrap();
    for _ in 0..dice.below(5) {
        let arrived = some_range(SLOTS, SIZE, dice);
        record.mark(arrived.start, arrived.end).expect("few gaps");
    }
    let gaps: Vec<(u32, u32)> = record.gaps().map(|gap| (gap.start as u32, gap.end as u32)).collect();
    packets::part_met(9, 1, SIZE as u32, &gaps)
}

/// Two windows and more, whose ranges are apart.
fn windows(opened: &[u8], span: Duration, dice: &mut Dice) -> Vec<Window> {
    let count = 2 + dice.below(MOST_WINDOWS - 1);
    let window = |number: u64| {
        let range = some_range(number * SLOT, (number + 1) * SLOT, dice);
        let mut record = GapRecord::read(opened).unwrap();
        record.mark(range.start, range.end).expect("few gaps");
        let way = match dice.below(8) {
            0 => Way::Process,
            1..4 => Way::Killed(Duration::from_nanos(dice.below(span.as_nanos() as u64))),
            _ => Way::Thread,
        };
        let new = ed2k::put_gaps(opened, &record).expect("a part.met");
        Window { name: format!("windows/{number}"), way, range, new }
    };
    (0..count).map(window).collect()
}

/// What became of saves.
#[derive(Default)]
struct Counts {
    saved: usize,
    merged: usize,
    killed: usize,
    killed_and_stored: usize,
}

impl Counts {
    fn add(&mut self, ended: Ended, is_there: bool) {
        match ended {
            Ended::Saved => self.saved += 1,
            Ended::Merged => self.merged += 1,
            Ended::Killed => self.killed += 1,
        }
        self.killed_and_stored += usize::from(ended == Ended::Killed && is_there);
    }

    fn plus(self, other: Counts) -> Counts {
        Counts {
            saved: self.saved + other.saved,
            merged: self.merged + other.merged,
            killed: self.killed + other.killed,
            killed_and_stored: self.killed_and_stored + other.killed_and_stored,
        }
    }
}

/// All windows save at the same time.
fn save_all(studio: &Studio, opened: &[u8], windows: &[Window]) -> Vec<Ended> {
    studio.file("stored", opened);
    studio.file("windows/opened", opened);
    for window in windows {
        studio.file(&window.name, &window.new);
    }
    thread::scope(|scope| {
        let saves: Vec<_> =
            windows.iter().map(|window| scope.spawn(|| window.save(studio, opened))).collect();
        saves.into_iter().map(|save| save.join().expect("a save that ended")).collect()
    })
}

/// The file has the range of each save that was made, and of one that was killed all or nothing; else it is the one opened.
fn judge(found: &[u8], opened: &[u8], windows: &[Window], ended: &[Ended]) -> Counts {
    let mut expected = GapRecord::read(opened).unwrap();
    let mut counts = Counts::default();
    for (window, ended) in windows.iter().zip(ended) {
        let is_there = missing_in(found, window.range) == 0;
        assert!(is_there || *ended == Ended::Killed, "a save that was made is lost");
        if is_there {
            expected.mark(window.range.start, window.range.end).expect("few gaps");
        }
        counts.add(*ended, is_there);
    }
    assert_eq!(found, ed2k::put_gaps(opened, &expected).unwrap());
    // One save at most is over the file that was opened. What is merged is so with a save before it.
    assert!(counts.saved <= 1 && (counts.merged == 0 || counts.saved + counts.killed_and_stored > 0));
    counts
}

/// After the saves of a round and one more, nothing is beside the stored file.
fn round(studio: &Studio, span: Duration, dice: &mut Dice) -> Counts {
    let opened = opened(dice);
    let windows = windows(&opened, span, dice);
    let ended = save_all(studio, &opened, &windows);
    let found = studio.bytes("stored");
    disk::save(studio.path("stored"), Mode::Strict, &found, &found, Duration::ZERO).expect("one more save");
    assert_eq!(studio.names(), ["stored", "windows"]);
    judge(&found, &opened, &windows, &ended)
}

/// A time in which a save by the command has ended or not, where others save too.
fn span_of_a_save(studio: &Studio) -> Duration {
    let opened = packets::part_met(9, 1, SIZE as u32, &[]);
    for name in ["stored", "windows/opened", "windows/0"] {
        studio.file(name, &opened);
    }
    let window = Window {
        name: "windows/0".into(),
        way: Way::Process,
        range: Gap { start: 0, end: 1 },
        new: opened.clone(),
    };
    let times = (0..5).map(|_| {
        let started = Instant::now();
        window.save(studio, &opened);
        started.elapsed()
    });
    times.min().expect("five times") * 4
}

fn studio() -> Studio {
    let studio = Studio::in_memory();
    fs::create_dir(studio.path("windows")).unwrap();
    studio
}

#[test]
fn what_windows_save_at_the_same_time_is_all_there() {
    let span = span_of_a_save(&studio());
    let started = Instant::now();
    let lane = |number: u64| {
        let (studio, mut dice) = (studio(), Dice(SEED * (number + 1)));
        (0..ROUNDS / LANES).map(|_| round(&studio, span, &mut dice)).fold(Counts::default(), Counts::plus)
    };
    let Counts { saved, merged, killed, killed_and_stored } = thread::scope(|scope| {
        let lanes: Vec<_> = (0..LANES).map(|number| scope.spawn(move || lane(number))).collect();
        let counts = lanes.into_iter().map(|lane| lane.join().expect("rounds that ended"));
        counts.fold(Counts::default(), Counts::plus)
    });
    let took = started.elapsed();
    println!(
        "seed {SEED:#x}: {ROUNDS} rounds in {took:?}; {saved} saved, {merged} merged, {killed} killed within {span:?}, \
         of these {killed_and_stored} stored"
    );
    assert!(saved + merged > 5_000 && killed > 0);
}
