//! Saves of one file that meet each other, and saves that are killed: the stored file is whole at any moment.

mod windows;

use std::collections::HashSet;
use std::ffi::OsStr;
use std::fs;
use std::process::Stdio;
use std::sync::atomic::{AtomicBool, Ordering};
use std::thread;
use std::time::{Duration, Instant};

use crate::packets;
use crate::studio::{PATIENT, Studio, wait};

/// A part.met of nearly a megabyte, so that half of one would be seen.
fn large(date: u32) -> Vec<u8> {
    packets::part_met(date, 60_000, 100, &[(0, date + 1)])
}

/// Tells the watcher that the work is done, also when it failed.
struct Done<'a>(&'a AtomicBool);

impl Drop for Done<'_> {
    fn drop(&mut self) {
        self.0.store(true, Ordering::Relaxed);
    }
}

/// Runs the work while a reader reads the stored file again and again; how often it did. It must always find one
/// of the whole files.
fn watched(studio: &Studio, whole: &HashSet<Vec<u8>>, work: impl FnOnce()) -> usize {
    let done = AtomicBool::new(false);
    thread::scope(|scope| {
        let watcher = scope.spawn(|| {
            let mut readings = 0;
            while !done.load(Ordering::Relaxed) {
                let found = fs::read(studio.path("stored")).expect("the stored file is always there");
                assert!(whole.contains(&found), "{} bytes that nobody saved", found.len());
                readings += 1;
            }
            readings
        });
        let working = Done(&done);
        work();
        drop(working);
        watcher.join().expect("the watcher saw whole files only")
    })
}

#[test]
fn of_a_storm_of_strict_saves_from_one_opened_copy_one_is_accepted() {
    const SAVES: u32 = 40;
    let studio = Studio::new();
    let old = large(0);
    studio.file("stored", &old);
    studio.file("opened copy", &old);
    let new: Vec<Vec<u8>> = (1..=SAVES).map(large).collect();
    for (n, bytes) in new.iter().enumerate() {
        studio.file(&format!("new {n}"), bytes);
    }
    let whole: HashSet<Vec<u8>> = new.iter().cloned().chain([old]).collect();
    let mut winners = Vec::new();
    let readings = watched(&studio, &whole, || {
        let start = |n| {
            let new = format!("new {n}");
            let files = ["--opened", "opened copy", "--new", &new, "stored"];
            studio.spawn(&[&["save", "--strict", "--wait", PATIENT][..], &files].concat())
        };
        let saves: Vec<_> = (0..new.len()).map(start).collect();
        for (n, save) in saves.into_iter().enumerate() {
            let run = wait(save);
            match run.status {
                0 => winners.push(n),
                _ => assert!(run.expect(1).stderr.contains("refused 11: ")),
            }
        }
    });
    println!("{SAVES} saves, {readings} readings of the stored file meanwhile");
    assert_eq!(winners.len(), 1);
    assert_eq!(studio.bytes("stored"), new[winners[0]]);
    assert!(studio.names().iter().all(|name| !name.starts_with('.')));
}

/// Numbers that look random and are the same in every run (xorshift).
struct Dice(u64);

impl Dice {
    fn below(&mut self, limit: u64) -> u64 {
        self.0 ^= self.0 << 13;
        self.0 ^= self.0 >> 7;
        self.0 ^= self.0 << 17;
        self.0 % limit
    }
}

#[test]
fn a_save_killed_at_any_moment_leaves_the_old_or_the_new_file() {
    const KILLS: usize = 200;
    const SEED: u64 = 0x0ED2_2026;
    let studio = Studio::new();
    let files = [large(1), large(2)];
    let whole: HashSet<Vec<u8>> = files.iter().cloned().collect();
    studio.file("copy 0", &files[0]);
    studio.file("copy 1", &files[1]);
    studio.file("stored", &files[0]);
    let other = |current: usize| ["copy 1", "copy 0"][current];
    let command = |current: usize| {
        let opened = ["copy 0", "copy 1"][current];
        let words = ["save", "--strict", "--opened", opened, "--new", other(current), "stored"];
        let mut command = studio.command(&words.map(OsStr::new));
        command.stdout(Stdio::null()).stderr(Stdio::null());
        command
    };
    let started = Instant::now();
    assert!(command(0).status().unwrap().success());
    let span = started.elapsed() * 5 / 4;
    let (mut current, mut dice) = (1, Dice(SEED));
    let (mut saved, mut left) = (0, 0);
    for _ in 0..KILLS {
        let mut child = command(current).spawn().unwrap();
        thread::sleep(Duration::from_nanos(dice.below(span.as_nanos() as u64)));
        child.kill().unwrap();
        child.wait().unwrap();
        let found = studio.bytes("stored");
        assert!(whole.contains(&found), "{} bytes that nobody saved", found.len());
        let now = usize::from(found == files[1]);
        saved += usize::from(now != current);
        left += usize::from(studio.path(".stored.saving").exists());
        current = now;
    }
    println!(
        "seed {SEED:#x}: {KILLS} kills within {span:?}; {saved} came after the renaming, {left} left a file beside"
    );
    assert!(command(current).status().unwrap().success());
    assert_eq!(studio.bytes("stored"), files[1 - current]);
    assert_eq!(studio.names(), ["copy 0", "copy 1", "stored"]);
}
