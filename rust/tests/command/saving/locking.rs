//! The lock of a save: who waits for whom, how long, and what is said.

use std::ffi::OsStr;
use std::fs::{self, File, Permissions};
use std::io::Write;
use std::os::unix::fs::{PermissionsExt, chown, symlink};
use std::process::{self, Child, Command, Stdio};
use std::thread;
use std::time::{Duration, Instant};

use crate::packets;
use crate::studio::{PATIENT, Person, Run, Studio, finish, is_root, wait};

const SAVE: [&str; 6] = ["save", "--opened", "old", "--new", "new", "stored"];

/// A stored file, the copy of what was opened, and what is to be stored.
fn studio() -> (Studio, Vec<u8>, Vec<u8>) {
    let studio = Studio::new();
    let [old, new] = [1, 2].map(|date| packets::part_met(date, 0, 100, &[(0, 50)]));
    studio.file("old", &old);
    studio.file("new", &new);
    studio.file("stored", &old);
    (studio, old, new)
}

/// Holds the lock as another save would, as long as the file is open.
fn hold(studio: &Studio) -> File {
    let lock = File::create(studio.path(".stored.lock")).unwrap();
    lock.lock().unwrap();
    lock
}

/// The words of a save, with --wait in front.
fn save_waiting(seconds: &str) -> Vec<&str> {
    [&["save", "--wait", seconds], &SAVE[1..]].concat()
}

fn assert_given_up(run: Run, seconds: &str) {
    let run = run.expect(2);
    let user = if is_root() { "root".to_string() } else { "".to_string() };
    let held = format!("'stored' is being saved by process {} of user {user}", process::id());
    let lines = run.stderr.lines().filter(|line| !line.ends_with("; waiting for it"));
    let lines: Vec<&str> = lines.collect();
    assert!(lines[0].starts_with(&format!("ed2k: {held}")), "{}", run.stderr);
    assert_eq!(lines[1], "Nothing was lost: 'stored' is as it was.");
    assert!(run.stderr.contains(&format!("\nWaited {seconds} for it. Try again, ")), "{}", run.stderr);
    assert!(run.stderr.lines().all(|line| line.chars().count() <= 80), "{}", run.stderr);
}

#[test]
fn who_waited_long_enough_is_told_who_holds_the_lock() {
    let (studio, old, _) = studio();
    let held = hold(&studio);
    for (seconds, waited) in [("0", "0 seconds"), ("1", "1 second"), ("2", "2 seconds")] {
        let started = Instant::now();
        assert_given_up(studio.run(&save_waiting(seconds)), waited);
        let took = started.elapsed().as_secs_f64();
        assert!((seconds.parse().unwrap()..60.0).contains(&took), "{seconds}: {took}");
        assert_given_up(studio.run(&["mark", "--wait", seconds, "stored", "0", "10"]), waited);
    }
    assert_eq!(studio.bytes("stored"), old);
    drop(held);
    // A process that another test's thread has just forked still has the lock's file open, until it becomes its own program.
    studio.run(&["mark", "--wait", PATIENT, "stored", "0", "10"]).expect(0);
}

#[test]
fn a_person_waits_for_ten_seconds_unless_told_otherwise() {
    let (studio, ..) = studio();
    let held = hold(&studio);
    let started = Instant::now();
    assert_given_up(studio.run(&SAVE), "10 seconds");
    assert!((10.0..60.0).contains(&started.elapsed().as_secs_f64()));
    drop(held);
}

#[test]
fn a_save_that_waits_says_so_and_goes_on_when_it_can() {
    let (studio, _, new) = studio();
    let held = hold(&studio);
    let save = studio.spawn(&save_waiting("300"));
    thread::sleep(Duration::from_millis(2500));
    drop(held);
    let run = wait(save).expect(0);
    let held = format!("ed2k: 'stored' is being saved by process {} of user ", process::id());
    assert!(run.stderr.starts_with(&held) && run.stderr.ends_with("; waiting for it\n"), "{}", run.stderr);
    assert_eq!(
        (studio.bytes("stored"), studio.names()),
        (new, ["new", "old", "stored"].map(String::from).into())
    );
}

#[test]
fn how_long_to_wait_is_a_number_of_seconds() {
    let (studio, old, _) = studio();
    for wrong in ["", "-1", "a while", "1.5", "10s"] {
        let run = studio.run(&save_waiting(wrong)).expect(2);
        assert!(run.stderr.contains("--wait is a number of seconds in decimal"), "{}", run.stderr);
        studio.run(&["mark", "--wait", wrong, "stored", "0", "10"]).expect(2);
    }
    studio.run(&["save", "--wait", "1", "--wait", "1", "stored"]).expect(2);
    assert_eq!(studio.bytes("stored"), old);
    studio.run(&save_waiting("18446744073709551615")).expect(0);
}

/// A save whose bytes come from a pipe, which nobody has written to yet.
fn save_from_pipe(studio: &Studio, opened: &str, new: &str) -> Child {
    assert!(Command::new("mkfifo").arg(studio.path("pipe")).status().expect("mkfifo runs").success());
    let save = studio.spawn(&["save", "--strict", "--wait", "0", "--opened", opened, "--new", new, "stored"]);
    thread::sleep(Duration::from_millis(500));
    save
}

#[test]
fn a_save_that_reads_from_a_pipe_holds_nobody_up() {
    for (opened, new) in [("pipe", "new"), ("old", "pipe")] {
        let (studio, old, new_bytes) = studio();
        let other = packets::part_met(3, 0, 100, &[]);
        studio.file("other", &other);
        let save = save_from_pipe(&studio, opened, new);
        studio.run(&["save", "--wait", "0", "--opened", "old", "--new", "other", "stored"]).expect(0);
        let bytes = if opened == "pipe" { &old } else { &new_bytes };
        File::options().write(true).open(studio.path("pipe")).unwrap().write_all(bytes).unwrap();
        assert!(wait(save).expect(1).stderr.contains("refused 11: "));
        assert_eq!(studio.bytes("stored"), other);
    }
}

/// What has the name of the lock is neither followed nor written to nor waited for.
#[test]
fn what_is_no_lock_is_left_alone() {
    let (studio, old, _) = studio();
    let lock = studio.path(".stored.lock");
    symlink("other", &lock).unwrap();
    let printed = studio.run(&save_waiting("0")).expect(2).stderr;
    assert!(printed.starts_with("ed2k: cannot take the lock '.stored.lock' beside 'stored': "), "{printed}");
    assert!(!studio.path("other").exists());
    fs::remove_file(&lock).unwrap();
    assert!(Command::new("mkfifo").arg(&lock).status().expect("mkfifo runs").success());
    studio.run(&save_waiting("0")).expect(2);
    fs::remove_file(&lock).unwrap();
    fs::create_dir(&lock).unwrap();
    studio.run(&save_waiting("0")).expect(2);
    assert_eq!(studio.bytes("stored"), old);
}

const GROUP: u32 = 5_100;
const ANNA: Person = Person { user: 5_001, groups: &[5_001, GROUP] };
const BEN: Person = Person { user: 5_002, groups: &[5_002, GROUP] };

/// The studio's folder and the stored file, shared by the group.
fn shared_studio() -> (Studio, Vec<u8>, Vec<u8>) {
    let (studio, old, new) = studio();
    for (path, mode) in [(studio.folder.clone(), 0o775), (studio.path("stored"), 0o664)] {
        chown(&path, Some(ANNA.user), Some(GROUP)).expect("only root can act as several users");
        fs::set_permissions(&path, Permissions::from_mode(mode)).unwrap();
    }
    (studio, old, new)
}

#[test]
#[cfg_attr(not(as_root), ignore = "only root can act as several users")]
fn what_a_killed_save_of_one_user_left_does_not_stop_another() {
    let (studio, _, new) = shared_studio();
    for (name, mode) in [(".stored.lock", 0o666), (".stored.saving", 0o600)] {
        let path = studio.file(name, b"");
        chown(&path, Some(ANNA.user), Some(ANNA.groups[0])).unwrap();
        fs::set_permissions(&path, Permissions::from_mode(mode)).unwrap();
    }
    finish(studio.command_of(BEN, 0o077, &save_waiting("0"))).expect(0);
    assert_eq!(
        (studio.bytes("stored"), studio.names()),
        (new, ["new", "old", "stored"].map(String::from).into())
    );
}

/// Saves of one user, who shares nothing by default, are killed at any moment; another's must always be possible.
#[test]
#[cfg_attr(not(as_root), ignore = "only root can act as several users")]
fn a_save_of_one_user_that_is_killed_does_not_stop_another() {
    const KILLS: u32 = 60;
    let (studio, old, new) = shared_studio();
    let save = |person, words: [&str; 6]| {
        let mut command = studio.command_of(person, 0o077, &words);
        command.stdout(Stdio::null()).stderr(Stdio::null());
        command
    };
    let back = ["save", "--opened", "new", "--new", "old", "stored"];
    let started = Instant::now();
    assert!(save(ANNA, SAVE).status().unwrap().success());
    let span = started.elapsed() * 5 / 4;
    let mut is_new = true;
    for kill in 0..KILLS {
        let mut child = save(ANNA, if is_new { back } else { SAVE }).spawn().unwrap();
        thread::sleep(span * kill / KILLS);
        child.kill().unwrap();
        child.wait().unwrap();
        is_new = studio.bytes("stored") == new;
        assert!(is_new || studio.bytes("stored") == old);
        let words = if is_new { back } else { SAVE };
        finish(studio.command_of(BEN, 0o077, &words)).expect(0);
        is_new = !is_new;
    }
    assert_eq!(studio.names(), ["new", "old", "stored"]);
}

/// As a lock that an administrator made by hand, say.
#[test]
#[cfg_attr(not(as_root), ignore = "only root can act as several users")]
fn a_lock_that_may_not_be_opened_is_named() {
    let (studio, old, _) = shared_studio();
    let lock = studio.file(".stored.lock", b"");
    fs::set_permissions(&lock, Permissions::from_mode(0o600)).unwrap();
    let run = finish(studio.command_of(BEN, 0o022, &save_waiting("0"))).expect(2);
    for phrase in
        ["cannot take the lock '.stored.lock' beside 'stored': Permission denied", "remove '.stored.lock'"]
    {
        assert!(run.stderr.contains(phrase), "{}", run.stderr);
    }
    assert_eq!(studio.bytes("stored"), old);
    let words: Vec<&OsStr> = SAVE.iter().map(OsStr::new).collect();
    finish(studio.command(&words)).expect(0);
}
