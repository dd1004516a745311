//! Saving to the disk by the crate itself, as an editor does it.

#[path = "support/packets.rs"]
#[allow(dead_code)]
mod packets;

use std::fs::{self, Permissions};
use std::io::{BufRead, BufReader, ErrorKind, Read};
use std::os::unix::fs::{MetadataExt, PermissionsExt};
use std::path::{Path, PathBuf};
use std::process::{self, Child, Command, Stdio};
use std::sync::atomic::{AtomicU32, Ordering};
use std::time::{Duration, Instant};
use std::{env, thread};

use ed2k::disk::{self, Holder, Mode, SaveError, Saved, Step, Stored, WAIT};
use ed2k::{GapRecord, MET_CEILING, Refusal, put_gaps};

/// Where many saves meet on a machine that may be busy.
const PATIENT: Duration = Duration::from_secs(300);

/// A folder of its own that everybody may write, and that is removed in the end.
struct Folder(PathBuf);

impl Folder {
    fn new() -> Folder {
        static NUMBER: AtomicU32 = AtomicU32::new(0);
        let number = NUMBER.fetch_add(1, Ordering::Relaxed);
        let folder = env::temp_dir().join(format!("ed2k disk test {} {number}", process::id()));
        fs::create_dir(&folder).expect("a folder for the test");
        fs::set_permissions(&folder, Permissions::from_mode(0o777)).unwrap();
        Folder(folder)
    }

    fn path(&self, name: &str) -> PathBuf {
        self.0.join(name)
    }

    fn names(&self) -> Vec<String> {
        names(&self.0)
    }

    /// This test program, where every user can reach it.
    fn copy_of_this_program(&self) -> PathBuf {
        let program = self.path("program");
        let copied = Command::new("cp").arg(env::current_exe().unwrap()).arg(&program).status();
        assert!(copied.expect("cp runs").success());
        program
    }
}

fn names(folder: &Path) -> Vec<String> {
    let entries = fs::read_dir(folder).unwrap();
    let mut names: Vec<String> =
        entries.map(|entry| entry.unwrap().file_name().into_string().unwrap()).collect();
    names.sort();
    names
}

impl Drop for Folder {
    fn drop(&mut self) {
        let _ = fs::remove_dir_all(&self.0);
    }
}

fn part_met(date: u32) -> Vec<u8> {
    packets::part_met(date, 0, 100, &[(0, 50)])
}

/// The same file with these gaps.
fn with_gaps(gaps: &[(u32, u32)]) -> Vec<u8> {
    packets::part_met(1, 0, 100, gaps)
}

fn assert_refused(refused: Result<Saved, SaveError>, refusal: Refusal) {
    match refused {
        Err(SaveError::Refused(number)) => assert_eq!(number, refusal),
        other => panic!("{other:?}"),
    }
}

#[test]
fn a_first_save_a_second_one_and_a_conflict() {
    let folder = Folder::new();
    let path = folder.path("stored");
    let [old, mine, theirs] = [1, 2, 3].map(part_met);
    let saved = disk::save(&path, Mode::Strict, b"", &old, WAIT).unwrap();
    assert_eq!(saved, Saved { bytes: old.clone(), merged_with: None, owner_kept: true });
    let saved = disk::save(&path, Mode::Strict, &saved.bytes, &theirs, WAIT).unwrap();
    assert_eq!(saved, Saved { bytes: theirs.clone(), merged_with: None, owner_kept: true });
    for opened in [&old[..], b"", &theirs[1..], &[&theirs[..], b"1"].concat()] {
        assert_refused(disk::save(&path, Mode::Strict, opened, &mine, WAIT), Refusal::Conflict);
    }
    assert_refused(disk::save(&path, Mode::Strict, &old, b"no part.met", WAIT), Refusal::Opening);
    assert_eq!((fs::read(&path).unwrap(), folder.names()), (theirs, vec!["stored".to_string()]));
}

/// A window that was merged with another goes on from the bytes that are stored.
#[test]
fn saves_of_two_windows_are_merged() {
    let folder = Folder::new();
    let path = folder.path("stored");
    let save = |opened: &[u8], new: &[u8]| disk::save(&path, Mode::Merge, opened, new, WAIT).unwrap();
    let (opened, first, second) = (with_gaps(&[(0, 100)]), with_gaps(&[(30, 100)]), with_gaps(&[(0, 60)]));
    let both = with_gaps(&[(30, 60)]);
    let saved = save(b"", &opened);
    assert_eq!(saved, Saved { bytes: opened.clone(), merged_with: None, owner_kept: true });
    let saved = save(&opened, &first);
    assert_eq!(saved, Saved { bytes: first.clone(), merged_with: None, owner_kept: true });
    let saved = save(&opened, &second);
    assert_eq!(saved, Saved { bytes: both.clone(), merged_with: Some(first.clone()), owner_kept: true });
    assert_eq!(fs::read(&path).unwrap(), both);
    let saved = save(&saved.bytes, &with_gaps(&[(50, 60)]));
    assert_eq!(saved.merged_with, None);
    // The first window has not heard of that yet.
    let saved = save(&first, &with_gaps(&[(40, 100)]));
    assert_eq!((saved.bytes, saved.merged_with), (with_gaps(&[(50, 60)]), Some(with_gaps(&[(50, 60)]))));
    assert_eq!((fs::read(&path).unwrap(), folder.names()), (with_gaps(&[(50, 60)]), vec!["stored".into()]));
}

/// After each the stored file is as it was.
#[test]
fn a_save_that_cannot_be_merged_is_refused() {
    let folder = Folder::new();
    let path = folder.path("stored");
    let opened = with_gaps(&[(0, 100)]);
    let two_hashes = packets::part_met(1, 2, 100, &[]);
    let another_size = packets::part_met(1, 0, 101, &[]);
    let (stored, new) = (packets::part_met(1, 3, 100, &[]), with_gaps(&[]));
    let refused = |stored: &[u8], opened: &[u8], new: &[u8], refusal| {
        fs::write(&path, stored).unwrap();
        assert_refused(disk::save(&path, Mode::Merge, opened, new, WAIT), refusal);
        assert_eq!((fs::read(&path).unwrap(), folder.names()), (stored.to_vec(), vec!["stored".into()]));
    };
    refused(&stored, &opened, &two_hashes, Refusal::Conflict);
    refused(&stored, &opened, &another_size, Refusal::Strangers);
    refused(&stored, &another_size, &new, Refusal::Strangers);
    refused(b"", &opened, &new, Refusal::Short);
    refused(&stored, b"", &new, Refusal::Short);
    refused(b"no part.met", &stored[..9], &new, Refusal::Short);
    refused(b"no part.met", &opened, &new[1..], Refusal::Opening);
    refused(b"no part.met", &opened, &new, Refusal::Opening);
    fs::remove_file(&path).unwrap();
    assert_refused(disk::save(&path, Mode::Merge, &opened, &new, WAIT), Refusal::Short);
    assert!(folder.names().is_empty());
}

/// Files above the ceiling are compared, and not merged.
#[test]
fn stored_files_of_any_length_are_read_as_far_as_the_save_needs() {
    let folder = Folder::new();
    let path = folder.path("stored");
    let (opened, new) = (with_gaps(&[(0, 100)]), with_gaps(&[]));
    for length in [MET_CEILING, MET_CEILING + 1, 2 * MET_CEILING] {
        let own = if length > MET_CEILING { Refusal::Limit } else { Refusal::Opening };
        let stored = vec![7; length];
        fs::write(&path, &stored).unwrap();
        assert_refused(disk::save(&path, Mode::Merge, &opened, &new, WAIT), own);
        assert_refused(disk::save(&path, Mode::Strict, &opened, &new, WAIT), Refusal::Conflict);
        for mode in [Mode::Merge, Mode::Strict] {
            fs::write(&path, &stored).unwrap();
            let longer = [&stored[..], &[7]].concat();
            let refusal = if mode == Mode::Merge { Refusal::Limit } else { Refusal::Conflict };
            assert_refused(disk::save(&path, mode, &longer, &new, WAIT), refusal);
            let saved = disk::save(&path, mode, &stored, &new, WAIT).unwrap();
            assert_eq!((saved.bytes, saved.merged_with), (new.clone(), None));
        }
    }
}

#[test]
fn a_lock_is_there_as_long_as_it_is_held_and_names_its_holder() {
    let folder = Folder::new();
    let path = folder.path("stored");
    fs::write(&path, part_met(1)).unwrap();
    let stored = Stored::lock(&path, WAIT).unwrap();
    assert_eq!(stored.path(), fs::canonicalize(&path).unwrap());
    assert_eq!(folder.names(), [".stored.lock", "stored"]);
    let refused =
        disk::save(&path, Mode::Merge, &part_met(1), &part_met(2), Duration::from_millis(200)).unwrap_err();
    let SaveError::Locked { holder } = refused else { panic!("{refused}") };
    let user = fs::metadata("/proc/self").unwrap().uid();
    assert_eq!(holder, Some(Holder { process: process::id(), user: Some(user) }));
    let words = refused.to_string();
    assert!(
        words.starts_with(&format!("the file is being saved by process {} of user ", process::id())),
        "{words}"
    );
    stored.save(Mode::Strict, &part_met(1), &part_met(2)).unwrap();
    assert_eq!(stored.read().unwrap(), part_met(2));
    drop(stored);
    assert_eq!(folder.names(), ["stored"]);
    disk::save(&path, Mode::Strict, &part_met(2), &part_met(3), Duration::ZERO).unwrap();
}

#[test]
fn who_waits_gets_the_lock_when_it_is_let_go() {
    let folder = Folder::new();
    let path = folder.path("stored");
    let stored = Stored::lock(&path, WAIT).unwrap();
    thread::scope(|scope| {
        let waiting = scope.spawn(|| disk::save(&path, Mode::Strict, b"", &part_met(1), PATIENT));
        thread::sleep(Duration::from_millis(300));
        assert!(!waiting.is_finished() && !stored.is_there());
        drop(stored);
        waiting.join().unwrap().unwrap();
    });
    assert_eq!(fs::read(&path).unwrap(), part_met(1));
}

#[test]
fn what_the_system_does_not_allow_is_reported_by_its_step() {
    let folder = Folder::new();
    let path = folder.path("stored");
    let step = |refused: Result<_, SaveError>| match refused.map(|_: Saved| ()) {
        Err(SaveError::System { step, .. }) => step,
        other => panic!("{other:?}"),
    };
    let save = |path: &Path| disk::save(path, Mode::Merge, b"", &part_met(1), Duration::ZERO);
    assert_eq!(step(save(&folder.path("no folder/stored"))), Step::Find);
    fs::create_dir(folder.path(".stored.saving")).unwrap();
    assert_eq!(step(save(&path)), Step::CleanUp);
    fs::rename(folder.path(".stored.saving"), folder.path(".stored.lock")).unwrap();
    assert_eq!(step(save(&path)), Step::Lock);
    fs::remove_dir(folder.path(".stored.lock")).unwrap();
    let unread = Stored::lock(&path, WAIT).unwrap().read();
    assert!(matches!(unread, Err(SaveError::System { step: Step::Read, .. })), "{unread:?}");
    assert!(matches!(save(&folder.0), Err(SaveError::NotAFile)));
    fs::write(&path, b"").unwrap();
    fs::set_permissions(&path, Permissions::from_mode(0o444)).unwrap();
    assert!(matches!(save(&path), Err(SaveError::ReadOnly)));
    assert_eq!((fs::read(&path).unwrap(), folder.names()), (vec![], vec!["stored".to_string()]));
}

/// Threads of one program take turns as programs do.
#[test]
fn marks_of_many_threads_all_count() {
    const THREADS: u64 = 8;
    const MARKS: u64 = 12;
    let folder = Folder::new();
    let path = folder.path("stored");
    let size = 2 * THREADS as u32;
    fs::write(&path, packets::part_met(1, 0, size, &[(0, size)])).unwrap();
    let mark = |n: u64| -> Result<(), Box<dyn std::error::Error>> {
        let stored = Stored::lock(&path, PATIENT)?;
        let opened = stored.read()?;
        let mut record = GapRecord::read(&opened)?;
        record.mark(2 * n, 2 * n + 1)?;
        stored.save(Mode::Strict, &opened, &put_gaps(&opened, &record)?)?;
        Ok(())
    };
    thread::scope(|scope| {
        for n in 0..THREADS {
            scope.spawn(move || (0..MARKS).for_each(|_| mark(n).unwrap()));
        }
    });
    assert_eq!(GapRecord::read(&fs::read(&path).unwrap()).unwrap().missing(), THREADS);
    assert_eq!(folder.names(), ["stored"]);
}

/// Each thread is a window that opened the file once, and goes on from what it has stored.
#[test]
fn saves_of_many_threads_are_all_there() {
    const THREADS: u64 = 8;
    const SAVES: u64 = 12;
    let folder = Folder::new();
    let path = folder.path("stored");
    let size = (THREADS * SAVES) as u32;
    let opened = packets::part_met(1, 0, size, &[(0, size)]);
    fs::write(&path, &opened).unwrap();
    let window = |thread: u64| {
        let mut copy = opened.clone();
        for byte in thread * SAVES..(thread + 1) * SAVES {
            let mut record = GapRecord::read(&copy).unwrap();
            record.mark(byte, byte + 1).unwrap();
            let new = put_gaps(&copy, &record).unwrap();
            copy = disk::save(&path, Mode::Merge, &copy, &new, PATIENT).unwrap().bytes;
        }
    };
    thread::scope(|scope| {
        for thread in 0..THREADS {
            scope.spawn(move || window(thread));
        }
    });
    assert_eq!(GapRecord::read(&fs::read(&path).unwrap()).unwrap().missing(), 0);
    assert_eq!(folder.names(), ["stored"]);
}

/// Holds the lock of the file that HELD names, until its standard input ends. Run by the test below as another user.
#[test]
#[ignore = "part of a_lock_is_open_to_every_user, which runs it as another user"]
fn hold() {
    let path = env::var_os("HELD").expect("HELD names a file");
    let stored = Stored::lock(&path, WAIT).unwrap();
    println!("\nheld");
    std::io::stdin().read_to_end(&mut vec![]).unwrap();
    drop(stored);
}

/// Runs a program as another user, who shares nothing by default.
fn as_user(user: u32) -> Command {
    let mut command = Command::new("setpriv");
    command.args([format!("--reuid={user}"), format!("--regid={user}"), "--clear-groups".into()]);
    command.args(["sh", "-c", "umask 0077; exec \"$@\"", "sh"]);
    command
}

/// The same test program as another user, and what it prints.
fn holder(user: u32, program: &Path, path: &Path) -> (Child, impl Sized) {
    let mut command = as_user(user);
    command.arg(program).args(["--ignored", "--exact", "hold", "--nocapture"]).env("HELD", path);
    let mut child = command.stdin(Stdio::piped()).stdout(Stdio::piped()).spawn().expect("setpriv runs");
    let mut lines = BufReader::new(child.stdout.take().unwrap()).lines();
    assert!(lines.any(|line| line.unwrap() == "held"), "only root can act as several users");
    (child, lines)
}

#[test]
#[cfg_attr(not(as_root), ignore = "only root can act as several users")]
fn a_lock_is_open_to_every_user() {
    let folder = Folder::new();
    let (path, program) = (folder.path("stored"), folder.copy_of_this_program());
    let (mut anna, _printed) = holder(5_001, &program, &path);
    let lock = fs::metadata(folder.path(".stored.lock")).unwrap();
    assert_eq!((lock.uid(), lock.mode() & 0o7777, lock.len()), (5_001, 0o666, 0));
    let refused = Stored::lock(&path, Duration::ZERO).unwrap_err();
    let SaveError::Locked { holder: Some(named) } = refused else { panic!("{refused}") };
    assert_eq!(named, Holder { process: anna.id(), user: Some(5_001) });
    assert_eq!(named.to_string(), format!("process {} of user 5001", anna.id()));

    // Killed, Anna leaves her lock, and Ben takes it.
    anna.kill().unwrap();
    anna.wait().unwrap();
    assert_eq!(folder.names(), [".stored.lock", "program"]);
    let started = Instant::now();
    let (mut ben, _printed) = holder(5_002, &program, &path);
    assert!(started.elapsed() < WAIT);
    let refused = Stored::lock(&path, Duration::ZERO).unwrap_err();
    let SaveError::Locked { holder: Some(named) } = refused else { panic!("{refused}") };
    assert_eq!(named, Holder { process: ben.id(), user: Some(5_002) });
    drop(ben.stdin.take());
    assert!(ben.wait().unwrap().success());
    assert_eq!(folder.names(), ["program"]);
}

/// Saves twice to the file that SAVED names, in a folder that may be written and not read. Run by the test below.
#[test]
#[ignore = "part of a_save_whose_folder_cannot_be_synced_says_so, which runs it as a user whom permissions bind"]
fn save_unsynced() {
    let path = PathBuf::from(env::var_os("SAVED").expect("SAVED names a file"));
    for (opened, new) in [(vec![], part_met(1)), (part_met(1), part_met(2))] {
        let unsynced = disk::save(&path, Mode::Strict, &opened, &new, WAIT).unwrap_err();
        let SaveError::Unsynced(error) = &unsynced else { panic!("{unsynced}") };
        assert_eq!(error.kind(), ErrorKind::PermissionDenied);
        let words = format!("the file is saved, but a power cut might undo it: its folder: {error}");
        assert_eq!((unsynced.to_string(), fs::read(&path).unwrap()), (words, new));
    }
}

/// A folder that may be written and not read takes the new file, but cannot be opened to be brought to the disk. Root could
/// open it, so another user saves where root runs the tests.
#[test]
fn a_save_whose_folder_cannot_be_synced_says_so() {
    let folder = Folder::new();
    let (unreadable, program) = (folder.path("unreadable"), folder.copy_of_this_program());
    let stored = unreadable.join("stored");
    fs::create_dir(&unreadable).unwrap();
    fs::set_permissions(&unreadable, Permissions::from_mode(0o333)).unwrap();
    let mut command = match fs::metadata("/proc/self").unwrap().uid() {
        0 => as_user(5_001),
        _ => Command::new("env"),
    };
    command.arg(&program).args(["--ignored", "--exact", "save_unsynced"]).env("SAVED", &stored);
    let run = command.output().expect("setpriv and env run");
    fs::set_permissions(&unreadable, Permissions::from_mode(0o777)).unwrap();
    let printed = String::from_utf8_lossy(&run.stdout);
    assert!(run.status.success() && printed.contains("1 passed"), "{printed}");
    assert_eq!((fs::read(&stored).unwrap(), names(&unreadable)), (part_met(2), vec!["stored".to_string()]));
}
