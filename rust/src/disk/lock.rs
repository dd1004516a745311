//! A lock by a file of its own, which every user who may write the folder can take.

use std::fmt;
use std::fs::{self, File, Metadata, OpenOptions, Permissions, TryLockError};
use std::io::{self, ErrorKind};
use std::os::unix::fs::{MetadataExt, OpenOptionsExt, PermissionsExt};
use std::path::{Path, PathBuf};
use std::thread;
use std::time::{Duration, Instant};

use super::system;
use super::users;

/// How Linux names these ways to open a file on x86-64, for which the archive is.
const O_NONBLOCK: i32 = 0o4000;
const O_NOFOLLOW: i32 = 0o400_000;
const O_TMPFILE: i32 = 0o20_200_000;

/// The longest pause between two tries for a lock that another holds.
const PAUSE: Duration = Duration::from_millis(20);

/// Who holds a lock.
#[derive(Clone, Copy, Debug, PartialEq, Eq)]
pub struct Holder {
    /// The number of the process.
    pub process: u32,
    /// The number of the user whose process it is, if the system says.
    pub user: Option<u32>,
}

impl fmt::Display for Holder {
    fn fmt(&self, f: &mut fmt::Formatter<'_>) -> fmt::Result {
        write!(f, "process {}", self.process)?;
        match self.user {
            Some(user) => write!(f, " of user {}", users::user(user)),
            None => Ok(()),
        }
    }
}

/// Why a lock is not taken.
pub(super) enum NotTaken {
    /// Another had it all the time. Who, if the system says.
    Held(Option<Holder>),
    /// The system does not allow it.
    System(io::Error),
}

impl From<io::Error> for NotTaken {
    fn from(error: io::Error) -> NotTaken {
        NotTaken::System(error)
    }
}

/// A lock: an empty file that is there as long as this value lives, or until the next lock is let go if its process is
/// killed.
#[derive(Debug)]
pub(super) struct Lock {
    path: PathBuf,
    _file: File,
}

impl Lock {
    /// Takes the lock, and waits at most so long for it.
    pub(super) fn take(path: PathBuf, wait: Duration) -> Result<Lock, NotTaken> {
        let end = Instant::now().checked_add(wait);
        let mut pause = Duration::from_millis(1);
        loop {
            let Some(file) = open(&path)? else {
                match make(&path)? {
                    Some(file) => return Ok(Lock { path, _file: file }),
                    None => continue,
                }
            };
            match lock(&file, &path)? {
                Locked::Ours => return Ok(Lock { path, _file: file }),
                Locked::InVain => continue,
                Locked::Others => (),
            }
            let left = end.map_or(PAUSE, |end| end.saturating_duration_since(Instant::now()));
            if left.is_zero() {
                return Err(NotTaken::Held(holder(&file.metadata()?)));
            }
            thread::sleep(pause.min(left));
            pause = PAUSE.min(pause * 2);
        }
    }
}

impl Drop for Lock {
    /// Removes the file, then lets go of the lock as the file is closed. If it cannot be removed it does no harm.
    fn drop(&mut self) {
        let _ = fs::remove_file(&self.path);
    }
}

/// The lock's file, if it is there. To lock it, reading is enough, except where the disk is another machine's. Nothing
/// else that has its name is followed or waited for.
fn open(path: &Path) -> io::Result<Option<File>> {
    let opened =
        |write| OpenOptions::new().read(true).write(write).custom_flags(O_NOFOLLOW | O_NONBLOCK).open(path);
    let file = match opened(true) {
        Err(error) if error.kind() == ErrorKind::PermissionDenied => opened(false),
        other => other,
    };
    match file {
        Ok(file) if !file.metadata()?.is_file() => Err(io::Error::other("it is not a file")),
        Ok(file) => Ok(Some(file)),
        Err(error) if error.kind() == ErrorKind::NotFound => Ok(None),
        Err(error) => Err(error),
    }
}

/// Makes the lock's file, and has it locked from its first moment on. Nothing if there is one by now.
///
/// It gets its name last, when every user may open it already: whenever its maker is killed, nobody is kept out. A disk
/// on which a file cannot be without a name has it made in two steps, and locked by its next opening.
fn make(path: &Path) -> io::Result<Option<File>> {
    let made = unnamed(path).and_then(|file| {
        file.try_lock()?;
        system::name_file(&file, path)?;
        Ok(file)
    });
    match made {
        Ok(file) => return Ok(Some(file)),
        Err(error) if error.kind() == ErrorKind::AlreadyExists => return Ok(None),
        Err(_) => (),
    }
    match OpenOptions::new().write(true).create_new(true).open(path) {
        Ok(file) => open_to_all(&file).map(|()| None),
        Err(error) if error.kind() == ErrorKind::AlreadyExists => Ok(None),
        Err(error) => Err(error),
    }
}

/// A file without a name in the folder of this one.
fn unnamed(path: &Path) -> io::Result<File> {
    let folder = path.parent().expect("the path of a lock has a folder");
    let file = OpenOptions::new().read(true).write(true).custom_flags(O_TMPFILE).mode(0o666).open(folder)?;
    open_to_all(&file)?;
    Ok(file)
}

/// Lets every user open the file, whatever the umask is.
fn open_to_all(file: &File) -> io::Result<()> {
    file.set_permissions(Permissions::from_mode(0o666))
}

/// Whose lock a file is.
#[derive(Debug, PartialEq)]
enum Locked {
    Ours,
    Others,
    InVain,
}

/// Locks the file, if no other has it. Its last holder may have removed it since we opened it, and another may have made and
/// locked a new one: only a lock on the file that is there now counts.
fn lock(file: &File, path: &Path) -> io::Result<Locked> {
    match file.try_lock() {
        Ok(()) if is_at(file, path)? => Ok(Locked::Ours),
        Ok(()) => Ok(Locked::InVain),
        Err(TryLockError::WouldBlock) => Ok(Locked::Others),
        Err(TryLockError::Error(error)) => Err(error),
    }
}

/// Whether this file is the one at the path.
fn is_at(file: &File, path: &Path) -> io::Result<bool> {
    let ours = file.metadata()?;
    match fs::symlink_metadata(path) {
        Ok(there) => Ok((there.dev(), there.ino()) == (ours.dev(), ours.ino())),
        Err(error) if error.kind() == ErrorKind::NotFound => Ok(false),
        Err(error) => Err(error),
    }
}

/// Who holds the lock on this file, as the system says it. Some disks have another number in the system's list than
/// their files say, so the file's own number alone may have to do.
fn holder(lock: &Metadata) -> Option<Holder> {
    let locks = fs::read_to_string("/proc/locks").ok()?;
    let (exact, alike) = (disk_and_number(lock), format!(":{}", lock.ino()));
    let with = |fits: &dyn Fn(&str) -> bool| locks.lines().find_map(|line| process_of(line, fits));
    let process = with(&|at| at == exact).or_else(|| with(&|at| at.ends_with(&alike)))?;
    Some(Holder { process, user: users::of_process(process) })
}

/// The process of a line of /proc/locks whose file fits: `1: FLOCK  ADVISORY  WRITE 834 fe:00:1310 0 EOF`. One that this
/// part of the machine does not see has the number 0.
fn process_of(line: &str, fits: &dyn Fn(&str) -> bool) -> Option<u32> {
    let words: Vec<&str> = line.split_whitespace().collect();
    match words[..] {
        [_, "FLOCK", _, _, process, at, ..] if fits(at) => {
            process.parse().ok().filter(|process| *process != 0)
        }
        _ => None,
    }
}

/// A file's disk and number, as /proc/locks writes them.
fn disk_and_number(file: &Metadata) -> String {
    let disk = file.dev();
    let major = (disk >> 8 & 0xFFF) | (disk >> 32 & !0xFFF);
    let minor = (disk & 0xFF) | (disk >> 12 & !0xFF);
    format!("{major:02x}:{minor:02x}:{}", file.ino())
}

#[cfg(test)]
mod tests {
    use std::env;
    use std::process;
    use std::sync::atomic::{AtomicBool, AtomicU32, Ordering};

    use super::*;

    #[test]
    fn one_at_a_time_has_the_lock() {
        const THREADS: u32 = 8;
        const TURNS: u32 = 300;
        let path = env::temp_dir().join(format!(".ed2k {}.lock", process::id()));
        let (taken, turns) = (AtomicBool::new(false), AtomicU32::new(0));
        let turn = || {
            let Ok(lock) = Lock::take(path.clone(), Duration::from_secs(300)) else {
                panic!("the lock is not taken")
            };
            assert!(!taken.swap(true, Ordering::SeqCst), "two have the lock");
            turns.fetch_add(1, Ordering::SeqCst);
            thread::yield_now();
            taken.store(false, Ordering::SeqCst);
            drop(lock);
        };
        thread::scope(|scope| {
            for _ in 0..THREADS {
                scope.spawn(|| (0..TURNS).for_each(|_| turn()));
            }
        });
        assert_eq!(turns.into_inner(), THREADS * TURNS);
        assert!(!path.exists());
    }

    #[test]
    fn only_a_lock_on_the_file_that_is_there_counts() {
        let path = env::temp_dir().join(format!(".ed2k there {}.lock", process::id()));
        let first = Lock::take(path.clone(), Duration::ZERO).ok().expect("nobody else has it");
        let [one, other] = [(); 2].map(|()| open(&path).unwrap().expect("it is there"));
        assert_eq!(lock(&one, &path).unwrap(), Locked::Others);
        drop(first);
        assert_eq!(lock(&one, &path).unwrap(), Locked::InVain);
        drop(one);
        let second = Lock::take(path.clone(), Duration::ZERO).ok().expect("nobody else has it");
        assert_eq!(lock(&other, &path).unwrap(), Locked::InVain);
        assert_eq!(lock(&open(&path).unwrap().expect("it is there"), &path).unwrap(), Locked::Others);
        drop(second);
        File::create(&path).unwrap();
        let left = open(&path).unwrap().expect("as a killed save leaves it");
        assert_eq!(lock(&left, &path).unwrap(), Locked::Ours);
        fs::remove_file(&path).unwrap();
    }

    #[test]
    fn the_holder_is_found_by_its_line() {
        let line = "12: FLOCK  ADVISORY  WRITE 834 fe:00:1310 0 EOF";
        assert_eq!(process_of(line, &|at| at == "fe:00:1310"), Some(834));
        assert_eq!(process_of(line, &|at| at == "fe:00:131"), None);
        assert_eq!(process_of(&line.replace("834", "0"), &|_| true), None);
        assert_eq!(process_of(&line.replace("FLOCK", "POSIX"), &|_| true), None);
        assert_eq!(process_of("", &|_| true), None);
    }
}
