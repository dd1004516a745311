//! A folder to work in, and the command run there.

use std::env;
use std::ffi::OsStr;
use std::fs::{self, File};
use std::os::unix::fs::{MetadataExt, PermissionsExt};
use std::path::{Path, PathBuf};
use std::process::{self, Child, Command, Stdio};
use std::sync::atomic::{AtomicU32, Ordering};

pub const COMMAND: &str = env!("CARGO_BIN_EXE_ed2k");

/// For how many seconds a save waits for others where many meet on a machine that may be busy.
pub const PATIENT: &str = "300";

/// What a run of the command ended with.
pub struct Run {
    pub status: i32,
    pub stdout: String,
    /// Lines that were wrapped are whole here.
    pub stderr: String,
}

impl Run {
    /// Asserts the exit status, with all that was printed if it is another.
    pub fn expect(self, status: i32) -> Run {
        assert_eq!(self.status, status, "stdout:\n{}\nstderr:\n{}", self.stdout, self.stderr);
        assert!(!self.stderr.contains("panicked"), "{}", self.stderr);
        self
    }
}

/// A folder of its own, with a space in its name, that is removed in the end.
pub struct Studio {
    room: PathBuf,
    pub folder: PathBuf,
}

/// Somebody at a window: a user, and the groups that he is in, his own first.
#[derive(Clone, Copy)]
pub struct Person {
    pub user: u32,
    pub groups: &'static [u32],
}

/// Whom a test that permissions bind acts as.
pub const NOBODY: Person = Person { user: 65_534, groups: &[65_534] };

impl Studio {
    pub fn new() -> Studio {
        Studio::within(&env::temp_dir())
    }

    /// A folder that is in memory, where bringing bytes to the disk takes no time.
    pub fn in_memory() -> Studio {
        Studio::within(Path::new("/dev/shm"))
    }

    fn within(place: &Path) -> Studio {
        static NUMBER: AtomicU32 = AtomicU32::new(0);
        let number = NUMBER.fetch_add(1, Ordering::Relaxed);
        let room = place.join(format!("ed2k test {} {number}", process::id()));
        let folder = room.join("studio");
        fs::create_dir_all(&folder).expect("a folder for the test");
        for path in [&room, &folder] {
            fs::set_permissions(path, fs::Permissions::from_mode(0o755))
                .expect("a folder that others can reach");
        }
        Studio { room, folder }
    }

    pub fn path(&self, name: &str) -> PathBuf {
        self.folder.join(name)
    }

    /// Writes a file and returns its path.
    pub fn file(&self, name: &str, bytes: &[u8]) -> PathBuf {
        let path = self.path(name);
        fs::write(&path, bytes).expect("a file for the test");
        path
    }

    pub fn bytes(&self, name: &str) -> Vec<u8> {
        fs::read(self.path(name)).unwrap_or_else(|error| panic!("{name}: {error}"))
    }

    /// The command, to be run in the folder.
    pub fn command(&self, words: &[&OsStr]) -> Command {
        let mut command = Command::new(COMMAND);
        command.args(words).current_dir(&self.folder).stdin(Stdio::null());
        command
    }

    pub fn run(&self, words: &[&str]) -> Run {
        let words: Vec<&OsStr> = words.iter().map(OsStr::new).collect();
        finish(self.command(&words))
    }

    pub fn spawn(&self, words: &[&str]) -> Child {
        let words: Vec<&OsStr> = words.iter().map(OsStr::new).collect();
        let mut command = self.command(&words);
        command.stdout(Stdio::piped()).stderr(Stdio::piped());
        command.spawn().expect("the command starts")
    }

    /// The names of all that is in the folder, in order.
    pub fn names(&self) -> Vec<String> {
        let entries = fs::read_dir(&self.folder).expect("the folder can be read");
        let name = |entry: std::io::Result<fs::DirEntry>| entry.unwrap().file_name().into_string().unwrap();
        let mut names: Vec<String> = entries.map(name).collect();
        names.sort();
        names
    }

    /// All that is in the folder, with its bytes.
    pub fn contents(&self) -> Vec<(String, Vec<u8>)> {
        self.names().into_iter().map(|name| (name.clone(), self.bytes(&name))).collect()
    }

    /// Asserts that the command fails with this status, says exactly this, and leaves the folder as it was.
    pub fn assert_fails(&self, words: &[&str], status: i32, expected: &str) {
        let words: Vec<&OsStr> = words.iter().map(OsStr::new).collect();
        self.assert_command_fails(self.command(&words), status, expected);
    }

    pub fn assert_command_fails(&self, mut command: Command, status: i32, expected: &str) {
        let before = self.contents();
        let output = command.output().expect("the command runs");
        let printed = [output.stdout, output.stderr].map(|bytes| String::from_utf8(bytes).expect("UTF-8"));
        assert_eq!(printed, ["", expected]);
        assert_eq!(output.status.code(), Some(status));
        assert!(self.contents() == before, "the folder has changed");
    }

    /// A command that permissions bind: the tests may run as root, who would be bound by none, and then it runs as nobody.
    pub fn bound_command(&self, words: &[&str]) -> Command {
        if is_root() {
            return self.command_of(NOBODY, 0o022, words);
        }
        let words: Vec<&OsStr> = words.iter().map(OsStr::new).collect();
        self.command(&words)
    }

    /// The command as this person calls it, with this umask.
    pub fn command_of(&self, person: Person, umask: u32, words: &[&str]) -> Command {
        assert!(is_root(), "only root can act as several users: run this test as root");
        let groups: Vec<String> = person.groups.iter().map(u32::to_string).collect();
        let mut command = Command::new("setpriv");
        command.arg(format!("--reuid={}", person.user)).arg(format!("--regid={}", groups[0]));
        match groups[1..].join(",").as_str() {
            "" => command.arg("--clear-groups"),
            more => command.arg(format!("--groups={more}")),
        };
        command.args(["sh", "-c", &format!("umask {umask:04o}; exec \"$@\""), "sh"]);
        command.arg(self.copy_of_the_command()).args(words).current_dir(&self.folder).stdin(Stdio::null());
        command
    }

    /// Where everybody can reach it. Another process copies: a file that this one has open for writing could not be run, and
    /// a child started by another test meanwhile would hold it open.
    fn copy_of_the_command(&self) -> PathBuf {
        let copy = self.room.join("ed2k");
        if !copy.exists() {
            let copied = Command::new("cp").args([OsStr::new(COMMAND), copy.as_os_str()]).status();
            assert!(copied.expect("cp runs").success());
        }
        copy
    }
}

/// Whether the tests may act as anybody.
pub fn is_root() -> bool {
    fs::metadata("/proc/self").expect("a process has a user").uid() == 0
}

impl Drop for Studio {
    fn drop(&mut self) {
        let _ = fs::remove_dir_all(&self.room);
    }
}

/// Runs a command to its end.
pub fn finish(mut command: Command) -> Run {
    let output = command.output().expect("the command runs");
    ended(output)
}

/// Waits for a command that was started.
pub fn wait(child: Child) -> Run {
    ended(child.wait_with_output().expect("the command ends"))
}

fn ended(output: process::Output) -> Run {
    let text = |bytes: Vec<u8>| String::from_utf8(bytes).expect("the command prints UTF-8");
    Run {
        status: output.status.code().expect("the command was not killed"),
        stdout: text(output.stdout),
        stderr: text(output.stderr).replace("\n  ", " "),
    }
}

/// An output that takes nothing.
pub fn full_output() -> File {
    File::options().write(true).open("/dev/full").expect("/dev/full is there")
}

/// The samples of the repository.
pub fn samples() -> PathBuf {
    Path::new(env!("CARGO_MANIFEST_DIR")).join("../samples")
}

/// Letter, file and line of each sample, as their README lists them.
pub fn sample_lines() -> Vec<(String, PathBuf, String)> {
    let readme = fs::read_to_string(samples().join("README.md")).expect("samples/README.md");
    let cells = |line: &str| line.split('|').map(|cell| cell.trim().trim_matches('`').to_string()).collect();
    let rows = readme.lines().map(cells).filter(|row: &Vec<String>| row.len() == 6 && row[2].len() == 1);
    rows.map(|row| (row[2].clone(), samples().join(&row[1]), row[4].clone())).collect()
}
