//! Makes the archive of the proved library, target/staticlib/libed2k.a of the repository, and links it. `rt lib` makes it in
//! crates/ed2k_c/out, where other commands of the kit work too, so it is copied to a place of its own.
//!
//! Builds at the same time, as those of two profiles or of an editor and a terminal, wait for each other at target/archive.lock.
//! The archive is made only if it is not the one that this `rt` last made of these sources: target/staticlib/libed2k.stamp says
//! which one that was.
//!
//! With ED2K_ARCHIVE set, that archive is linked and nothing is made: for those who have no `rt`, and while developing. A relative
//! path begins in the folder that the person stands in, which the shell gives as PWD; if no such file is there, in this package's.

use std::collections::BTreeSet;
use std::collections::hash_map::DefaultHasher;
use std::env;
use std::ffi::OsString;
use std::fs::{self, File, OpenOptions};
use std::hash::Hasher;
use std::io;
use std::os::unix::ffi::OsStrExt;
use std::os::unix::fs::MetadataExt;
use std::path::{Path, PathBuf};
use std::process::{self, Command};

fn main() {
    tell_tests_who_builds();
    println!("cargo:rerun-if-env-changed=ED2K_ARCHIVE");
    match env::var_os("ED2K_ARCHIVE").filter(|given| !given.is_empty()) {
        Some(given) => link(&given_archive(given)),
        None => {
            let repository = Repository::here();
            let _lock = repository.lock();
            link(&repository.archive());
        }
    }
}

/// Tests that act as several users run where root builds them. For others they are listed as ignored.
fn tell_tests_who_builds() {
    println!("cargo:rustc-check-cfg=cfg(as_root)");
    if fs::metadata("/proc/self").is_ok_and(|process| process.uid() == 0) {
        println!("cargo:rustc-cfg=as_root");
    }
}

/// The archive that a person names.
fn given_archive(given: OsString) -> PathBuf {
    if Path::new(&given).is_relative() {
        println!("cargo:rerun-if-env-changed=PWD");
    }
    let folders = [env::var_os("PWD"), env::var_os("CARGO_MANIFEST_DIR")];
    let mut candidates: Vec<PathBuf> =
        folders.into_iter().flatten().map(|folder| Path::new(&folder).join(&given)).collect();
    candidates.dedup();
    let Some(archive) = candidates.iter().find(|path| path.is_file()) else {
        let candidates: Vec<String> = candidates.iter().map(|path| path.display().to_string()).collect();
        fail(&format!(
            "ED2K_ARCHIVE names an archive that is not there: {}\n\
             Name one that `rt lib` made, or unset ED2K_ARCHIVE to have it made.",
            candidates.join(", and not ")
        ));
    };
    println!("cargo:rerun-if-changed={}", archive.display());
    archive.clone()
}

/// Where the sources of the library are, and what is made of them.
struct Repository {
    root: PathBuf,
}

impl Repository {
    fn here() -> Repository {
        Repository { root: PathBuf::from(variable("CARGO_MANIFEST_DIR")).join("..") }
    }

    /// Waits until no other build makes the archive, or checks it, as long as the file is open.
    fn lock(&self) -> File {
        let folder = self.root.join("target");
        let path = folder.join("archive.lock");
        let locked = fs::create_dir_all(&folder)
            .and_then(|()| OpenOptions::new().write(true).create(true).truncate(false).open(&path))
            .and_then(|file| file.lock().map(|()| file));
        must(locked, &path)
    }

    /// Has `rt` prove the C interface, with all that it is made of, and write its archive, unless that is done.
    fn archive(&self) -> PathBuf {
        let archive = self.root.join("target/staticlib/libed2k.a");
        let stamp_path = archive.with_extension("stamp");
        let parts = self.parts();
        let sources = self.sources(&parts);
        if fs::read_to_string(&stamp_path).is_ok_and(|stamp| stamp == stamped(&sources, &archive)) {
            return archive;
        }
        self.rt(&["lib"], "crates/ed2k_c");
        let made = self.root.join("crates/ed2k_c/out/libed2k_c.a");
        let folder = archive.parent().expect("the archive is in a folder");
        must(fs::create_dir_all(folder).and_then(|()| fs::copy(&made, &archive)), &made);
        must(fs::write(&stamp_path, stamped(&sources, &archive)), &stamp_path);
        archive
    }

    /// The crates that the archive is made of, the C interface included, as the list of crates has them.
    fn parts(&self) -> BTreeSet<String> {
        let list = self.root.join("crates.txt");
        println!("cargo:rerun-if-changed={}", list.display());
        let lines = must(fs::read_to_string(&list), &list);
        let mut parts = BTreeSet::new();
        let mut found = vec!["ed2k_c".to_string()];
        while let Some(name) = found.pop() {
            let libraries = lines.lines().find_map(|line| libraries_of(&name, line));
            // What the list does not have is a library of the kit.
            if let Some(libraries) = libraries
                && parts.insert(name)
            {
                found.extend(libraries.split_whitespace().map(String::from));
            }
        }
        if parts.is_empty() {
            fail(&format!("{} does not list ed2k_c", list.display()));
        }
        parts
    }

    /// What the archive is made of, as one line: the kit, and a digest of all that it proves.
    fn sources(&self, parts: &BTreeSet<String>) -> String {
        let mut digest = DefaultHasher::new();
        for part in parts {
            for folder in ["src", "specs", "proofs"].map(|folder| Path::new("crates").join(part).join(folder))
            {
                if self.root.join(&folder).is_dir() {
                    println!("cargo:rerun-if-changed={}", self.root.join(&folder).display());
                    self.take_up(&folder, &mut digest);
                }
            }
        }
        format!("{} sources {:016x}", self.rt(&["version"], "").trim(), digest.finish())
    }

    /// Takes up the names and the bytes of all files of a folder, in the order of their names.
    fn take_up(&self, folder: &Path, digest: &mut DefaultHasher) {
        let path = self.root.join(folder);
        let entries = must(fs::read_dir(&path).and_then(Iterator::collect::<io::Result<Vec<_>>>), &path);
        let mut names: Vec<PathBuf> = entries.iter().map(|entry| folder.join(entry.file_name())).collect();
        names.sort();
        for name in names {
            let path = self.root.join(&name);
            if path.is_dir() {
                self.take_up(&name, digest);
                continue;
            }
            for run in [name.as_os_str().as_bytes(), &must(fs::read(&path), &path)] {
                digest.write_usize(run.len());
                digest.write(run);
            }
        }
    }

    /// Runs `rt` in a folder of the repository, and returns what it printed.
    fn rt(&self, words: &[&str], folder: &str) -> String {
        let folder = self.root.join(folder);
        let mut command = Command::new("rt");
        command.args(words).current_dir(&folder).stderr(process::Stdio::inherit());
        match command.output() {
            Ok(output) if output.status.success() => String::from_utf8_lossy(&output.stdout).into_owned(),
            Ok(output) => {
                eprint!("{}", String::from_utf8_lossy(&output.stdout));
                let words = words.join(" ");
                fail(&format!("`rt {words}` failed in {}: {}", folder.display(), output.status))
            }
            Err(error) => fail(&format!(
                "`rt` cannot be run ({error}): the Rattle kit makes the archive, or ED2K_ARCHIVE names one"
            )),
        }
    }
}

/// The libraries of a crate, if this line of the list names it. A word after its name, as `staticlib`, says what it is.
fn libraries_of<'a>(name: &str, line: &'a str) -> Option<&'a str> {
    let said = line.split('#').next()?;
    let (words, libraries) = said.split_once(':').unwrap_or((said, ""));
    (words.split_whitespace().next() == Some(name)).then_some(libraries)
}

/// What the stamp of an archive says: what it was made of, and which it is.
fn stamped(sources: &str, archive: &Path) -> String {
    let mut digest = DefaultHasher::new();
    if let Ok(bytes) = fs::read(archive) {
        digest.write(&bytes);
    }
    format!("{sources} archive {:016x}\n", digest.finish())
}

/// Links the archive from the build's own folder, so that it may have any name where it comes from.
fn link(archive: &Path) {
    let folder = PathBuf::from(variable("OUT_DIR"));
    must(fs::copy(archive, folder.join("libed2k_proved.a")), archive);
    println!("cargo:rustc-link-search=native={}", folder.display());
    println!("cargo:rustc-link-lib=static=ed2k_proved");
}

fn variable(name: &str) -> String {
    env::var(name).unwrap_or_else(|_| fail(&format!("{name} is not set: cargo runs this program")))
}

fn must<T>(result: io::Result<T>, path: &Path) -> T {
    result.unwrap_or_else(|error| fail(&format!("{}: {error}", path.display())))
}

fn fail(problem: &str) -> ! {
    for line in problem.lines() {
        println!("cargo::error={line}");
    }
    process::exit(1)
}
