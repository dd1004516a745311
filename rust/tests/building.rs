//! The build script: builds at the same time, an archive that is up to date, and ED2K_ARCHIVE.
//!
//! It runs in a small repository of the test's own, where a script stands in for `rt`: it notes how and where it was called, and puts
//! the sources together as the archive.

use std::fs::{self, Permissions};
use std::os::unix::fs::PermissionsExt;
use std::path::{Path, PathBuf};
use std::process::{self, Child, Command, Output, Stdio};
use std::sync::atomic::{AtomicU32, Ordering};
use std::{env, iter};

const RT: &str = r#"#!/bin/sh
[ "$1" != version ] || { echo "kit ${KIT:-1}"; exit; }
mkdir "$ROOM/busy" || echo "not alone" >> "$ROOM/calls"
echo "$* in $(basename "$(pwd)")" >> "$ROOM/calls"
archive=out/libed2k_c.a
sleep 0.5
rmdir "$ROOM/busy"
[ ! -e "$ROOM/broken" ] || { echo "wire NOT PROVED"; exit 1; }
mkdir -p out && rm -f $archive && ar qc $archive ../*/src/lib.rt
"#;

const CRATES: &str = "\
# What the library is made of, and a program.
format
wire: format # bytes
ed2k: wire
ed2k_c staticlib: ed2k
reading: wire io
";

/// How the archive is made.
const MADE: [&str; 1] = ["lib in ed2k_c"];

/// A repository with the package in its folder rust/, and a folder where `rt` is.
struct Room {
    folder: PathBuf,
}

impl Room {
    fn new() -> Room {
        static NUMBER: AtomicU32 = AtomicU32::new(0);
        let number = NUMBER.fetch_add(1, Ordering::Relaxed);
        let folder = env::temp_dir().join(format!("ed2k building {} {number}", process::id()));
        let room = Room { folder };
        for name in ["format", "wire", "ed2k", "ed2k_c", "reading"] {
            room.write(&format!("crates/{name}/src/lib.rt"), &format!("{name} "));
        }
        room.write("crates/format/specs/Layout.antt", "what is true");
        room.write("crates.txt", CRATES);
        room.write(
            "rust/Cargo.toml",
            "[package]\nname = \"probe\"\nversion = \"1.0.0\"\nedition = \"2024\"\n[workspace]\n",
        );
        room.write("rust/build.rs", include_str!("../build.rs"));
        room.write("rust/src/lib.rs", "");
        room.write("bin/rt", RT);
        fs::set_permissions(room.path("bin/rt"), Permissions::from_mode(0o755)).unwrap();
        room
    }

    fn path(&self, name: &str) -> PathBuf {
        self.folder.join(name)
    }

    fn write(&self, name: &str, text: &str) {
        let path = self.path(name);
        fs::create_dir_all(path.parent().unwrap()).unwrap();
        fs::write(path, text).unwrap();
    }

    /// How `rt` was called since the last time.
    fn calls(&self) -> Vec<String> {
        let calls = fs::read_to_string(self.path("calls")).unwrap_or_default();
        let _ = fs::remove_file(self.path("calls"));
        calls.lines().map(String::from).collect()
    }

    fn archive(&self) -> Vec<u8> {
        fs::read(self.path("target/staticlib/libed2k.a")).unwrap()
    }

    /// A command in the package's folder, with `rt` at hand.
    fn command(&self, program: impl AsRef<std::ffi::OsStr>) -> Command {
        let old = env::var_os("PATH").expect("there is a PATH");
        let folders = iter::once(self.path("bin")).chain(env::split_paths(&old));
        let mut command = Command::new(program);
        command.current_dir(self.path("rust")).env("ROOM", &self.folder).env_remove("ED2K_ARCHIVE");
        command.env("PATH", env::join_paths(folders).unwrap()).stdout(Stdio::piped()).stderr(Stdio::piped());
        command
    }

    /// The build script by itself, as cargo would run it for a build that has this folder to itself.
    fn script(&self, build: &str) -> Command {
        let script = self.path("script");
        if !script.exists() {
            let mut made = Command::new("rustc");
            made.args(["--edition=2024", "-o"]).arg(&script).arg("build.rs").current_dir(self.path("rust"));
            assert!(made.status().expect("rustc runs").success());
        }
        fs::create_dir_all(self.path(build)).unwrap();
        let mut command = self.command(script);
        command.env("CARGO_MANIFEST_DIR", self.path("rust")).env("OUT_DIR", self.path(build));
        command
    }

    fn build(&self) -> Output {
        self.script("out").output().unwrap()
    }

    /// Whether a build had the archive made, anew.
    fn makes(&self) -> bool {
        let output = self.build();
        assert!(output.status.success(), "{output:?}");
        assert_eq!(fs::read(self.path("out/libed2k_proved.a")).unwrap(), self.archive());
        let calls = self.calls();
        assert!(calls.is_empty() || calls == MADE, "{calls:?}");
        !calls.is_empty()
    }
}

impl Drop for Room {
    fn drop(&mut self) {
        let _ = fs::remove_dir_all(&self.folder);
    }
}

fn text(bytes: &[u8]) -> String {
    String::from_utf8_lossy(bytes).into_owned()
}

#[test]
fn builds_at_the_same_time_make_the_archive_once() {
    let room = Room::new();
    drop(room.script("out 0"));
    let builds: Vec<(String, Child)> = (0..6)
        .map(|n| format!("out {n}"))
        .map(|build| (build.clone(), room.script(&build).spawn().unwrap()))
        .collect();
    for (build, child) in builds {
        let output = child.wait_with_output().unwrap();
        assert!(output.status.success(), "{output:?}");
        assert_eq!(fs::read(room.path(&build).join("libed2k_proved.a")).unwrap(), room.archive());
    }
    assert_eq!(room.calls(), MADE);
}

/// A terminal and an editor, each with a profile of its own.
#[test]
fn cargo_builds_of_two_profiles_at_the_same_time_make_the_archive_once() {
    let room = Room::new();
    let cargo = |words: &[&str]| {
        let mut command = room.command(env!("CARGO"));
        command.args(["--offline"]).args(words);
        command.spawn().unwrap()
    };
    let builds = [
        cargo(&["build", "--target-dir", "terminal"]),
        cargo(&["build", "--release", "--target-dir", "terminal 2"]),
        cargo(&["check", "--target-dir", "editor"]),
    ];
    for child in builds {
        let output = child.wait_with_output().unwrap();
        assert!(output.status.success(), "{}", text(&output.stderr));
    }
    assert_eq!(room.calls(), MADE);
    assert!(cargo(&["build", "--release", "--target-dir", "terminal"]).wait().unwrap().success());
    assert_eq!(room.calls(), [""; 0]);
}

#[test]
fn an_archive_that_is_up_to_date_is_not_made_again() {
    let room = Room::new();
    assert!(room.makes());
    assert!(!room.makes());
    room.write("crates/wire/src/lib.rt", "wire ");
    room.write("crates/reading/src/lib.rt", "a program of it ");
    room.write("crates/wire/must-fail/one.edit", "an edit to be refused");
    assert!(!room.makes());
    room.write("crates/format/specs/Layout.antt", "what else is true");
    assert!(room.makes() && !room.makes());
    fs::rename(room.path("crates/format/specs/Layout.antt"), room.path("crates/format/specs/Rules.antt"))
        .unwrap();
    assert!(room.makes() && !room.makes());
    room.write("crates.txt", &CRATES.replace("wire: format", "wire: "));
    assert!(room.makes() && !room.makes());
    room.write("crates/format/src/lib.rt", "no part of it ");
    assert!(!room.makes());
    room.write("crates.txt", CRATES);
    assert!(room.makes() && !room.makes());
}

#[test]
fn an_archive_that_is_another_is_made_again() {
    let room = Room::new();
    assert!(room.makes());
    room.write("target/staticlib/libed2k.a", "of another day");
    assert!(room.makes() && !room.makes());
    fs::remove_file(room.path("target/staticlib/libed2k.a")).unwrap();
    assert!(room.makes() && !room.makes());
    fs::remove_dir_all(room.path("target")).unwrap();
    assert!(room.makes() && !room.makes());
    assert!(room.script("out").env("KIT", "2").output().unwrap().status.success());
    assert_eq!(room.calls(), MADE);
    assert!(room.script("out").env("KIT", "2").output().unwrap().status.success());
    assert_eq!(room.calls(), [""; 0]);
}

#[test]
fn what_is_not_proved_is_not_linked() {
    let room = Room::new();
    room.write("broken", "");
    for _ in 0..2 {
        let output = room.build();
        assert!(!output.status.success());
        assert!(text(&output.stdout).contains("cargo::error=`rt lib` failed in "), "{output:?}");
        assert!(text(&output.stderr).contains("wire NOT PROVED"), "{output:?}");
        assert_eq!(room.calls(), MADE);
    }
    fs::remove_file(room.path("broken")).unwrap();
    assert!(room.makes());
    room.write("crates/wire/src/lib.rt", "wire, wrong ");
    room.write("broken", "");
    assert!(!room.build().status.success());
    assert_eq!(room.calls(), MADE);
    fs::remove_file(room.path("broken")).unwrap();
    assert!(room.makes());
}

#[test]
fn without_rt_it_is_said_what_is_needed() {
    let room = Room::new();
    let output = room.script("out").env("PATH", "").output().unwrap();
    assert!(!output.status.success());
    let printed = text(&output.stdout);
    assert!(
        printed.contains("cargo::error=`rt` cannot be run") && printed.contains("ED2K_ARCHIVE names one"),
        "{printed}"
    );
}

/// Links the archive that is named so by a person who stands in this folder of the room.
fn linked(room: &Room, stands: &str, archive: &Path) -> Result<String, String> {
    let mut script = room.script("out");
    script.env("PWD", room.path(stands)).env("ED2K_ARCHIVE", archive);
    let output = script.output().unwrap();
    assert_eq!(room.calls(), [""; 0]);
    if output.status.success() {
        Ok(fs::read_to_string(room.path("out/libed2k_proved.a")).unwrap())
    } else {
        Err(text(&output.stdout))
    }
}

#[test]
fn a_relative_archive_begins_where_the_person_stands() {
    let room = Room::new();
    room.write("here/given.a", "here");
    room.write("rust/given.a", "the package's");
    room.write("rust/only.a", "only there");
    let given = Path::new("given.a");
    assert_eq!(linked(&room, "here", given).unwrap(), "here");
    assert_eq!(linked(&room, "", Path::new("here/given.a")).unwrap(), "here");
    assert_eq!(linked(&room, "bin", Path::new("../here/given.a")).unwrap(), "here");
    assert_eq!(linked(&room, "rust", given).unwrap(), "the package's");
    assert_eq!(linked(&room, "here", Path::new("only.a")).unwrap(), "only there");
    assert_eq!(linked(&room, "here", &room.path("rust/given.a")).unwrap(), "the package's");
    let printed = linked(&room, "here", Path::new("none.a")).unwrap_err();
    let [stands, package] =
        ["here", "rust"].map(|folder| room.path(folder).join("none.a").display().to_string());
    let first = format!(
        "cargo::error=ED2K_ARCHIVE names an archive that is not there: {stands}, and not {package}\n"
    );
    assert!(printed.contains(&first), "{printed}");
    let absolute = room.path("none.a");
    let printed = linked(&room, "here", &absolute).unwrap_err();
    assert!(printed.contains(&format!("that is not there: {}\n", absolute.display())), "{printed}");
}

/// That the folder is the person's is up to the shell and to cargo; this asks them.
#[test]
fn cargo_hands_on_where_the_person_stands() {
    let room = Room::new();
    room.write("here/given.a", "!<arch>\n");
    let build = |stands: &str, archive: &str| {
        let mut shell = room.command("sh");
        let words = "cd \"$1\" && ED2K_ARCHIVE=$2 exec \"$3\" --offline build --manifest-path \"$4\"";
        shell.args(["-c", words, "sh"]).arg(room.path(stands)).args([archive, env!("CARGO")]);
        shell.arg(room.path("rust/Cargo.toml")).output().unwrap()
    };
    for (stands, archive) in [("here", "given.a"), ("", "here/given.a"), ("bin", "../here/given.a")] {
        let output = build(stands, archive);
        assert!(output.status.success(), "{}", text(&output.stderr));
    }
    let printed = text(&build("", "given.a").stderr);
    assert!(printed.contains("ED2K_ARCHIVE names an archive that is not there: "), "{printed}");
    assert_eq!(room.calls(), [""; 0]);
}
