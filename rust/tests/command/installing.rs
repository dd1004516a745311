//! `make install`: what it installs, and a C program made with it.

use std::fs;
use std::os::unix::fs::PermissionsExt;
use std::path::{Path, PathBuf};
use std::process::{Command, Output};

use crate::studio::{Studio, samples};

const INSTALLED: [(&str, u32); 6] = [
    ("bin/ed2k", 0o755),
    ("include/ed2k.h", 0o644),
    ("lib/libed2k.a", 0o644),
    ("lib/pkgconfig/ed2k.pc", 0o644),
    ("share/bash-completion/completions/ed2k", 0o644),
    ("share/man/man1/ed2k.1", 0o644),
];

/// A program that reads the status packet of document 01 with the installed library.
const PROGRAM: &str = r#"
#include <ed2k.h>
#include <stdio.h>

int main(void)
{
    static const uint8_t packet[] = {0xe3, 9, 0, 0, 0, 0x34, 3, 0, 0, 0, 5, 0, 0, 0};
    uint64_t fields[ED2K_FIELDS];
    uint8_t number = ed2k_read(ED2K_SERVER_LINK, packet, sizeof packet, fields, ED2K_FIELDS);
    if (number != ED2K_ACCEPTED)
        return 1;
    printf("%d users, %d files\n", (int)fields[ED2K_FIELD_TWO_DWORDS], (int)fields[ED2K_FIELD_TWO_DWORDS + 1]);
    number = ed2k_read(ED2K_SERVER_LINK, packet, sizeof packet - 1, fields, ED2K_FIELDS);
    printf("%s\n", ed2k_meaning(number));
    return 0;
}
"#;

fn done(command: &mut Command) -> Output {
    let output = command.output().unwrap_or_else(|error| panic!("{command:?}: {error}"));
    let printed = String::from_utf8_lossy(&output.stderr);
    assert!(output.status.success(), "{command:?}: {}\n{printed}", String::from_utf8_lossy(&output.stdout));
    output
}

/// `make` in the repository, also where these tests were started by it.
fn make(words: &[&str], variables: &[String]) -> String {
    let mut make = Command::new("make");
    make.arg("--no-print-directory").args(words).args(variables).current_dir(samples().join(".."));
    make.env_remove("MAKEFLAGS").env_remove("MAKELEVEL");
    String::from_utf8(done(&mut make).stdout).expect("what make says")
}

/// All files below a folder, by their paths there, in order.
fn files_below(folder: &Path) -> Vec<PathBuf> {
    let mut files = Vec::new();
    let mut folders = vec![folder.to_path_buf()];
    while let Some(next) = folders.pop() {
        for entry in fs::read_dir(next).expect("a folder") {
            let path = entry.expect("an entry").path();
            if path.is_dir() {
                folders.push(path);
            } else {
                files.push(path.strip_prefix(folder).expect("below").to_path_buf());
            }
        }
    }
    files.sort();
    files
}

#[test]
fn make_installs_below_prefix_and_destdir_and_takes_it_away_again() {
    let studio = Studio::new();
    let root = studio.path("a root");
    let variables = ["PREFIX=/opt/ed2k".into(), format!("DESTDIR={}", root.display())];
    make(&["install"], &variables);
    let prefix = root.join("opt/ed2k");
    assert_eq!(files_below(&prefix), INSTALLED.map(|(name, _)| PathBuf::from(name)));
    for (name, mode) in INSTALLED {
        let permissions = fs::metadata(prefix.join(name)).unwrap().permissions();
        assert_eq!(permissions.mode() & 0o777, mode, "{name}");
    }
    for (installed, source) in [
        ("include/ed2k.h", "include/ed2k.h"),
        ("share/man/man1/ed2k.1", "man/ed2k.1"),
        ("share/bash-completion/completions/ed2k", "rust/completion/ed2k.bash"),
    ] {
        let source = fs::read(samples().join("..").join(source)).unwrap();
        assert_eq!(fs::read(prefix.join(installed)).unwrap(), source, "{installed}");
    }
    let flags = fs::read_to_string(prefix.join("lib/pkgconfig/ed2k.pc")).unwrap();
    assert!(flags.starts_with("prefix=/opt/ed2k\n") && !flags.contains('@'), "{flags}");
    let version = done(Command::new(prefix.join("bin/ed2k")).arg("--version")).stdout;
    let version = String::from_utf8(version).unwrap();
    assert!(flags.contains(&format!("\nVersion: {}", version.trim_start_matches("ed2k "))), "{flags}");
    make(&["uninstall"], &variables);
    assert!(files_below(&root).is_empty());
}

/// The flags that pkg-config gives, or, where it is not there, those that the file says.
fn flags(prefix: &Path) -> Vec<String> {
    let mut command = Command::new("pkg-config");
    command.args(["--cflags", "--libs", "ed2k"]).env("PKG_CONFIG_PATH", prefix.join("lib/pkgconfig"));
    let line = match command.output() {
        Ok(output) => {
            assert!(output.status.success(), "{}", String::from_utf8_lossy(&output.stderr));
            String::from_utf8(output.stdout).unwrap()
        }
        Err(_) => written_flags(prefix),
    };
    line.split_whitespace().map(String::from).collect()
}

fn written_flags(prefix: &Path) -> String {
    let file = fs::read_to_string(prefix.join("lib/pkgconfig/ed2k.pc")).unwrap();
    let words = |key: &str| file.lines().find_map(|line| line.strip_prefix(key)).expect("a line").trim();
    let line = format!("{} {}", words("Cflags:"), words("Libs:"));
    let folder = |name: &str| prefix.join(name).display().to_string();
    line.replace("${includedir}", &folder("include")).replace("${libdir}", &folder("lib"))
}

#[test]
fn a_c_program_is_made_with_what_is_installed() {
    let studio = Studio::new();
    // A name without a space: compilers' flags are words.
    let prefix = std::env::temp_dir().join(format!("ed2k-installed-{}", std::process::id()));
    make(&["install"], &[format!("PREFIX={}", prefix.display())]);
    studio.file("program.c", PROGRAM.as_bytes());
    let mut words = flags(&prefix);
    words.sort();
    let mut written: Vec<String> = written_flags(&prefix).split_whitespace().map(String::from).collect();
    written.sort();
    let compiled = Command::new("cc")
        .args(["-std=c11", "-Wall", "-Wextra", "-Werror", "-o", "program", "program.c"])
        .args(flags(&prefix))
        .current_dir(&studio.folder)
        .output();
    fs::remove_dir_all(&prefix).unwrap();
    let compiled = compiled.expect("cc runs");
    assert!(compiled.status.success(), "{}", String::from_utf8_lossy(&compiled.stderr));
    assert_eq!(words, written);
    let printed = done(&mut Command::new(studio.path("program"))).stdout;
    let expected =
        "3 users, 5 files\nthe header's length is 0 or is not the number of bytes after the header\n";
    assert_eq!(String::from_utf8(printed).unwrap(), expected);
}

/// All that the gate may ask beside `rt ci`, which proves every crate and tries every edit.
#[test]
fn make_test_asks_what_the_gate_asks() {
    let planned = make(&["-n", "test"], &[]);
    let asked = [
        "cd crates/reading && rt run",
        "cd rust && cargo fmt --check",
        "cd bench && cargo fmt --check",
        "cd rust && cargo clippy --release --all-targets",
        "cd bench && cargo clippy --release --all-targets",
        "cd rust && cargo test --release",
        "bash examples/run",
        "cd bench && cargo run --release",
    ];
    let absent: Vec<&str> = asked.into_iter().filter(|words| !planned.contains(words)).collect();
    assert!(absent.is_empty() && planned.lines().count() == asked.len(), "{absent:?} in:\n{planned}");
}
