//! What README.md and docs/INTEROP.md show of the command is what the command prints.

use std::fs;
use std::os::unix::fs::symlink;
use std::path::Path;
use std::process::Command;

use crate::studio::{COMMAND, Studio, sample_lines, samples};

/// The lines that a text types after `$`, and what it shows below each.
pub fn shown(text: &str) -> Vec<(String, String)> {
    let mut shown: Vec<(String, String)> = Vec::new();
    let mut typed = false;
    for line in text.lines() {
        match (line.strip_prefix("    "), shown.last_mut()) {
            (Some(line), _) if line.starts_with("$ ") => {
                shown.push((line[2..].into(), String::new()));
                typed = true;
            }
            (Some(line), Some((_, below))) if typed => below.extend([line, "\n"]),
            (None, Some((_, below))) if typed && line.is_empty() => below.push('\n'),
            _ => typed = false,
        }
    }
    shown
}

fn document(path: &str) -> String {
    fs::read_to_string(samples().join("..").join(path)).unwrap_or_else(|error| panic!("{path}: {error}"))
}

/// The folder that the texts work in: it has the samples.
fn folder_with_samples() -> Studio {
    let studio = Studio::new();
    symlink(fs::canonicalize(samples()).unwrap(), studio.path("samples")).unwrap();
    studio
}

/// Types each line in the folder and compares what is printed.
pub fn assert_printed(studio: &Studio, shown: &[(String, String)]) {
    let folder = Path::new(COMMAND).parent().unwrap().display();
    for (typed, below) in shown {
        let line = format!("PATH=\"{folder}:$PATH\"; {{ {typed}; }} 2>&1");
        let run = Command::new("bash").args(["-c", &line]).current_dir(&studio.folder).output().unwrap();
        let printed = String::from_utf8(run.stdout).unwrap();
        // How many were found is for people at a terminal.
        let kept: Vec<&str> = printed.lines().filter(|line| !line.ends_with(" models found")).collect();
        assert_eq!(kept.join("\n"), below.trim_end(), "{typed}");
    }
}

#[test]
fn what_readme_shows_is_what_is_printed() {
    let readme = document("README.md");
    let section =
        readme.split("\n## ").find(|section| section.starts_with("The command\n")).expect("the section");
    let shown = shown(section);
    assert_printed(&folder_with_samples(), &shown);
    let subcommand = |typed: &str| typed.strip_prefix("ed2k ")?.split(' ').next().map(String::from);
    let seen: Vec<String> = shown.iter().filter_map(|(typed, _)| subcommand(typed)).collect();
    assert_eq!(seen, ["gaps", "show", "why", "search", "save", "mark", "mark", "save", "save", "save"]);
}

/// Every sample of the client stands in the text, by its name or in a line that types it.
#[test]
fn what_interop_shows_is_what_is_printed() {
    let text = document("docs/INTEROP.md");
    let shown = shown(&text);
    assert_printed(&folder_with_samples(), &shown);
    assert_eq!(shown.len(), 21);
    let typed: String = shown.iter().map(|(typed, _)| format!("{typed}\n")).collect();
    for (_, path, _) in sample_lines() {
        let name = path.file_name().unwrap().to_str().unwrap();
        let stem = name.split('.').next().unwrap().trim_start_matches("amule_");
        let ending = stem.split("E3_").last().unwrap();
        let named = typed.contains(name) || typed.contains(ending);
        assert!(named || name == "overlapping_gaps.part.met", "{name}");
    }
    assert!(text.lines().all(|line| line.chars().count() <= 100));
}
