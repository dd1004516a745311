//! The manual page and the completion for bash: they say what the command's help says.

use std::fs;
use std::path::PathBuf;
use std::process::Command;

use crate::studio::{Studio, samples};

const SUBCOMMANDS: [&str; 8] = ["read", "show", "why", "gaps", "mark", "search", "save", "merge"];

fn repository(path: &str) -> PathBuf {
    samples().join("..").join(path)
}

fn help(words: &[&str]) -> String {
    Studio::new().run(words).expect(0).stdout
}

/// The options that a subcommand's help has in its first lines, up to the first empty one.
fn options(subcommand: &str) -> Vec<String> {
    let help = help(&["help", subcommand]);
    let usage = help.split("\n\n").next().expect("the usage").to_string();
    let words = usage.split(|sign: char| sign.is_whitespace() || "[]".contains(sign));
    words.filter(|word| word.starts_with("--")).map(String::from).collect()
}

#[test]
fn the_manual_page_has_every_subcommand_option_kind_and_refusal() {
    let page = fs::read_to_string(repository("man/ed2k.1")).expect("the manual page");
    let plain = page.replace("\\-", "-");
    let version = help(&["--version"]);
    assert!(plain.contains(&format!("\"{}\"", version.trim_end())), "{version}");
    for subcommand in SUBCOMMANDS {
        assert!(plain.contains(&format!(".B ed2k {subcommand}")), "{subcommand}");
        assert!(plain.contains(&format!(".B {subcommand}\n")), "{subcommand}");
        let absent: Vec<String> =
            options(subcommand).into_iter().filter(|option| !plain.contains(option.as_str())).collect();
        assert!(absent.is_empty(), "{subcommand}: {absent:?}");
    }
    assert_eq!(options("search"), ["--name", "--type", "--min", "--max"]);
    for kind in ed2k::Kind::ALL {
        assert!(plain.contains(&format!(".BR {} \", \" {kind}\n", kind.letter())), "{kind}");
    }
    for refusal in ed2k::Refusal::ALL {
        let row = format!(".B {}\n{}\n", refusal.number(), refusal.meaning());
        assert!(plain.contains(&row), "{refusal}");
    }
}

/// The formatter finds no fault in the page, which fits 80 columns.
#[test]
fn the_manual_page_is_set_without_a_fault() {
    let mut groff = Command::new("groff");
    groff.args(["-man", "-ww", "-Tascii", "-P-c", "-rLL=78n"]).arg(repository("man/ed2k.1"));
    let set = groff.output().expect("groff, which sets manual pages, runs");
    assert_eq!(String::from_utf8_lossy(&set.stderr), "");
    let page = String::from_utf8(set.stdout).expect("ASCII");
    let signs = |line: &str| line.chars().count() - 2 * line.matches('\u{8}').count();
    assert!(page.lines().count() > 100 && page.lines().all(|line| signs(line) <= 80), "{page}");
}

/// What bash offers after these words; the last one is being typed.
fn offered(words: &[&str]) -> Vec<String> {
    let script = r#"
        source "$1"; shift
        COMP_WORDS=("$@"); COMP_CWORD=$(($# - 1))
        _ed2k
        printf '%s\n' "${COMPREPLY[@]}""#;
    let file = repository("rust/completion/ed2k.bash");
    let mut bash = Command::new("bash");
    let run = bash.args(["-euc", script, "bash"]).arg(file).args(words).output().expect("bash runs");
    assert!(run.status.success() && run.stderr.is_empty(), "{}", String::from_utf8_lossy(&run.stderr));
    let offered = String::from_utf8(run.stdout).expect("words");
    offered.lines().filter(|line| !line.is_empty()).map(String::from).collect()
}

#[test]
fn the_completion_offers_what_the_help_has() {
    let names: Vec<&str> = SUBCOMMANDS.iter().copied().chain(["help"]).collect();
    assert_eq!(offered(&["ed2k", ""]), [&names[..], &["--help", "--version"]].concat());
    assert_eq!(offered(&["ed2k", "help", ""]), names);
    assert_eq!(offered(&["ed2k", "se"]), ["search"]);
    let kinds: Vec<&str> = ed2k::Kind::ALL.iter().map(|kind| kind.word()).collect();
    assert_eq!(offered(&["ed2k", "read", ""]), kinds);
    assert_eq!(offered(&["ed2k", "show", "--json", "s"]), ["server-link", "server.met"]);
    let links: Vec<&str> =
        ed2k::Kind::ALL.iter().filter(|kind| kind.link().is_some()).map(|kind| kind.word()).collect();
    assert_eq!(offered(&["ed2k", "why", ""]), links);
    assert_eq!(offered(&["ed2k", "why", "--json", "s"]), ["server-link"]);
    assert!(offered(&["ed2k", "show", "s", ""]).is_empty());
    for subcommand in SUBCOMMANDS {
        let all = [vec!["--help".into()], options(subcommand)].concat();
        assert_eq!(offered(&["ed2k", subcommand, "-"]), all, "{subcommand}");
    }
    let types = ["Audio", "Video", "Image", "Pro", "Doc", "Col"];
    for words in [&["ed2k", "search", "--type", ""][..], &["ed2k", "search", "--type", "="]] {
        assert_eq!(offered(words), types);
    }
    assert_eq!(offered(&["ed2k", "search", "--type", "=", "D"]), ["Doc"]);
    for words in
        [&["ed2k", "search", "--name", ""][..], &["ed2k", "save", "--new", "="], &["ed2k", "gaps", "--", "-"]]
    {
        assert!(offered(words).is_empty(), "{words:?}");
    }
}
