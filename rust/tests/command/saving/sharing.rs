//! Saves of a file that several users share: nobody is locked out by one. Only root can act as several users.

use std::fs::{self, Permissions};
use std::os::unix::fs::{MetadataExt, PermissionsExt, chown};
use std::path::PathBuf;

use super::attributes::{self, ACCESS_LIST, LIST_OF_NEW_FILES, access_list};
use crate::packets;
use crate::studio::{Person, Run, Studio, finish};

const GROUP: u32 = 5_100;
const ANNA: Person = Person { user: 5_001, groups: &[5_001, GROUP] };
const BEN: Person = Person { user: 5_002, groups: &[5_002, GROUP] };
const CARL: Person = Person { user: 5_003, groups: &[5_003] };

const SAVE: [&str; 6] = ["save", "--opened", "old", "--new", "new", "models/stored"];
const SAVE_BACK: [&str; 6] = ["save", "--opened", "new", "--new", "old", "models/stored"];

/// A folder that the studio shares, with a file in it, and the copies of two windows beside.
struct Shared {
    studio: Studio,
    stored: PathBuf,
    old: Vec<u8>,
    new: Vec<u8>,
}

impl Shared {
    /// The folder and the file are this user's and this group's, with these permissions.
    fn new(user: u32, group: u32, folder_mode: u32, file_mode: u32) -> Shared {
        let studio = Studio::new();
        let [old, new] = [1, 2].map(|date| packets::part_met(date, 0, 100, &[(0, 50)]));
        fs::create_dir(studio.path("models")).unwrap();
        studio.file("old", &old);
        studio.file("new", &new);
        let stored = studio.file("models/stored", &old);
        for (path, mode) in [(studio.path("models"), folder_mode), (stored.clone(), file_mode)] {
            chown(&path, Some(user), Some(group)).expect("only root can act as several users");
            fs::set_permissions(&path, Permissions::from_mode(mode)).unwrap();
        }
        Shared { studio, stored, old, new }
    }

    fn run(&self, person: Person, words: &[&str]) -> Run {
        finish(self.studio.command_of(person, 0o077, words))
    }

    /// The stored file's user, group and permissions.
    fn rights(&self) -> (u32, u32, u32) {
        let stored = fs::metadata(&self.stored).unwrap();
        (stored.uid(), stored.gid(), stored.mode() & 0o7777)
    }

    /// The folder has the stored file alone, as it was.
    fn assert_untouched(&self, number: u64) {
        assert_eq!(fs::read(&self.stored).unwrap(), self.old);
        assert_eq!(fs::metadata(&self.stored).unwrap().ino(), number);
        self.assert_alone();
    }

    fn assert_alone(&self) {
        let names: Vec<_> = fs::read_dir(self.studio.path("models"))
            .unwrap()
            .map(|entry| entry.unwrap().file_name())
            .collect();
        assert_eq!(names, ["stored"]);
    }

    fn number(&self) -> u64 {
        fs::metadata(&self.stored).unwrap().ino()
    }
}

fn assert_refused(run: Run, phrases: &[&str]) {
    let run = run.expect(2);
    for phrase in phrases.iter().chain(&["Nothing was lost: 'models/stored' is as it was."]) {
        assert!(run.stderr.contains(phrase), "{phrase} in:\n{}", run.stderr);
    }
    assert!(run.stderr.lines().all(|line| line.chars().count() <= 80), "{}", run.stderr);
}

#[test]
#[cfg_attr(not(as_root), ignore = "only root can act as several users")]
fn a_colleagues_save_does_not_lock_the_owner_out() {
    for folder_mode in [0o775, 0o2775] {
        let shared = Shared::new(ANNA.user, GROUP, folder_mode, 0o664);
        let run = shared.run(BEN, &SAVE).expect(0);
        assert!(
            run.stdout.ends_with(
                "\n'models/stored' belongs to you now; its group and permissions are as they were\n"
            )
        );
        assert_eq!(fs::read(&shared.stored).unwrap(), shared.new);
        assert_eq!(shared.rights(), (BEN.user, GROUP, 0o664));
        shared.run(ANNA, &SAVE_BACK).expect(0);
        assert_eq!(shared.rights(), (ANNA.user, GROUP, 0o664));
        shared.run(BEN, &["mark", "models/stored", "10", "20"]).expect(0);
        assert_eq!(shared.rights(), (BEN.user, GROUP, 0o664));
        shared.run(ANNA, &["mark", "models/stored", "20", "30"]).expect(0);
        assert_eq!(shared.rights(), (ANNA.user, GROUP, 0o664));
        shared.assert_alone();
    }
}

/// Anna's file has been saved since: what is said of the merge comes first.
#[test]
#[cfg_attr(not(as_root), ignore = "only root can act as several users")]
fn a_colleagues_save_that_is_merged_does_not_lock_the_owner_out() {
    let shared = Shared::new(ANNA.user, GROUP, 0o775, 0o664);
    shared.run(ANNA, &["mark", "models/stored", "10", "20"]).expect(0);
    let run = shared.run(BEN, &SAVE).expect(0);
    assert!(run.stdout.starts_with("merged: 'models/stored' now holds your save"), "{}", run.stdout);
    let owner = "  # there   . missing   + some of both\n\
        'models/stored' belongs to you now; its group and permissions are as they were\n";
    assert!(run.stdout.ends_with(owner), "{}", run.stdout);
    let merged = packets::part_met(2, 0, 100, &[(0, 10), (20, 50)]);
    assert_eq!(fs::read(&shared.stored).unwrap(), merged);
    assert_eq!(shared.rights(), (BEN.user, GROUP, 0o664));
    shared.assert_alone();
}

#[test]
#[cfg_attr(not(as_root), ignore = "only root can act as several users")]
fn who_may_give_files_away_keeps_the_owner() {
    let shared = Shared::new(ANNA.user, GROUP, 0o775, 0o660);
    let run = shared.studio.run(&SAVE).expect(0);
    assert_eq!(run.stdout.lines().count(), 1);
    assert_eq!(fs::read(&shared.stored).unwrap(), shared.new);
    assert_eq!(shared.rights(), (ANNA.user, GROUP, 0o660));
}

#[test]
#[cfg_attr(not(as_root), ignore = "only root can act as several users")]
fn where_neither_owner_nor_group_can_be_kept_nothing_is_saved() {
    for file_mode in [0o666, 0o606] {
        let shared = Shared::new(ANNA.user, GROUP, 0o777, file_mode);
        let number = shared.number();
        let phrases =
            ["neither its owner (5001) nor its group (5100) can be kept", "Your work is still in 'new'."];
        assert_refused(shared.run(CARL, &SAVE), &phrases);
        assert_refused(shared.run(CARL, &["mark", "models/stored", "0", "10"]), &phrases[..1]);
        shared.assert_untouched(number);
        assert_eq!(shared.rights(), (ANNA.user, GROUP, file_mode));
    }
}

/// Carl's file has a group that he is not in: members of it would lose what the new file's group has instead.
#[test]
#[cfg_attr(not(as_root), ignore = "only root can act as several users")]
fn a_group_that_cannot_be_kept_matters_where_it_has_rights_of_its_own() {
    for file_mode in [0o664, 0o640, 0o604] {
        let shared = Shared::new(CARL.user, GROUP, 0o775, file_mode);
        let number = shared.number();
        assert_refused(shared.run(CARL, &SAVE), &["its group (5100) cannot be kept", "(chgrp)"]);
        shared.assert_untouched(number);
    }
    let shared = Shared::new(CARL.user, GROUP, 0o775, 0o644);
    shared.run(CARL, &SAVE).expect(0);
    assert_eq!(shared.rights(), (CARL.user, CARL.groups[0], 0o644));
}

#[test]
#[cfg_attr(not(as_root), ignore = "only root can act as several users")]
fn attributes_and_access_lists_are_kept() {
    let list = access_list(0o6, (CARL.user, 0o4), 0o6, 0o0);
    for person in [None, Some(ANNA), Some(BEN)] {
        let shared = Shared::new(ANNA.user, GROUP, 0o775, 0o660);
        attributes::set(&shared.stored, "user.colour", b"oxblood");
        attributes::set(&shared.stored, "user.last", &[0, 255, 10]);
        attributes::set(&shared.stored, ACCESS_LIST, &list);
        match person {
            Some(person) => shared.run(person, &SAVE).expect(0),
            None => shared.studio.run(&SAVE).expect(0),
        };
        assert_eq!(fs::read(&shared.stored).unwrap(), shared.new);
        assert_eq!(attributes::get(&shared.stored, "user.colour").as_deref(), Some(&b"oxblood"[..]));
        assert_eq!(attributes::get(&shared.stored, "user.last").as_deref(), Some(&[0, 255, 10][..]));
        assert_eq!(attributes::get(&shared.stored, ACCESS_LIST).as_ref(), Some(&list));
        assert_eq!(shared.rights().2, 0o660);
    }
}

#[test]
#[cfg_attr(not(as_root), ignore = "only root can act as several users")]
fn what_new_files_of_the_folder_are_given_is_not_given_to_a_saved_one() {
    let shared = Shared::new(ANNA.user, GROUP, 0o775, 0o660);
    let list = access_list(0o7, (CARL.user, 0o7), 0o7, 0o7);
    attributes::set(&shared.studio.path("models"), LIST_OF_NEW_FILES, &list);
    shared.run(BEN, &SAVE).expect(0);
    assert_eq!(attributes::get(&shared.stored, ACCESS_LIST), None);
    assert_eq!(shared.rights(), (BEN.user, GROUP, 0o660));
}

/// Ben may write the file by an entry of his own, and its group may only read it: as Ben's, Anna could only read it too.
#[test]
#[cfg_attr(not(as_root), ignore = "only root can act as several users")]
fn an_owner_whom_the_group_would_not_let_in_is_not_locked_out() {
    let shared = Shared::new(ANNA.user, GROUP, 0o775, 0o660);
    attributes::set(&shared.stored, ACCESS_LIST, &access_list(0o6, (BEN.user, 0o6), 0o4, 0o0));
    let number = shared.number();
    let phrase = "its owner (5001) cannot be kept, and its group (5100) may not write it";
    let run = shared.run(BEN, &SAVE).expect(2);
    assert!(run.stderr.contains(phrase), "{}", run.stderr);
    shared.assert_untouched(number);
    shared.run(ANNA, &SAVE).expect(0);
}

#[test]
#[cfg_attr(not(as_root), ignore = "only root can act as several users")]
fn a_file_that_a_user_may_not_write_is_left_alone() {
    let shared = Shared::new(ANNA.user, GROUP, 0o777, 0o664);
    let number = shared.number();
    assert_refused(shared.run(CARL, &SAVE), &["Permission denied"]);
    shared.assert_untouched(number);
    shared.run(CARL, &["save", "--opened", "none", "--new", "new", "models/first"]).expect(0);
    let first = shared.studio.path("models/first");
    let made = fs::metadata(&first).unwrap();
    assert_eq!((made.uid(), made.gid(), made.mode() & 0o777), (CARL.user, CARL.groups[0], 0o600));
    shared.studio.run(&["save", "--opened", "new", "--new", "old", "models/first"]).expect(0);
    assert_eq!(fs::metadata(&first).unwrap().uid(), CARL.user);
}
