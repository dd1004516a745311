//! What a refused merge says: which file, which tag, which hash, with the values.

use std::ffi::OsStr;
use std::fs;

use super::{MERGE, studio};
use crate::models::{Model, SIZE};
use crate::packets::{self, dword_tag, text_tag};
use crate::studio::{Studio, samples};

const KEPT: &str = "\
Nothing was written: 'out' is still not there, and your work is still in 'first'
  and 'second'.
";

const ADVICE: &str = "\
To keep the bytes of both, take the save that is right in this, and mark in it
  (ed2k mark) what the other has (ed2k gaps).
";

/// Asserts that the merge of these is a conflict in `what`, and how it is shown.
fn assert_conflict(models: [&Model; 3], what: &str, shown: &str) {
    let expected =
        format!("ed2k: the merge of 'first' and 'second' is refused 11: {what}\n{shown}{KEPT}{ADVICE}");
    studio(models).assert_fails(&MERGE, 1, &expected);
}

const IN_TAGS: &str = "both saves changed the\n  tags, in different ways";
const IN_HASHES: &str = "both saves changed the\n  hashes, in different ways";

fn with_tags(change: impl FnOnce(&mut Vec<Vec<u8>>)) -> Model {
    Model::with(|model| change(&mut model.tags))
}

#[test]
fn a_tag_that_was_changed_in_two_ways_is_shown_with_its_values() {
    let [opened, first, second] =
        [5, 6, 7].map(|priority| with_tags(|tags| tags[2] = dword_tag(&[0x13], priority)));
    let shown = "\
Changed in two ways:
  priority (13)
    opened  DWORD 5
    first   DWORD 6
    second  DWORD 7
";
    assert_conflict([&opened, &first, &second], IN_TAGS, shown);
}

#[test]
fn tags_that_one_save_changed_are_shown_below_those_in_two_ways() {
    let opened = with_tags(|tags| tags.push(text_tag(b"girth", b"23")));
    let first = with_tags(|tags| {
        tags[0] = text_tag(&[0x01], b"left.stl");
        tags.push(text_tag(&[0x0B], b"a new toe"));
    });
    let second = with_tags(|tags| {
        tags.push(dword_tag(b"girth", 24));
        tags.push(text_tag(&[0x0B], b"a new toe"));
    });
    let shown = "\
Changed in two ways:
  \"girth\"
    opened  String \"23\"
    first   not there
    second  DWORD 24
Changed by one save, or by both alike:
  name (01)
    opened  String \"left last.stl\"
    first   String \"left.stl\"
    second  String \"left last.stl\"
  description (0B)
    opened  not there
    first   String \"a new toe\"
    second  String \"a new toe\"
";
    assert_conflict([&opened, &first, &second], IN_TAGS, shown);
}

/// The tags are one list.
#[test]
fn changes_of_two_tags_are_a_conflict_and_both_are_shown() {
    let opened = Model::with(|_| ());
    let first = with_tags(|tags| tags[2] = dword_tag(&[0x13], 6));
    let second = with_tags(|tags| tags.push(dword_tag(&[0x14], 1)));
    let shown = "\
No tag was changed in two ways, but the tags other than gap tags count as one
  list, which both saves changed:
  priority (13)
    opened  DWORD 5
    first   DWORD 6
    second  DWORD 5
  status (14)
    opened  not there
    first   not there
    second  DWORD 1
";
    assert_conflict([&opened, &first, &second], IN_TAGS, shown);
}

#[test]
fn tags_of_one_name_are_numbered() {
    let names = |first: &[u8], second: &[u8]| {
        let tags = [text_tag(&[0x01], first), text_tag(&[0x01], second)];
        with_tags(|all| drop(all.splice(..1, tags)))
    };
    let (opened, first, second) = (names(b"a", b"b"), names(b"a", b"c"), names(b"a", b"d"));
    let shown = "\
Changed in two ways:
  name (01), number 2
    opened  String \"b\"
    first   String \"c\"
    second  String \"d\"
";
    assert_conflict([&opened, &first, &second], IN_TAGS, shown);
}

#[test]
fn where_only_the_order_differs_it_is_said() {
    let more = |order: [usize; 4]| {
        let tags = [
            text_tag(&[0x01], b"left last.stl"),
            dword_tag(&[0x02], SIZE),
            dword_tag(&[0x13], 5),
            dword_tag(&[0x14], 0),
        ];
        with_tags(|all| *all = order.map(|place| tags[place].clone()).to_vec())
    };
    let (opened, first, second) = (more([0, 1, 2, 3]), more([0, 2, 1, 3]), more([0, 1, 3, 2]));
    let shown = "\
The tags are the same in all three files; only their order differs:
  order of the tags
    opened  size (02), priority (13), status (14)
    first   priority (13), size (02), status (14)
    second  size (02), status (14), priority (13)
";
    assert_conflict([&opened, &first, &second], IN_TAGS, shown);
}

#[test]
fn an_order_and_a_tag_that_were_changed_are_both_shown() {
    let opened = Model::with(|_| ());
    let first = with_tags(|tags| tags.swap(0, 1));
    let second = with_tags(|tags| tags[2] = dword_tag(&[0x13], 6));
    let shown = "\
No tag was changed in two ways, but the tags other than gap tags count as one
  list, which both saves changed:
  priority (13)
    opened  DWORD 5
    first   DWORD 5
    second  DWORD 6
  order of the tags
    opened  name (01), size (02)
    first   size (02), name (01)
    second  name (01), size (02)
";
    assert_conflict([&opened, &first, &second], IN_TAGS, shown);
}

#[test]
fn new_tags_that_were_put_into_different_places_are_shown() {
    let opened = Model::with(|_| ());
    let with = |place: usize, names: [u8; 2]| {
        with_tags(|tags| drop(tags.splice(place..place, names.map(|name| dword_tag(&[name], 7)))))
    };
    let tags = "\
Changed by one save, or by both alike:
  status (14)
    opened  not there
    first   DWORD 7
    second  DWORD 7
  availability (15)
    opened  not there
    first   DWORD 7
    second  DWORD 7
";
    let shown = "\
Changed in two ways:
  order of the tags
    opened  name (01), size (02)
    first   status (14), availability (15), name (01), size (02)
    second  name (01), size (02), status (14), availability (15)
";
    let models = [&opened, &with(0, [0x14, 0x15]), &with(2, [0x14, 0x15])];
    assert_conflict(models, IN_TAGS, &format!("{shown}{tags}"));
    let shown = "\
Changed in two ways:
  order of the tags
    opened  not there
    first   status (14), availability (15)
    second  availability (15), status (14)
";
    let models = [&opened, &with(2, [0x14, 0x15]), &with(2, [0x15, 0x14])];
    assert_conflict(models, IN_TAGS, &format!("{shown}{tags}"));
}

/// aMule counts in it.
#[test]
fn two_saves_of_a_running_client_are_in_conflict_in_tag_23() {
    let studio = Studio::new();
    let opened = fs::read(samples().join("amule_001_later.part.met")).unwrap();
    let counted = |seconds: u32| {
        let tag = dword_tag(&[0x23], 278);
        let at = opened.windows(tag.len()).position(|bytes| bytes == tag).expect("the tag 23");
        [&opened[..at], &dword_tag(&[0x23], seconds), &opened[at + tag.len()..]].concat()
    };
    studio.file("opened", &opened);
    studio.file("first", &counted(300));
    studio.file("second", &counted(310));
    let shown = "\
Changed in two ways:
  Source exchange (23)
    opened  DWORD 278
    first   DWORD 300
    second  DWORD 310
";
    let expected =
        format!("ed2k: the merge of 'first' and 'second' is refused 11: {IN_TAGS}\n{shown}{KEPT}{ADVICE}");
    studio.assert_fails(&MERGE, 1, &expected);
}

#[test]
fn hash_lists_that_were_changed_in_two_ways_are_shown() {
    let with_parts = |parts: &[u8]| Model::with(|model| model.parts = parts.to_vec());
    let (opened, first, second) = (with_parts(&[1, 2]), with_parts(&[1, 3]), with_parts(&[1, 4, 5]));
    let shown = "\
Changed in two ways:
  Part hash list
    opened  2 hashes
            part 2 02020202020202020202020202020202
    first   2 hashes
            part 2 03030303030303030303030303030303
    second  3 hashes
            part 2 04040404040404040404040404040404
            part 3 05050505050505050505050505050505
";
    assert_conflict([&opened, &first, &second], IN_HASHES, shown);
}

#[test]
fn forms_that_were_changed_in_two_ways_are_shown() {
    let form = |opening: u8, parts: &[u8], blocks: &[u8]| {
        Model::with(|model| {
            (model.opening, model.parts, model.blocks) = (opening, parts.to_vec(), blocks.to_vec());
        })
    };
    let shown = "\
Changed in two ways:
  Part hash list (E0), B part hashes (E1)
    opened  1 hash
            part 1 01010101010101010101010101010101
    first   not there
    second  1 hash
            part 1 02020202020202020202020202020202
Changed by one save, or by both alike:
  opening byte
    opened  (E0)
    first   (E1)
    second  (E0)
";
    assert_conflict(
        [&form(0xE0, &[1], &[]), &form(0xE1, &[], &[]), &form(0xE0, &[2], &[])],
        IN_HASHES,
        shown,
    );
    let shown = "\
None of these was changed in two ways, but opening byte and hash lists count as
  one thing, which both saves changed:
  B part hashes
    opened  1 hash
            part 1 01010101010101010101010101010101
    first   1 hash
            part 1 02020202020202020202020202020202
    second  1 hash
            part 1 01010101010101010101010101010101
  S part hashes
    opened  1 hash
            block 1 0303030303030303
    first   1 hash
            block 1 0303030303030303
    second  1 hash
            block 1 0404040404040404
";
    assert_conflict(
        [&form(0xE1, &[1], &[3]), &form(0xE1, &[2], &[3]), &form(0xE1, &[1], &[4])],
        IN_HASHES,
        shown,
    );
}

#[test]
fn a_conflict_in_hashes_and_in_tags_shows_both() {
    let both = |number: u8| {
        Model::with(|model| {
            model.parts = vec![number];
            model.tags[2] = dword_tag(&[0x13], number.into());
        })
    };
    let shown = "\
Changed in two ways:
  Part hash list
    opened  1 hash
            part 1 01010101010101010101010101010101
    first   1 hash
            part 1 02020202020202020202020202020202
    second  1 hash
            part 1 03030303030303030303030303030303
Changed in two ways:
  priority (13)
    opened  DWORD 1
    first   DWORD 2
    second  DWORD 3
";
    let what = "both saves changed the\n  hashes and the tags, in different ways";
    assert_conflict([&both(1), &both(2), &both(3)], what, shown);
}

#[test]
fn long_values_stay_within_80_columns_and_lose_no_sign() {
    let named = |sign: u8| with_tags(|tags| tags.push(text_tag(&[b'n'; 200], &vec![sign; 500])));
    let studio = studio([&named(b'a'), &named(b'b'), &named(b'c')]);
    let output = studio.command(&MERGE.map(OsStr::new)).output().expect("the command runs");
    let printed = String::from_utf8(output.stderr).expect("UTF-8");
    assert!(printed.lines().all(|line| line.chars().count() <= 80), "{printed}");
    let joined: String = printed.lines().map(str::trim_start).collect();
    for (sign, count) in [("n", 200), ("a", 500), ("b", 500), ("c", 500)] {
        assert!(joined.contains(&format!("\"{}\"", sign.repeat(count))), "{printed}");
    }
}

fn assert_strangers(models: [&Model; 3], shown: &str) {
    let expected = format!(
        "ed2k: the merge of 'first' and 'second' is refused 12: the files are not of one\n  model\n{shown}{KEPT}"
    );
    studio(models).assert_fails(&MERGE, 1, &expected);
}

#[test]
fn strangers_are_said_to_differ_in_hash_or_size_and_in_which_files() {
    let model = |hash: u8, size: u32| {
        Model::with(|model| {
            model.hash = hash;
            model.tags[1] = dword_tag(&[0x02], size);
        })
    };
    let (one, other, larger) = (model(0xA0, 40), model(0xB0, 40), model(0xA0, 50_000));
    let [a, b] = ["A0".repeat(16), "B0".repeat(16)];
    let hashes = |who: &str, [opened, first, second]: [&str; 3]| {
        format!(
            "{who} file hash:\n  File hash\n    opened  {opened}\n    first   {first}\n    second  {second}\n"
        )
    };
    assert_strangers([&one, &one, &other], &hashes("The second save has another", [&a, &a, &b]));
    assert_strangers([&one, &other, &one], &hashes("The first save has another", [&a, &b, &a]));
    assert_strangers([&other, &one, &one], &hashes("The opened file has another", [&b, &a, &a]));
    let c = "C0".repeat(16);
    assert_strangers(
        [&one, &other, &model(0xC0, 40)],
        &hashes("Each of the three files has another", [&a, &b, &c]),
    );
    let shown = "\
The first save has another size:
  size (02)
    opened  40 bytes
    first   50,000 bytes (48.8 KiB)
    second  40 bytes
";
    assert_strangers([&one, &larger, &one], shown);
    let sizes = "\
The first save has another size:
  size (02)
    opened  40 bytes
    first   41 bytes
    second  40 bytes
";
    let shown = hashes("The second save has another", [&a, &a, &b]) + sizes;
    assert_strangers([&one, &model(0xA0, 41), &other], &shown);
}

/// 12 comes before 11.
#[test]
fn strangers_in_conflict_are_strangers() {
    let other = Model::with(|model| {
        model.hash = 0xB0;
        model.parts = vec![1];
    });
    let [opened, first] = [1, 2].map(|number| with_tags(|tags| tags.push(dword_tag(&[0x14], number))));
    let studio = studio([&opened, &first, &other]);
    let run = studio.run(&MERGE).expect(1);
    assert!(run.stderr.starts_with("ed2k: the merge of 'first' and 'second' is refused 12: "));
}

#[test]
fn a_file_that_is_refused_by_itself_is_named_with_its_number() {
    let sound = Model::with(|_| ());
    let damaged = Model::with_gaps(&[(20, 10)]);
    let studio = studio([&sound, &sound, &sound]);
    studio.file("damaged", &damaged.bytes());
    studio.file("short", &sound.bytes()[..9]);
    studio.file("other", &Model::with(|model| model.hash = 1).bytes());
    let (short, range) =
        ("the bytes end before the item being read ends", "a start, end or gap breaks its rule");
    for ([opened, first, second], refused) in [
        (["damaged", "short", "second"], format!("the opened file 'damaged' is refused 8: {range}")),
        (["opened", "short", "damaged"], format!("the first save 'short' is refused 1: {short}")),
        (["opened", "other", "damaged"], format!("the second save 'damaged' is refused 8: {range}")),
    ] {
        let before = studio.names();
        let run = studio.run(&["merge", "--opened", opened, first, second, "out"]).expect(1);
        let kept = format!(
            "Nothing was written: 'out' is still not there, and your work is still in '{first}' and '{second}'."
        );
        assert_eq!(run.stderr, format!("ed2k: {refused}\n{kept}\n"));
        assert_eq!((run.stdout.as_str(), studio.names()), ("", before));
    }
}

#[test]
fn too_many_gaps_are_refused() {
    let every = |step: u32, from: u32, to: u32| -> Vec<(u32, u32)> {
        (from..to).map(|gap| (gap * step, gap * step + 1)).collect()
    };
    let model = |gaps: Vec<(u32, u32)>| packets::part_met(7, 0, 1000, &gaps);
    let studio = Studio::new();
    studio.file("opened", &model(vec![]));
    studio.file("first", &model(every(4, 0, 64)));
    studio.file("second", &model(every(4, 64, 65)));
    let expected = format!(
        "ed2k: the merge of 'first' and 'second' is refused 6: a ceiling is exceeded\n\
         The merged file would have more than 64 gaps or more than 1,048,576 bytes.\n{KEPT}"
    );
    studio.assert_fails(&MERGE, 1, &expected);
    studio.file("second", &model(every(4, 63, 64)));
    studio.run(&MERGE).expect(0);
    assert_eq!(studio.bytes("out"), model(every(4, 0, 64)));
}
