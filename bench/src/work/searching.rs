//! The truth of queries on tag lists.

use std::hint::black_box;

use super::{Messages, Work, made, random};
use crate::files;
use crate::inputs;
use crate::plain::{LONE_TAGS, PACKET_CEILING, QUERY_DEPTH};

const MANY_LEAVES: usize = 9_300;
const KEYWORDS: usize = 128;

pub const LINES: &[fn() -> Work] =
    &[deep_query, search_of_one_leaf, search_of_many_leaves, hostile_leaves, hostile_keywords];

/// Leaves that do not hold, joined by `or`, so that each is asked of every tag.
fn deep_query() -> Work {
    let mut query = Vec::new();
    for turn in 0..QUERY_DEPTH {
        if turn + 1 < QUERY_DEPTH {
            query.extend([0, 1]);
        }
        false_leaf(turn, &mut query);
    }
    let tags = inputs::grown(&mut random(), LONE_TAGS, PACKET_CEILING);
    Work::new("query of depth 24 over a tag list", 1, move |calls, _, lent| {
        (calls.truth)(black_box(&query), black_box(&tags), &mut lent.truth)
    })
}

fn false_leaf(turn: u64, query: &mut Vec<u8>) {
    match turn % 3 {
        0 => query.extend(files::keyword("abd")),
        1 => {
            query.push(2);
            inputs::counted(b"abd", query);
            inputs::counted(&[1], query);
        }
        _ => {
            query.push(3);
            query.extend([0xFF, 0xFF, 0xFF, 0xFF, 1]);
            inputs::counted(&[7], query);
        }
    }
}

/// Asks the query of the tag list of each entry of known.met files.
fn search(name: &str, query: Vec<u8>) -> Work {
    let length = 1 << 20;
    let mut lists = Messages { bytes: Vec::new(), ranges: Vec::new() };
    for (file, ranges) in made(length, |random| files::models(random, length)) {
        let at = lists.bytes.len();
        lists.bytes.extend(file);
        lists.ranges.extend(ranges.iter().map(|range| at + range.start..at + range.end));
    }
    Work::new(name, lists.count(), move |calls, index, lent| {
        (calls.truth)(black_box(&query), lists.at(index), &mut lent.truth)
    })
}

fn search_of_one_leaf() -> Work {
    search("search of 1 leaf, an entry of known.met", files::keyword("instep"))
}

fn search_of_many_leaves() -> Work {
    let mut query = Vec::new();
    files::pairs_query(&mut random(), 50, &mut query);
    search("search of 100 leaves, an entry", query)
}

/// As many leaves as a query has room for, none of which holds, over some entries.
fn hostile_leaves() -> Work {
    let mut query = Vec::new();
    alternatives(&files::keyword("#!"), MANY_LEAVES, &mut query);
    assert!(query.len() <= PACKET_CEILING, "the query is no longer than one may be");
    let (file, ranges) = files::models(&mut random(), 1 << 13);
    let name = format!("search of {MANY_LEAVES} leaves, an entry");
    Work::new(name, ranges.len(), move |calls, index, lent| {
        let tags = black_box(&file[ranges[index].clone()]);
        (calls.truth)(black_box(&query), tags, &mut lent.truth)
    })
}

/// Keywords of a byte many times and then another, each of which nearly occurs at every offset of a
/// long name.
fn hostile_keywords() -> Work {
    let mut text = "a".repeat(499);
    text.push('b');
    let mut query = Vec::new();
    alternatives(&files::keyword(&text), KEYWORDS, &mut query);
    let mut tags = vec![1, 0, 0, 0, 2, 1, 0, 1];
    inputs::counted(&[b'a'; 65_000], &mut tags);
    let name = format!("{KEYWORDS} keywords that nearly occur");
    Work::new(name, 1, move |calls, _, lent| {
        (calls.truth)(black_box(&query), black_box(&tags), &mut lent.truth)
    })
}

/// The leaf as many times, joined by `or`.
fn alternatives(leaf: &[u8], count: usize, query: &mut Vec<u8>) {
    if count == 1 {
        return query.extend(leaf);
    }
    query.extend([0, 1]);
    alternatives(leaf, count / 2, query);
    alternatives(leaf, count - count / 2, query);
}
