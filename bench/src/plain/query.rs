//! Queries and their truth on a tag list.

use super::cursor::Cursor;
use super::{Answer, Fields, PACKET_CEILING, QUERY_DEPTH, Refusal, within};

const DEPTH: u32 = QUERY_DEPTH as u32;
const TEXT: u8 = 2;
const DWORD: u8 = 3;
const SPECIAL_NAME: &[u8] = &[1];

enum Node<'a> {
    /// By its number: and, or, and not.
    Operator(u8),
    Text(&'a [u8]),
    Field(&'a [u8], &'a [u8]),
    /// The number, whether it is the least, and the name.
    Limit(u32, bool, &'a [u8]),
}

#[inline]
fn node<'a>(cursor: &mut Cursor<'a>) -> Answer<Node<'a>> {
    match cursor.byte()? {
        0 => match cursor.byte()? {
            operator @ 0..=2 => Ok(Node::Operator(operator)),
            _ => Err(Refusal::Choice),
        },
        1 => Ok(Node::Text(cursor.string()?)),
        2 => Ok(Node::Field(cursor.string()?, cursor.name()?)),
        3 => Ok(Node::Limit(cursor.dword()?, bound(cursor)?, cursor.name()?)),
        _ => Err(Refusal::Choice),
    }
}

#[inline]
fn bound(cursor: &mut Cursor) -> Answer<bool> {
    match cursor.byte()? {
        1 => Ok(true),
        2 => Ok(false),
        _ => Err(Refusal::Choice),
    }
}

/// The depth of a query. A bit of `waiting` stands for an operator whose right side is to come: its
/// number is the operator's level.
pub fn query(cursor: &mut Cursor) -> Answer<u32> {
    let mut waiting: u32 = 0;
    let (mut level, mut depth) = (1, 1);
    loop {
        if let Node::Operator(_) = node(cursor)? {
            waiting |= 1 << level;
            level += 1;
            depth = depth.max(level);
            if level > DEPTH {
                return Err(Refusal::Limit);
            }
        } else {
            let Some(above) = waiting.checked_ilog2() else {
                return Ok(depth);
            };
            waiting ^= 1 << above;
            level = above + 1;
        }
    }
}

pub fn lone_query(bytes: &[u8], fields: &mut Fields) -> Answer<()> {
    within(bytes, PACKET_CEILING)?;
    let mut cursor = Cursor::new(bytes);
    fields[2] = query(&mut cursor)?.into();
    fields[1] = cursor.at() as u64;
    cursor.finish()
}

/// The tags of a list that was read before.
#[derive(Clone, Copy)]
struct Tags<'a> {
    bytes: &'a [u8],
    count: u32,
}

/// Whether the query holds on the tag list. The query is read and asked at once; its refusals come
/// before those of the list, and nothing is asked of a list that is refused.
pub fn truth(query: &[u8], tags: &[u8]) -> Answer<bool> {
    within(query, PACKET_CEILING)?;
    let list = lone_list(tags);
    let mut cursor = Cursor::new(query);
    let asked = list.is_ok();
    let holds = holds(&mut cursor, DEPTH, list.unwrap_or(Tags { bytes: &[], count: 0 }), asked)?;
    cursor.finish()?;
    list.map(|_| holds)
}

fn lone_list(bytes: &[u8]) -> Answer<Tags<'_>> {
    within(bytes, PACKET_CEILING)?;
    let mut cursor = Cursor::new(bytes);
    let list = cursor.tags()?;
    cursor.finish()?;
    Ok(Tags { bytes: &bytes[list.at..], count: list.count })
}

/// A side that cannot change the truth is read and not asked.
fn holds(cursor: &mut Cursor, room: u32, tags: Tags, asked: bool) -> Answer<bool> {
    if room == 0 {
        return Err(Refusal::Limit);
    }
    match node(cursor)? {
        Node::Operator(operator) => {
            let (is_or, is_not) = (operator == 1, operator == 2);
            let left = holds(cursor, room - 1, tags, asked)?;
            let right = holds(cursor, room - 1, tags, asked && left != is_or)?;
            Ok(if left == is_or { left } else { right != is_not })
        }
        Node::Text(text) => {
            Ok(asked && any(tags, TEXT, SPECIAL_NAME, |value| occurs(text, counted(value))))
        }
        Node::Field(text, name) => {
            Ok(asked && any(tags, TEXT, name, |value| counted(value) == text))
        }
        Node::Limit(limit, is_least, name) => Ok(asked
            && any(tags, DWORD, name, |value| {
                let number = value.first_chunk().copied().map_or(0, u32::from_le_bytes);
                if is_least { number >= limit } else { number <= limit }
            })),
    }
}

/// Whether the test holds of the value of some tag of the type and name. The type, the length of
/// the name and its first byte are compared at once.
#[inline]
fn any(tags: Tags, kind: u8, name: &[u8], test: impl Fn(&[u8]) -> bool) -> bool {
    let Some((&first, others)) = name.split_first() else {
        return false;
    };
    let [low, high] = (name.len() as u16).to_le_bytes();
    let head = [kind, low, high, first];
    let mut rest = tags.bytes;
    for _ in 0..tags.count {
        let Some((front, after)) = rest.split_first_chunk::<4>() else {
            return false;
        };
        if *front == head
            && let Some(value) = after.strip_prefix(others)
            && test(value)
        {
            return true;
        }
        let Some(next) = next_tag(rest) else {
            return false;
        };
        rest = next;
    }
    false
}

/// What comes after a tag that was read before. It jumps by type and name: a list is scanned once
/// for each leaf, so that the jumps are guessed right.
#[inline]
fn next_tag(tag: &[u8]) -> Option<&[u8]> {
    let (&[kind, low, high], named) = tag.split_first_chunk()?;
    let value = match [low, high] {
        [1, 0] => named.get(1..)?,
        length => named.get(usize::from(u16::from_le_bytes(length))..)?,
    };
    match kind {
        1 => value.get(16..),
        TEXT => value.get(2 + usize::from(u16::from_le_bytes(*value.first_chunk()?))..),
        _ => value.get(4..),
    }
}

/// A text that its length stands before.
#[inline]
fn counted(value: &[u8]) -> &[u8] {
    let Some((length, text)) = value.split_first_chunk() else {
        return &[];
    };
    text.get(..usize::from(u16::from_le_bytes(*length))).unwrap_or_default()
}

/// Whether the part stands in the text as adjacent bytes.
fn occurs(part: &[u8], text: &[u8]) -> bool {
    let Some(&first) = part.first() else {
        return true;
    };
    text.windows(part.len()).any(|window| window[0] == first && window == part)
}
