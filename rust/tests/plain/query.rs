//! Queries and their truth on a tag list.

use super::cursor::{Cursor, Run};
use super::tags::{Tag, Tags, Value, tag_list};
use super::{Answer, Fields, PACKET_CEILING, QUERY_DEPTH, Refusal, within};

const SPECIAL_NAME: &[u8] = &[1];

#[derive(Clone, Copy, Debug, PartialEq, Eq)]
pub enum Operator {
    And,
    Or,
    AndNot,
}

#[derive(Clone, Copy, Debug)]
pub enum Bound {
    Min = 1,
    Max,
}

#[derive(Clone, Copy, Debug)]
pub enum Node<'a> {
    Operator(Operator),
    Text(Run<'a>),
    Field(Run<'a>, Run<'a>),
    Limit(u32, Bound, Run<'a>),
}

#[inline]
fn operator(cursor: &mut Cursor) -> Answer<Operator> {
    match cursor.byte()? {
        0 => Ok(Operator::And),
        1 => Ok(Operator::Or),
        2 => Ok(Operator::AndNot),
        _ => Err(Refusal::Choice),
    }
}

#[inline]
fn bound(cursor: &mut Cursor) -> Answer<Bound> {
    match cursor.byte()? {
        1 => Ok(Bound::Min),
        2 => Ok(Bound::Max),
        _ => Err(Refusal::Choice),
    }
}

#[inline]
fn node<'a>(cursor: &mut Cursor<'a>) -> Answer<Node<'a>> {
    match cursor.byte()? {
        0 => Ok(Node::Operator(operator(cursor)?)),
        1 => Ok(Node::Text(cursor.string()?)),
        2 => Ok(Node::Field(cursor.string()?, cursor.name()?)),
        3 => Ok(Node::Limit(cursor.dword()?, bound(cursor)?, cursor.name()?)),
        _ => Err(Refusal::Choice),
    }
}

/// The depth of the query, which may be as deep as `room`.
pub fn query(cursor: &mut Cursor, room: u64) -> Answer<u64> {
    if room == 0 {
        return Err(Refusal::Limit);
    }
    let Node::Operator(_) = node(cursor)? else {
        return Ok(1);
    };
    let left = query(cursor, room - 1)?;
    let right = query(cursor, room - 1)?;
    Ok(1 + left.max(right))
}

pub fn lone_query(cursor: &mut Cursor) -> Answer<Fields> {
    let mut fields = Fields::default();
    put_query(cursor, &mut fields)?;
    Ok(fields)
}

pub fn put_query(cursor: &mut Cursor, fields: &mut Fields) -> Answer<()> {
    let at = cursor.at() as u64;
    let depth = query(cursor, QUERY_DEPTH)?;
    fields.put([at, cursor.at() as u64, depth]);
    Ok(())
}

pub fn put_node(cursor: &mut Cursor, fields: &mut Fields) -> Answer<()> {
    let none = [0, 0];
    let (case, operator, text, number, bound, name) = match node(cursor)? {
        Node::Operator(operator) => (0, operator as u64, none, 0, 0, none),
        Node::Text(text) => (1, 0, text.numbers(), 0, 0, none),
        Node::Field(text, name) => (2, 0, text.numbers(), 0, 0, name.numbers()),
        Node::Limit(number, bound, name) => (3, 0, none, number.into(), bound as u64, name.numbers()),
    };
    fields.put([case, operator]);
    fields.put(text);
    fields.put([number, bound]);
    fields.put(name);
    Ok(())
}

/// Whether the query holds on the tag list.
pub fn truth(query: &[u8], tags: &[u8]) -> Answer<bool> {
    within(query, PACKET_CEILING, lone_query)?;
    let list = within(tags, PACKET_CEILING, tag_list)?;
    holds(&mut Cursor::new(query), Tags::of(tags, list))
}

fn holds(cursor: &mut Cursor, tags: Tags) -> Answer<bool> {
    match node(cursor)? {
        Node::Operator(operator) => joined(operator, cursor, tags),
        Node::Text(text) => Ok(any(tags, |tag| names_text(tag, text.bytes))),
        Node::Field(text, name) => Ok(any(tags, |tag| is_text(tag, name.bytes, text.bytes))),
        Node::Limit(number, bound, name) => Ok(any(tags, |tag| meets(tag, name.bytes, bound, number))),
    }
}

/// A right side that cannot change the truth is passed over.
fn joined(operator: Operator, cursor: &mut Cursor, tags: Tags) -> Answer<bool> {
    let left = holds(cursor, tags)?;
    if left == (operator == Operator::Or) {
        query(cursor, QUERY_DEPTH)?;
        return Ok(left);
    }
    let right = holds(cursor, tags)?;
    Ok(right != (operator == Operator::AndNot))
}

#[inline]
fn any(mut tags: Tags, test: impl Fn(Tag) -> bool) -> bool {
    tags.any(test)
}

#[inline]
fn names_text(tag: Tag, part: &[u8]) -> bool {
    matches!(tag.value, Value::Text(text) if tag.name.bytes == SPECIAL_NAME && occurs(part, text.bytes))
}

#[inline]
fn is_text(tag: Tag, name: &[u8], whole: &[u8]) -> bool {
    matches!(tag.value, Value::Text(text) if tag.name.bytes == name && text.bytes == whole)
}

#[inline]
fn meets(tag: Tag, name: &[u8], bound: Bound, limit: u32) -> bool {
    let Value::Dword(number) = tag.value else {
        return false;
    };
    tag.name.bytes == name
        && match bound {
            Bound::Min => number >= limit,
            Bound::Max => number <= limit,
        }
}

/// Whether the part stands in the text as adjacent bytes.
fn occurs(part: &[u8], text: &[u8]) -> bool {
    let Some(&first) = part.first() else {
        return true;
    };
    text.windows(part.len()).any(|window| window[0] == first && window == part)
}
