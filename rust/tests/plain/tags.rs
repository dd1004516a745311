//! Tags and tag lists.

use super::cursor::{Cursor, Run};
use super::{Answer, Fields, List, Refusal};

#[derive(Clone, Copy, Debug)]
pub enum Value<'a> {
    Hash(Run<'a>),
    Text(Run<'a>),
    Dword(u32),
    Float(u32),
}

#[derive(Clone, Copy, Debug)]
pub struct Tag<'a> {
    pub name: Run<'a>,
    pub value: Value<'a>,
}

/// The type is checked before the name is read.
#[inline]
pub fn tag<'a>(cursor: &mut Cursor<'a>) -> Answer<Tag<'a>> {
    let kind = cursor.byte()?;
    if !(1..=4).contains(&kind) {
        return Err(Refusal::Choice);
    }
    let name = cursor.name()?;
    let value = match kind {
        1 => Value::Hash(cursor.run(16)?),
        2 => Value::Text(cursor.string()?),
        3 => Value::Dword(cursor.dword()?),
        _ => Value::Float(cursor.dword()?),
    };
    Ok(Tag { name, value })
}

#[inline]
pub fn tag_list(cursor: &mut Cursor) -> Answer<List> {
    let count = cursor.dword()?;
    cursor.list(count, tag)
}

pub fn lone_tags(cursor: &mut Cursor) -> Answer<Fields> {
    let mut fields = Fields::default();
    fields.put(tag_list(cursor)?.numbers());
    Ok(fields)
}

pub fn put_tag(cursor: &mut Cursor, fields: &mut Fields) -> Answer<()> {
    let tag = tag(cursor)?;
    let (kind, value) = match tag.value {
        Value::Hash(hash) => (1, hash.numbers()),
        Value::Text(text) => (2, text.numbers()),
        Value::Dword(number) => (3, [number.into(), 0]),
        Value::Float(bits) => (4, [bits.into(), 0]),
    };
    fields.put([kind]);
    fields.put(tag.name.numbers());
    fields.put(value);
    Ok(())
}

/// The tags of a list that was read before.
#[derive(Clone, Copy)]
pub struct Tags<'a> {
    cursor: Cursor<'a>,
    left: u32,
}

impl<'a> Tags<'a> {
    pub fn of(bytes: &'a [u8], list: List) -> Self {
        Tags::from_cursor(Cursor::at_offset(bytes, list.at), list.count)
    }

    /// As many tags, the first of which is encoded at the cursor.
    pub fn from_cursor(cursor: Cursor<'a>, count: u32) -> Self {
        Tags { cursor, left: count }
    }

    /// Where the next tag begins.
    pub fn at(&self) -> usize {
        self.cursor.at()
    }
}

impl<'a> Iterator for Tags<'a> {
    type Item = Tag<'a>;

    #[inline]
    fn next(&mut self) -> Option<Tag<'a>> {
        self.left = self.left.checked_sub(1)?;
        tag(&mut self.cursor).ok()
    }
}
