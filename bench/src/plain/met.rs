//! known.met and server.met.

use super::cursor::{Cursor, List};
use super::{Answer, Fields, MET_CEILING, Refusal, within};

const OPENING: u8 = 0x0E;

pub fn known_met(bytes: &[u8], fields: &mut Fields) -> Answer<()> {
    within(bytes, MET_CEILING)?;
    let mut cursor = Cursor::new(bytes);
    let entries = entries(&mut cursor, |cursor| {
        cursor.chunk::<20>()?;
        let count = cursor.word()?;
        cursor.run(16 * usize::from(count))?;
        cursor.tags()?;
        Ok(())
    })?;
    put_entries(entries, fields);
    cursor.finish()
}

/// All after the last entry is tail.
pub fn server_met(bytes: &[u8], fields: &mut Fields) -> Answer<()> {
    within(bytes, MET_CEILING)?;
    let mut cursor = Cursor::new(bytes);
    let entries = entries(&mut cursor, |cursor| {
        cursor.chunk::<6>()?;
        cursor.tags()?;
        Ok(())
    })?;
    put_entries(entries, fields);
    fields[4] = entries.end as u64;
    fields[5] = (bytes.len() - entries.end) as u64;
    Ok(())
}

#[inline]
fn entries(cursor: &mut Cursor, skip: impl Fn(&mut Cursor) -> Answer<()>) -> Answer<List> {
    if cursor.byte()? != OPENING {
        return Err(Refusal::Opening);
    }
    let count = cursor.dword()?;
    cursor.list(count, skip)
}

fn put_entries(entries: List, fields: &mut Fields) {
    fields[0] = OPENING.into();
    fields[1..4].copy_from_slice(&entries.numbers());
}
