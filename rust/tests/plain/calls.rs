//! The calls of `ed2k.h` with lent slices, so that one test or measurement runs through the archive and through the plain reading.

use super::*;

/// A call on three files that writes one: a save of stored, opened and new, or a merge of opened, first and second.
pub type OfThree = fn(&[u8], &[u8], &[u8], &mut [u8], &mut usize) -> u8;

#[allow(clippy::type_complexity)]
pub struct Calls {
    pub read: fn(u8, &[u8], &mut [u64]) -> u8,
    pub why: fn(u8, &[u8], &mut [u64]) -> u8,
    pub read_item: fn(Item, &[u8], usize, &mut [u64]) -> u8,
    pub part_count: fn(u32) -> u32,
    pub block_count: fn(u32) -> u32,
    pub read_gaps: fn(&[u8], &mut [u64]) -> u8,
    pub all_missing: fn(u64, &mut [u64]) -> u8,
    pub count_missing: fn(&[u64], &mut u64) -> u8,
    pub mark: fn(&mut [u64], u64, u64, &mut u64) -> u8,
    pub put_gaps: fn(&[u8], &[u64], &mut [u8], &mut usize) -> u8,
    pub save: OfThree,
    pub save_strict: OfThree,
    pub merge: OfThree,
    pub truth: fn(&[u8], &[u8], &mut u8) -> u8,
    pub write_keyword: fn(&[u8], &mut [u8], &mut usize) -> u8,
    pub write_field: fn(&[u8], &[u8], &mut [u8], &mut usize) -> u8,
    pub write_limit: fn(u32, u8, &[u8], &mut [u8], &mut usize) -> u8,
    pub write_join: fn(u8, &[u8], &[u8], &mut [u8], &mut usize) -> u8,
    pub write_text_tag: fn(&[u8], &[u8], &mut [u8], &mut usize) -> u8,
    pub write_dword_tag: fn(&[u8], u32, &mut [u8], &mut usize) -> u8,
    pub write_float_tag: fn(&[u8], u32, &mut [u8], &mut usize) -> u8,
    pub write_hash_tag: fn(&[u8], &[u8], &mut [u8], &mut usize) -> u8,
    pub write_tag_list: fn(&[u8], usize, u32, &mut [u8], &mut usize) -> u8,
    pub write_query: fn(&[u8], usize, &mut [u8], &mut usize) -> u8,
    pub write: fn(u8, &[u8], &[u64], &mut [u8], &mut usize) -> u8,
    pub write_address: fn(u32, u16, &mut [u8], &mut usize) -> u8,
    pub write_record: fn(&[u8], usize, (u32, u16), (usize, u32), &mut [u8], &mut usize) -> u8,
    pub write_file_entry: fn(&[u8], (u32, usize), (usize, u32), (usize, u32), &mut [u8], &mut usize) -> u8,
    pub write_server_entry: fn(&[u8], (u32, u16), (usize, u32), &mut [u8], &mut usize) -> u8,
}

pub const PLAIN: Calls = Calls {
    read: |kind, bytes, fields| lend(read(kind, bytes), fields),
    why: |kind, bytes, numbers| number(&lend_reason(kind, bytes, numbers)),
    read_item: |item, bytes, at, fields| lend(read_item(item, bytes, at), fields),
    part_count,
    block_count,
    read_gaps: |file, record| number(&read_gaps(file, record)),
    all_missing: |size, record| number(&all_missing(size, record)),
    count_missing: |record, missing| returned(count_missing(record), missing),
    mark: |record, start, end, missing| returned(mark(record, start, end), missing),
    put_gaps: |file, record, output, written| returned(put_gaps(file, record, output), written),
    save: |stored, opened, saved, output, written| returned(save(stored, opened, saved, output), written),
    save_strict: |stored, opened, saved, output, written| {
        returned(save_strict(stored, opened, saved, output), written)
    },
    merge: |opened, first, second, output, written| returned(merge(opened, first, second, output), written),
    truth: |query, tags, holds| returned(truth(query, tags).map(u8::from), holds),
    write_keyword: |text, output, written| returned(write_keyword(text, output), written),
    write_field: |text, name, output, written| returned(write_field(text, name, output), written),
    write_limit: |number, bound, name, output, written| {
        returned(write_limit(number, bound, name, output), written)
    },
    write_join: |operation, left, right, output, written| {
        returned(write_join(operation, left, right, output), written)
    },
    write_text_tag: |name, text, output, written| returned(write_text_tag(name, text, output), written),
    write_dword_tag: |name, number, output, written| returned(write_dword_tag(name, number, output), written),
    write_float_tag: |name, bits, output, written| returned(write_float_tag(name, bits, output), written),
    write_hash_tag: |name, hash, output, written| returned(write_hash_tag(name, hash, output), written),
    write_tag_list: |bytes, at, count, output, written| {
        returned(write_tag_list(bytes, at, count, output), written)
    },
    write_query: |bytes, at, output, written| returned(write_query(bytes, at, output), written),
    write: |kind, bytes, fields, output, written| {
        returned(write_message(kind, bytes, fields, output), written)
    },
    write_address: |ip, port, output, written| returned(write_address(ip, port, output), written),
    write_record: |bytes, hash, client, tags, output, written| {
        returned(write_record(bytes, hash, client, tags, output), written)
    },
    write_file_entry: |bytes, file, hashes, tags, output, written| {
        returned(write_file_entry(bytes, file, hashes, tags, output), written)
    },
    write_server_entry: |bytes, address, tags, output, written| {
        returned(write_server_entry(bytes, address, tags, output), written)
    },
};

#[inline]
fn number<T>(answer: &Answer<T>) -> u8 {
    match answer {
        Ok(_) => 0,
        Err(refusal) => *refusal as u8,
    }
}

/// A length, a count or a truth: after a refusal it is 0.
#[inline]
fn returned<T: Copy + Default>(answer: Answer<T>, value: &mut T) -> u8 {
    *value = answer.unwrap_or_default();
    number(&answer)
}

/// Room for the fields is asked for last.
#[inline]
fn lend(answer: Answer<Fields>, fields: &mut [u64]) -> u8 {
    let stored = answer.and_then(|read| {
        let slots = fields.first_chunk_mut().ok_or(Refusal::Room)?;
        *slots = read.numbers;
        Ok(())
    });
    number(&stored)
}

/// Only links have packets; then room is asked for. An accepted packet has no reason, and all four numbers are 0.
fn lend_reason(kind: u8, bytes: &[u8], numbers: &mut [u64]) -> Answer<()> {
    if !matches!(kind, SERVER_LINK | CLIENT_LINK | UDP_LINK) {
        return Err(Refusal::Kind);
    }
    let slots = numbers.first_chunk_mut().ok_or(Refusal::Room)?;
    *slots = why(kind, bytes).map_or([0; WHY_NUMBERS], Reason::numbers);
    Ok(())
}
