//! The calls of the archive, as include/ed2k.h declares them, each in a safe function. All `unsafe` of the crate is here and in
//! disk/system.rs, which has calls of Linux.
//!
//! Why each call is sound: a slice hands over a pointer that is never null and the number of its elements; the calls
//! read and write nothing outside of them, keep no pointer, and have no other requirement. What is lent to be written is
//! borrowed mutably, so it overlaps nothing else that the call is lent. Below, "lent slices" stands for this.

use crate::refusal::Refusal;

/// How many numbers a reading call returns.
pub(crate) const FIELDS: usize = 16;

/// The numbers that a reading call returns.
pub(crate) type Fields = [u64; FIELDS];

/// How many numbers say why a packet is refused: the number, the rule, and the offset and size of the item.
pub(crate) const WHY_NUMBERS: usize = 4;

/// How many numbers a gap record has: its size, how many gaps, and 64 pairs of start and end.
pub(crate) const GAP_NUMBERS: usize = 130;

/// A gap record as the calls take it.
pub(crate) type GapNumbers = [u64; GAP_NUMBERS];

type ItemCall = unsafe extern "C" fn(*const u8, usize, usize, *mut u64, usize) -> u8;

#[rustfmt::skip]
unsafe extern "C" {
    fn ed2k_read(kind: u8, bytes: *const u8, length: usize, fields: *mut u64, field_count: usize) -> u8;
    fn ed2k_why(kind: u8, bytes: *const u8, length: usize, why: *mut u64, count: usize) -> u8;

    fn ed2k_read_tag(bytes: *const u8, length: usize, at: usize, fields: *mut u64, field_count: usize) -> u8;
    fn ed2k_read_address(bytes: *const u8, length: usize, at: usize, fields: *mut u64, field_count: usize) -> u8;
    fn ed2k_read_record(bytes: *const u8, length: usize, at: usize, fields: *mut u64, field_count: usize) -> u8;
    fn ed2k_read_file_entry(bytes: *const u8, length: usize, at: usize, fields: *mut u64, field_count: usize) -> u8;
    fn ed2k_read_server_entry(bytes: *const u8, length: usize, at: usize, fields: *mut u64, field_count: usize) -> u8;
    fn ed2k_read_query_node(bytes: *const u8, length: usize, at: usize, fields: *mut u64, field_count: usize) -> u8;

    safe fn ed2k_part_count(size: u32) -> u32;
    safe fn ed2k_block_count(size: u32) -> u32;

    fn ed2k_read_gaps(file: *const u8, length: usize, gaps: *mut u64, gap_numbers: usize) -> u8;
    fn ed2k_all_missing(size: u64, gaps: *mut u64, gap_numbers: usize) -> u8;
    fn ed2k_count_missing(gaps: *const u64, gap_numbers: usize, missing: *mut u64) -> u8;
    fn ed2k_mark(gaps: *mut u64, gap_numbers: usize, start: u64, end: u64, missing: *mut u64) -> u8;

    fn ed2k_put_gaps(file: *const u8, length: usize, gaps: *const u64, gap_numbers: usize, output: *mut u8, room: usize, written: *mut usize) -> u8;
    fn ed2k_save(stored: *const u8, stored_length: usize, opened: *const u8, opened_length: usize, saved: *const u8, saved_length: usize, output: *mut u8, room: usize, written: *mut usize) -> u8;
    fn ed2k_save_strict(stored: *const u8, stored_length: usize, opened: *const u8, opened_length: usize, saved: *const u8, saved_length: usize, output: *mut u8, room: usize, written: *mut usize) -> u8;
    fn ed2k_merge(opened: *const u8, opened_length: usize, first: *const u8, first_length: usize, second: *const u8, second_length: usize, output: *mut u8, room: usize, written: *mut usize) -> u8;

    fn ed2k_truth(query: *const u8, query_length: usize, tags: *const u8, tags_length: usize, truth: *mut u8) -> u8;

    fn ed2k_write_keyword(text: *const u8, text_length: usize, output: *mut u8, room: usize, written: *mut usize) -> u8;
    fn ed2k_write_field(text: *const u8, text_length: usize, name: *const u8, name_length: usize, output: *mut u8, room: usize, written: *mut usize) -> u8;
    fn ed2k_write_limit(number: u32, bound: u8, name: *const u8, name_length: usize, output: *mut u8, room: usize, written: *mut usize) -> u8;
    fn ed2k_write_join(operation: u8, left: *const u8, left_length: usize, right: *const u8, right_length: usize, output: *mut u8, room: usize, written: *mut usize) -> u8;
    fn ed2k_write_text_tag(name: *const u8, name_length: usize, text: *const u8, text_length: usize, output: *mut u8, room: usize, written: *mut usize) -> u8;
    fn ed2k_write_dword_tag(name: *const u8, name_length: usize, number: u32, output: *mut u8, room: usize, written: *mut usize) -> u8;
    fn ed2k_write_float_tag(name: *const u8, name_length: usize, bits: u32, output: *mut u8, room: usize, written: *mut usize) -> u8;
    fn ed2k_write_hash_tag(name: *const u8, name_length: usize, hash: *const u8, hash_length: usize, output: *mut u8, room: usize, written: *mut usize) -> u8;
    fn ed2k_write_tag_list(bytes: *const u8, length: usize, at: usize, count: u32, output: *mut u8, room: usize, written: *mut usize) -> u8;
    fn ed2k_write_query(bytes: *const u8, length: usize, at: usize, output: *mut u8, room: usize, written: *mut usize) -> u8;

    fn ed2k_write(kind: u8, bytes: *const u8, length: usize, fields: *const u64, field_count: usize, output: *mut u8, room: usize, written: *mut usize) -> u8;
    fn ed2k_write_address(ip: u32, port: u16, output: *mut u8, room: usize, written: *mut usize) -> u8;
    fn ed2k_write_record(bytes: *const u8, length: usize, hash: usize, client: u32, port: u16, tags_at: usize, tag_count: u32, output: *mut u8, room: usize, written: *mut usize) -> u8;
    fn ed2k_write_file_entry(bytes: *const u8, length: usize, date: u32, hash: usize, hashes_at: usize, hash_count: u32, tags_at: usize, tag_count: u32, output: *mut u8, room: usize, written: *mut usize) -> u8;
    fn ed2k_write_server_entry(bytes: *const u8, length: usize, ip: u32, port: u16, tags_at: usize, tag_count: u32, output: *mut u8, room: usize, written: *mut usize) -> u8;
}

/// The items that are read one by one.
#[derive(Clone, Copy)]
pub(crate) enum Item {
    Tag,
    Address,
    Record,
    FileEntry,
    ServerEntry,
    QueryNode,
}

impl Item {
    fn call(self) -> ItemCall {
        match self {
            Item::Tag => ed2k_read_tag,
            Item::Address => ed2k_read_address,
            Item::Record => ed2k_read_record,
            Item::FileEntry => ed2k_read_file_entry,
            Item::ServerEntry => ed2k_read_server_entry,
            Item::QueryNode => ed2k_read_query_node,
        }
    }
}

/// Where a list is encoded: the offset of its first entry, and how many it has.
#[derive(Clone, Copy)]
pub(crate) struct Listed {
    pub(crate) at: usize,
    pub(crate) count: u32,
}

/// What a call answers with, by its number.
fn answer<T>(number: u8, accepted: T) -> Result<T, Refusal> {
    match Refusal::from_number(number) {
        Some(refusal) => Err(refusal),
        None => {
            assert_eq!(number, 0, "the archive answers with a number that ed2k.h does not have");
            Ok(accepted)
        }
    }
}

/// Runs a call that stores a number.
fn number_of<T: Default>(call: impl FnOnce(&mut T) -> u8) -> Result<T, Refusal> {
    let mut value = T::default();
    let number = call(&mut value);
    answer(number, value)
}

/// A call that writes into the output, given what comes before the output: how many bytes were written.
macro_rules! written {
    ($call:ident($($before:expr),*) -> $output:ident) => {
        // SAFETY: lent slices, and a reference to the number that is stored; offsets and other numbers may be any.
        number_of(|written| unsafe { $call($($before,)* $output.as_mut_ptr(), $output.len(), written) })
    };
}

pub(crate) fn read(kind: u8, bytes: &[u8]) -> Result<Fields, Refusal> {
    let mut fields = [0; FIELDS];
    // SAFETY: lent slices; `kind` may be any number.
    let number = unsafe { ed2k_read(kind, bytes.as_ptr(), bytes.len(), fields.as_mut_ptr(), FIELDS) };
    answer(number, fields)
}

/// `link` is the number of a link's kind.
pub(crate) fn why(link: u8, bytes: &[u8]) -> [u64; WHY_NUMBERS] {
    let mut why = [0; WHY_NUMBERS];
    // SAFETY: lent slices; `link` may be any number.
    let number = unsafe { ed2k_why(link, bytes.as_ptr(), bytes.len(), why.as_mut_ptr(), WHY_NUMBERS) };
    answer(number, why).expect("the archive says of every packet of a link why")
}

pub(crate) fn read_item(item: Item, bytes: &[u8], at: usize) -> Result<Fields, Refusal> {
    let call = item.call();
    let mut fields = [0; FIELDS];
    // SAFETY: lent slices; `at` may be any number.
    let number = unsafe { call(bytes.as_ptr(), bytes.len(), at, fields.as_mut_ptr(), FIELDS) };
    answer(number, fields)
}

pub(crate) fn part_count(size: u32) -> u32 {
    ed2k_part_count(size)
}

pub(crate) fn block_count(size: u32) -> u32 {
    ed2k_block_count(size)
}

pub(crate) fn read_gaps(file: &[u8]) -> Result<GapNumbers, Refusal> {
    let mut gaps = [0; GAP_NUMBERS];
    // SAFETY: lent slices.
    let number = unsafe { ed2k_read_gaps(file.as_ptr(), file.len(), gaps.as_mut_ptr(), GAP_NUMBERS) };
    answer(number, gaps)
}

pub(crate) fn all_missing(size: u64) -> Result<GapNumbers, Refusal> {
    let mut gaps = [0; GAP_NUMBERS];
    // SAFETY: a lent slice; `size` may be any number.
    let number = unsafe { ed2k_all_missing(size, gaps.as_mut_ptr(), GAP_NUMBERS) };
    answer(number, gaps)
}

pub(crate) fn count_missing(gaps: &GapNumbers) -> Result<u64, Refusal> {
    // SAFETY: a lent slice, and a reference to the number that is stored.
    number_of(|missing| unsafe { ed2k_count_missing(gaps.as_ptr(), GAP_NUMBERS, missing) })
}

pub(crate) fn mark(gaps: &mut GapNumbers, start: u64, end: u64) -> Result<u64, Refusal> {
    // SAFETY: a lent slice, and a reference to the number that is stored; `start` and `end` may be any numbers.
    number_of(|missing| unsafe { ed2k_mark(gaps.as_mut_ptr(), GAP_NUMBERS, start, end, missing) })
}

pub(crate) fn put_gaps(file: &[u8], gaps: &GapNumbers, output: &mut [u8]) -> Result<usize, Refusal> {
    written!(ed2k_put_gaps(file.as_ptr(), file.len(), gaps.as_ptr(), GAP_NUMBERS) -> output)
}

pub(crate) fn save(stored: &[u8], opened: &[u8], saved: &[u8], output: &mut [u8]) -> Result<usize, Refusal> {
    written!(ed2k_save(stored.as_ptr(), stored.len(), opened.as_ptr(), opened.len(), saved.as_ptr(), saved.len()) -> output)
}

pub(crate) fn save_strict(
    stored: &[u8],
    opened: &[u8],
    saved: &[u8],
    output: &mut [u8],
) -> Result<usize, Refusal> {
    written!(ed2k_save_strict(stored.as_ptr(), stored.len(), opened.as_ptr(), opened.len(), saved.as_ptr(), saved.len()) -> output)
}

pub(crate) fn merge(opened: &[u8], first: &[u8], second: &[u8], output: &mut [u8]) -> Result<usize, Refusal> {
    written!(ed2k_merge(opened.as_ptr(), opened.len(), first.as_ptr(), first.len(), second.as_ptr(), second.len()) -> output)
}

pub(crate) fn truth(query: &[u8], tags: &[u8]) -> Result<u8, Refusal> {
    // SAFETY: lent slices, and a reference to the byte that is stored.
    number_of(|truth| unsafe { ed2k_truth(query.as_ptr(), query.len(), tags.as_ptr(), tags.len(), truth) })
}

pub(crate) fn write_keyword(text: &[u8], output: &mut [u8]) -> Result<usize, Refusal> {
    written!(ed2k_write_keyword(text.as_ptr(), text.len()) -> output)
}

pub(crate) fn write_field(text: &[u8], name: &[u8], output: &mut [u8]) -> Result<usize, Refusal> {
    written!(ed2k_write_field(text.as_ptr(), text.len(), name.as_ptr(), name.len()) -> output)
}

pub(crate) fn write_limit(number: u32, bound: u8, name: &[u8], output: &mut [u8]) -> Result<usize, Refusal> {
    written!(ed2k_write_limit(number, bound, name.as_ptr(), name.len()) -> output)
}

pub(crate) fn write_join(
    operation: u8,
    left: &[u8],
    right: &[u8],
    output: &mut [u8],
) -> Result<usize, Refusal> {
    written!(ed2k_write_join(operation, left.as_ptr(), left.len(), right.as_ptr(), right.len()) -> output)
}

pub(crate) fn write_text_tag(name: &[u8], text: &[u8], output: &mut [u8]) -> Result<usize, Refusal> {
    written!(ed2k_write_text_tag(name.as_ptr(), name.len(), text.as_ptr(), text.len()) -> output)
}

pub(crate) fn write_dword_tag(name: &[u8], number: u32, output: &mut [u8]) -> Result<usize, Refusal> {
    written!(ed2k_write_dword_tag(name.as_ptr(), name.len(), number) -> output)
}

pub(crate) fn write_float_tag(name: &[u8], bits: u32, output: &mut [u8]) -> Result<usize, Refusal> {
    written!(ed2k_write_float_tag(name.as_ptr(), name.len(), bits) -> output)
}

pub(crate) fn write_hash_tag(name: &[u8], hash: &[u8], output: &mut [u8]) -> Result<usize, Refusal> {
    written!(ed2k_write_hash_tag(name.as_ptr(), name.len(), hash.as_ptr(), hash.len()) -> output)
}

pub(crate) fn write_tag_list(
    bytes: &[u8],
    at: usize,
    count: u32,
    output: &mut [u8],
) -> Result<usize, Refusal> {
    written!(ed2k_write_tag_list(bytes.as_ptr(), bytes.len(), at, count) -> output)
}

pub(crate) fn write_query(bytes: &[u8], at: usize, output: &mut [u8]) -> Result<usize, Refusal> {
    written!(ed2k_write_query(bytes.as_ptr(), bytes.len(), at) -> output)
}

pub(crate) fn write(kind: u8, bytes: &[u8], fields: &Fields, output: &mut [u8]) -> Result<usize, Refusal> {
    written!(ed2k_write(kind, bytes.as_ptr(), bytes.len(), fields.as_ptr(), FIELDS) -> output)
}

pub(crate) fn write_address(ip: u32, port: u16, output: &mut [u8]) -> Result<usize, Refusal> {
    written!(ed2k_write_address(ip, port) -> output)
}

pub(crate) fn write_record(
    bytes: &[u8],
    hash: usize,
    client: u32,
    port: u16,
    tags: Listed,
    output: &mut [u8],
) -> Result<usize, Refusal> {
    written!(ed2k_write_record(bytes.as_ptr(), bytes.len(), hash, client, port, tags.at, tags.count) -> output)
}

pub(crate) fn write_file_entry(
    bytes: &[u8],
    date: u32,
    hash: usize,
    hashes: Listed,
    tags: Listed,
    output: &mut [u8],
) -> Result<usize, Refusal> {
    written!(ed2k_write_file_entry(bytes.as_ptr(), bytes.len(), date, hash, hashes.at, hashes.count, tags.at, tags.count) -> output)
}

pub(crate) fn write_server_entry(
    bytes: &[u8],
    ip: u32,
    port: u16,
    tags: Listed,
    output: &mut [u8],
) -> Result<usize, Refusal> {
    written!(ed2k_write_server_entry(bytes.as_ptr(), bytes.len(), ip, port, tags.at, tags.count) -> output)
}
