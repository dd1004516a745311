//! The archive's calls, as `ed2k.h` declares them, with slices instead of pointers and lengths.

use crate::plain::{Calls, Item};

mod ffi {
    #[rustfmt::skip]
    unsafe extern "C" {
        pub fn ed2k_read(kind: u8, bytes: *const u8, length: usize, fields: *mut u64, field_count: usize) -> u8;
        pub fn ed2k_why(kind: u8, bytes: *const u8, length: usize, why: *mut u64, count: usize) -> u8;
        pub fn ed2k_part_count(size: u32) -> u32;
        pub fn ed2k_block_count(size: u32) -> u32;
        pub fn ed2k_read_gaps(file: *const u8, length: usize, gaps: *mut u64, gap_numbers: usize) -> u8;
        pub fn ed2k_all_missing(size: u64, gaps: *mut u64, gap_numbers: usize) -> u8;
        pub fn ed2k_count_missing(gaps: *const u64, gap_numbers: usize, missing: *mut u64) -> u8;
        pub fn ed2k_mark(gaps: *mut u64, gap_numbers: usize, start: u64, end: u64, missing: *mut u64) -> u8;
        pub fn ed2k_put_gaps(file: *const u8, length: usize, gaps: *const u64, gap_numbers: usize, output: *mut u8, room: usize, written: *mut usize) -> u8;
        pub fn ed2k_save(stored: *const u8, stored_length: usize, opened: *const u8, opened_length: usize, saved: *const u8, saved_length: usize, output: *mut u8, room: usize, written: *mut usize) -> u8;
        pub fn ed2k_save_strict(stored: *const u8, stored_length: usize, opened: *const u8, opened_length: usize, saved: *const u8, saved_length: usize, output: *mut u8, room: usize, written: *mut usize) -> u8;
        pub fn ed2k_merge(opened: *const u8, opened_length: usize, first: *const u8, first_length: usize, second: *const u8, second_length: usize, output: *mut u8, room: usize, written: *mut usize) -> u8;
        pub fn ed2k_truth(query: *const u8, query_length: usize, tags: *const u8, tags_length: usize, truth: *mut u8) -> u8;
        pub fn ed2k_write_keyword(text: *const u8, text_length: usize, output: *mut u8, room: usize, written: *mut usize) -> u8;
        pub fn ed2k_write_field(text: *const u8, text_length: usize, name: *const u8, name_length: usize, output: *mut u8, room: usize, written: *mut usize) -> u8;
        pub fn ed2k_write_limit(number: u32, bound: u8, name: *const u8, name_length: usize, output: *mut u8, room: usize, written: *mut usize) -> u8;
        pub fn ed2k_write_join(operation: u8, left: *const u8, left_length: usize, right: *const u8, right_length: usize, output: *mut u8, room: usize, written: *mut usize) -> u8;
        pub fn ed2k_write_text_tag(name: *const u8, name_length: usize, text: *const u8, text_length: usize, output: *mut u8, room: usize, written: *mut usize) -> u8;
        pub fn ed2k_write_hash_tag(name: *const u8, name_length: usize, hash: *const u8, hash_length: usize, output: *mut u8, room: usize, written: *mut usize) -> u8;
        pub fn ed2k_write_dword_tag(name: *const u8, name_length: usize, number: u32, output: *mut u8, room: usize, written: *mut usize) -> u8;
        pub fn ed2k_write_float_tag(name: *const u8, name_length: usize, bits: u32, output: *mut u8, room: usize, written: *mut usize) -> u8;
        pub fn ed2k_write_tag_list(bytes: *const u8, length: usize, at: usize, count: u32, output: *mut u8, room: usize, written: *mut usize) -> u8;
        pub fn ed2k_write_query(bytes: *const u8, length: usize, at: usize, output: *mut u8, room: usize, written: *mut usize) -> u8;
        pub fn ed2k_write(kind: u8, bytes: *const u8, length: usize, fields: *const u64, field_count: usize, output: *mut u8, room: usize, written: *mut usize) -> u8;
        pub fn ed2k_write_address(ip: u32, port: u16, output: *mut u8, room: usize, written: *mut usize) -> u8;
        pub fn ed2k_write_record(bytes: *const u8, length: usize, hash: usize, client: u32, port: u16, tags_at: usize, tag_count: u32, output: *mut u8, room: usize, written: *mut usize) -> u8;
        pub fn ed2k_write_file_entry(bytes: *const u8, length: usize, date: u32, hash: usize, hashes_at: usize, hash_count: u32, tags_at: usize, tag_count: u32, output: *mut u8, room: usize, written: *mut usize) -> u8;
        pub fn ed2k_write_server_entry(bytes: *const u8, length: usize, ip: u32, port: u16, tags_at: usize, tag_count: u32, output: *mut u8, room: usize, written: *mut usize) -> u8;
    }

    macro_rules! item_readers {
        ($($name:ident)*) => {
            unsafe extern "C" {
                $(pub fn $name(bytes: *const u8, length: usize, at: usize, fields: *mut u64, field_count: usize) -> u8;)*
            }
        };
    }
    item_readers!(ed2k_read_tag ed2k_read_address ed2k_read_record);
    item_readers!(ed2k_read_file_entry ed2k_read_server_entry ed2k_read_query_node);
}

/// A call that is given a slice as its pointer and length. Each slice lives through the call, which keeps no pointer.
macro_rules! call {
    (@ $name:ident ($($done:expr),*)) => { unsafe { ffi::$name($($done),*) } };
    (@ $name:ident ($($done:expr),*) slice $slice:ident $(, $($rest:tt)*)?) => {
        call!(@ $name ($($done,)* $slice.as_ptr(), $slice.len()) $($($rest)*)?)
    };
    (@ $name:ident ($($done:expr),*) lent $slice:ident $(, $($rest:tt)*)?) => {
        call!(@ $name ($($done,)* $slice.as_mut_ptr(), $slice.len()) $($($rest)*)?)
    };
    (@ $name:ident ($($done:expr),*) $value:ident $(, $($rest:tt)*)?) => {
        call!(@ $name ($($done,)* $value) $($($rest)*)?)
    };
    ($name:ident $($rest:tt)*) => { call!(@ $name () $($rest)*) };
}

pub const ARCHIVE: Calls = Calls {
    read: |kind, bytes, fields| call!(ed2k_read kind, slice bytes, lent fields),
    why: |kind, bytes, numbers| call!(ed2k_why kind, slice bytes, lent numbers),
    read_item,
    part_count: |size| call!(ed2k_part_count size),
    block_count: |size| call!(ed2k_block_count size),
    read_gaps: |file, record| call!(ed2k_read_gaps slice file, lent record),
    all_missing: |size, record| call!(ed2k_all_missing size, lent record),
    count_missing: |record, missing| call!(ed2k_count_missing slice record, missing),
    mark: |record, start, end, missing| call!(ed2k_mark lent record, start, end, missing),
    put_gaps: |file, record, output, written| call!(ed2k_put_gaps slice file, slice record, lent output, written),
    save: |stored, opened, saved, output, written| call!(ed2k_save slice stored, slice opened, slice saved, lent output, written),
    save_strict: |stored, opened, saved, output, written| call!(ed2k_save_strict slice stored, slice opened, slice saved, lent output, written),
    merge: |opened, first, second, output, written| call!(ed2k_merge slice opened, slice first, slice second, lent output, written),
    truth: |query, tags, truth| call!(ed2k_truth slice query, slice tags, truth),
    write_keyword: |text, output, written| call!(ed2k_write_keyword slice text, lent output, written),
    write_field: |text, name, output, written| call!(ed2k_write_field slice text, slice name, lent output, written),
    write_limit: |number, bound, name, output, written| call!(ed2k_write_limit number, bound, slice name, lent output, written),
    write_join: |operation, left, right, output, written| call!(ed2k_write_join operation, slice left, slice right, lent output, written),
    write_text_tag: |name, text, output, written| call!(ed2k_write_text_tag slice name, slice text, lent output, written),
    write_dword_tag: |name, number, output, written| call!(ed2k_write_dword_tag slice name, number, lent output, written),
    write_float_tag: |name, bits, output, written| call!(ed2k_write_float_tag slice name, bits, lent output, written),
    write_hash_tag: |name, hash, output, written| call!(ed2k_write_hash_tag slice name, slice hash, lent output, written),
    write_tag_list: |bytes, at, count, output, written| call!(ed2k_write_tag_list slice bytes, at, count, lent output, written),
    write_query: |bytes, at, output, written| call!(ed2k_write_query slice bytes, at, lent output, written),
    write: |kind, bytes, fields, output, written| call!(ed2k_write kind, slice bytes, slice fields, lent output, written),
    write_address: |ip, port, output, written| call!(ed2k_write_address ip, port, lent output, written),
    write_record: |bytes, hash, (client, port), (tags, count), output, written| call!(ed2k_write_record slice bytes, hash, client, port, tags, count, lent output, written),
    write_file_entry: |bytes, (date, hash), (hashes, hash_count), (tags, count), output, written| call!(ed2k_write_file_entry slice bytes, date, hash, hashes, hash_count, tags, count, lent output, written),
    write_server_entry: |bytes, (ip, port), (tags, count), output, written| call!(ed2k_write_server_entry slice bytes, ip, port, tags, count, lent output, written),
};

fn read_item(item: Item, bytes: &[u8], at: usize, fields: &mut [u64]) -> u8 {
    match item {
        Item::Tag => call!(ed2k_read_tag slice bytes, at, lent fields),
        Item::Address => call!(ed2k_read_address slice bytes, at, lent fields),
        Item::Record => call!(ed2k_read_record slice bytes, at, lent fields),
        Item::FileEntry => call!(ed2k_read_file_entry slice bytes, at, lent fields),
        Item::ServerEntry => call!(ed2k_read_server_entry slice bytes, at, lent fields),
        Item::QueryNode => call!(ed2k_read_query_node slice bytes, at, lent fields),
    }
}
