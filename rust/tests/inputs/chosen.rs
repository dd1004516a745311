//! Chosen saves of one model, and what can be wrong with them.

use super::met::Gaps;
use super::saves::{HashForm, PartPlan};
use crate::plain::MET_CEILING;

/// A model of 400 bytes that both windows opened, and what they want to save.
pub fn three_alike() -> [PartPlan; 3] {
    [PartPlan::new(400), PartPlan::new(400), PartPlan::new(400)]
}

/// The files, with the gap tags last and numbered in order.
pub fn plain_files(plans: &[PartPlan; 3]) -> [Vec<u8>; 3] {
    plans.each_ref().map(PartPlan::plain_file)
}

/// As many gaps of one byte, one byte in four, beginning at this one.
pub fn comb(start: u64, count: u64) -> Gaps {
    (0..count).map(|gap| (start + 4 * gap, start + 4 * gap + 1)).collect()
}

pub fn text_tag(name: u8, text: &[u8]) -> Vec<u8> {
    [&[2, 1, 0, name][..], &(text.len() as u16).to_le_bytes(), text].concat()
}

/// Tags that have so many bytes together.
pub fn tags_of_length(mut length: usize) -> Vec<Vec<u8>> {
    let mut tags = Vec::new();
    while length > 0 {
        let next = if length > 60_000 { 50_000 } else { length };
        tags.push(text_tag(1, &vec![b'x'; next - 6]));
        length -= next;
    }
    tags
}

/// What can be wrong with a merge, in the order in which it is refused.
#[derive(Clone, Copy, Debug, PartialEq)]
pub enum Fault {
    /// Another opening byte of the opened file.
    Opened,
    /// A byte too many in the first save.
    First,
    /// A byte too few in the second save.
    Second,
    /// Another hash of the second save.
    Strangers,
    /// A tag of two values.
    TwoWays,
    TooManyGaps,
    TooManyBytes,
    NoRoom,
}

impl Fault {
    pub const ALL: [Fault; 8] = [
        Fault::Opened,
        Fault::First,
        Fault::Second,
        Fault::Strangers,
        Fault::TwoWays,
        Fault::TooManyGaps,
        Fault::TooManyBytes,
        Fault::NoRoom,
    ];

    fn number(self) -> u8 {
        match self {
            Fault::Opened => 2,
            Fault::First => 7,
            Fault::Second => 1,
            Fault::Strangers => 12,
            Fault::TwoWays => 11,
            Fault::TooManyGaps | Fault::TooManyBytes => 6,
            Fault::NoRoom => 10,
        }
    }

    /// Every combination, none and all among them.
    pub fn combinations() -> impl Iterator<Item = Vec<Fault>> {
        let chosen = |bits: u32| move |fault: &Fault| bits & 1 << *fault as u32 != 0;
        (0..1 << Fault::ALL.len()).map(move |bits| Fault::ALL.into_iter().filter(chosen(bits)).collect())
    }

    /// The number of the fault that is the first in this order; 0 if there is none.
    pub fn first_number(order: &[Fault], faults: &[Fault]) -> u8 {
        order.iter().find(|fault| faults.contains(fault)).map_or(0, |fault| fault.number())
    }
}

/// The file opened, two saves and room with these faults. The first save is never the file opened: it has another date.
pub fn faulty_saves(faults: &[Fault]) -> ([Vec<u8>; 3], usize) {
    let has = |fault| faults.contains(&fault);
    let mut plans = three_alike();
    let [_, first, second] = &mut plans;
    first.date = 1;
    if has(Fault::TooManyBytes) {
        first.form = HashForm::Counted(vec![7; 16 * 40_000]);
        second.others.extend(tags_of_length(500_000));
    }
    if has(Fault::TooManyGaps) {
        first.gaps = comb(0, 64);
        second.gaps = comb(2, 1);
    }
    if has(Fault::TwoWays) {
        first.others.push(text_tag(1, b"left"));
        second.others.push(text_tag(1, b"right"));
    }
    if has(Fault::Strangers) {
        second.hash[15] ^= 1;
    }
    let [mut opened, mut first, mut second] = plain_files(&plans);
    if has(Fault::Opened) {
        opened[0] = 0xE2;
    }
    if has(Fault::First) {
        first.push(0);
    }
    if has(Fault::Second) {
        second.pop();
    }
    ([opened, first, second], if has(Fault::NoRoom) { 0 } else { 2 * MET_CEILING })
}
