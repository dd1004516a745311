//! Three part.met files for a merge: one that two windows opened, and the two that they want to save.

use std::collections::BTreeSet;

use super::Random;
use super::damage::damaged;
use super::met::{
    Gaps, Numbering, gap_number, gap_tag, lawful_gaps, other_tag, size_tag, text_tag_named_size,
};

const PART_MET: u8 = 5;
const MOST_GAPS: usize = 64;

/// The opening form with its hash lists.
#[derive(Clone, Debug, PartialEq)]
pub enum HashForm {
    /// E0, and the bytes of the counted part hashes.
    Counted(Vec<u8>),
    /// E1, and the bytes of each block.
    Blocks(Vec<Vec<u8>>),
}

/// A part.met by its values.
#[derive(Clone, Debug)]
pub struct PartPlan {
    pub form: HashForm,
    pub date: u32,
    pub hash: [u8; 16],
    /// The bytes of each tag that is no gap tag. The size is one of them.
    pub others: Vec<Vec<u8>>,
    pub gaps: Gaps,
}

impl PartPlan {
    /// A model of this size, of which nothing is missing and nothing else is said.
    pub fn new(size: u32) -> PartPlan {
        let (form, others) = (HashForm::Counted(Vec::new()), vec![size_tag(size).1]);
        PartPlan { form, date: 0, hash: [7; 16], others, gaps: Gaps::new() }
    }

    /// The file, with its gap tags anywhere among the other tags, under any lawful numbers.
    pub fn file(&self, random: &mut Random) -> Vec<u8> {
        let slots = gap_slots(random, self.others.len(), self.gaps.len());
        self.with_gaps_at(&slots, &gap_pairs(random, &self.gaps))
    }

    /// The file, with its gap tags last and numbered in order.
    pub fn plain_file(&self) -> Vec<u8> {
        let pairs = self.gaps.iter().enumerate().map(|(index, gap)| gap_pair(&index.to_string(), *gap));
        self.with_gaps_at(&vec![self.others.len(); self.gaps.len()], &pairs.collect::<Vec<_>>())
    }

    /// Each pair of gap tags stands before the tag of its slot.
    fn with_gaps_at(&self, slots: &[usize], pairs: &[Vec<u8>]) -> Vec<u8> {
        let mut tags = ((self.others.len() + 2 * pairs.len()) as u32).to_le_bytes().to_vec();
        for slot in 0..=self.others.len() {
            let here = slots.iter().zip(pairs).filter(|(own, _)| **own == slot);
            here.for_each(|(_, pair)| tags.extend(pair));
            tags.extend(self.others.get(slot).into_iter().flatten());
        }
        let date = self.date.to_le_bytes();
        match &self.form {
            HashForm::Counted(hashes) => {
                let count = (hashes.len() / 16) as u16;
                [&[0xE0][..], &date, &self.hash, &count.to_le_bytes(), hashes, &tags].concat()
            }
            HashForm::Blocks(blocks) => {
                let blocks = blocks.iter().flat_map(|block| [&[1][..], block].concat());
                let lists: Vec<u8> = blocks.chain([0]).collect();
                [&[0xE1, 2][..], &date, &self.hash, &tags, &lists].concat()
            }
        }
    }
}

/// Before which of the other tags the gaps stand: all after the last, all together, or scattered.
fn gap_slots(random: &mut Random, others: usize, gaps: usize) -> Vec<usize> {
    let mut slots = match random.below(3) {
        0 => vec![others; gaps],
        1 => vec![random.within(0, others); gaps],
        _ => (0..gaps).map(|_| random.within(0, others)).collect(),
    };
    slots.sort();
    slots
}

/// A start tag and its end tag for each gap.
fn gap_pairs(random: &mut Random, gaps: &Gaps) -> Vec<Vec<u8>> {
    let numbering = random.pick(&[Numbering::Shortest, Numbering::Padded, Numbering::Long]);
    let backwards = random.once_in(3);
    let pairs = gaps.iter().enumerate().map(|(index, gap)| {
        let index = if backwards { gaps.len() - 1 - index } else { index };
        gap_pair(&gap_number(random, numbering, index), *gap)
    });
    pairs.collect()
}

fn gap_pair(number: &str, (start, end): (u64, u64)) -> Vec<u8> {
    let mut pair = Vec::new();
    gap_tag(0x09, number, start, &mut pair);
    gap_tag(0x0A, number, end, &mut pair);
    pair
}

/// A form for a model of this size.
fn some_form(random: &mut Random, size: u32) -> HashForm {
    let parts = 16 * size.div_ceil(9_728_000) as usize;
    let blocks = 8 * size.div_ceil(486_400) as usize;
    match random.below(5) {
        0 | 1 => {
            let count = random.pick(&[0, 0, 1, 2, 5]);
            HashForm::Counted(random.bytes(16 * count))
        }
        2 => HashForm::Blocks(Vec::new()),
        3 => HashForm::Blocks(vec![random.bytes(parts)]),
        _ => HashForm::Blocks(vec![random.bytes(parts), random.bytes(blocks)]),
    }
}

/// One byte of a hash is another, or the whole form is.
fn other_form(random: &mut Random, size: u32, form: &HashForm) -> HashForm {
    let mut form = form.clone();
    let list = match &mut form {
        HashForm::Counted(hashes) => Some(hashes),
        HashForm::Blocks(blocks) if blocks.is_empty() => None,
        HashForm::Blocks(blocks) => {
            let index = random.below(blocks.len());
            Some(&mut blocks[index])
        }
    };
    match list {
        Some(list) if !list.is_empty() && random.once_in(2) => {
            let at = random.below(list.len());
            list[at] ^= 1 << random.below(8);
            form
        }
        _ => some_form(random, size),
    }
}

/// The size and a few others.
fn some_others(random: &mut Random, size: u32) -> Vec<Vec<u8>> {
    let mut others: Vec<_> = (0..random.below(6)).map(|_| some_tag(random)).collect();
    others.insert(random.within(0, others.len()), size_tag(size).1);
    others
}

/// A tag that is neither the size nor a gap.
fn some_tag(random: &mut Random) -> Vec<u8> {
    if random.once_in(8) { text_tag_named_size(random) } else { other_tag(random).1 }
}

fn is_size(tag: &[u8]) -> bool {
    tag.starts_with(&[3, 1, 0, 2])
}

/// A tag more, a tag less, another value or type, or another order; the size stays.
fn other_others(random: &mut Random, others: &[Vec<u8>]) -> Vec<Vec<u8>> {
    let mut others = others.to_vec();
    let (one, other) = (random.below(others.len()), random.below(others.len()));
    match random.below(6) {
        0 => others.swap(one, other),
        1 if !is_size(&others[one]) => drop(others.remove(one)),
        2 if !is_size(&others[one]) => others[one] = some_tag(random),
        // A DWORD and a FLOAT have the same bytes but for the type.
        3 if !is_size(&others[one]) && others[one][0] > 2 => others[one][0] ^= 3 ^ 4,
        4 if !is_size(&others[one]) => others.insert(other, others[one].clone()),
        _ => others.insert(other, some_tag(random)),
    }
    others
}

/// The gaps of the bounds, as many as a file may have.
fn gaps_between(bounds: &BTreeSet<u64>) -> Gaps {
    let bounds: Vec<u64> = bounds.iter().copied().collect();
    bounds.chunks_exact(2).take(MOST_GAPS).map(|pair| (pair[0], pair[1])).collect()
}

fn some_gaps(random: &mut Random, size: u32) -> Gaps {
    match random.below(4) {
        0 => Gaps::new(),
        1 if size > 0 => vec![(0, size.into())],
        _ => {
            let count = random.pick(&[1, 2, 3, 10, 30, 64]);
            lawful_gaps(random, size.into(), count)
        }
    }
}

/// Gaps of one byte in every four, so that those of two saves are many together, of which some touch.
fn comb(random: &mut Random, size: u32) -> Gaps {
    let start = random.pick(&[0, 0, 1, 2, 2]);
    let count = random.within(20, MOST_GAPS) as u64;
    let gaps = (0..count).map(|gap| (start + 4 * gap, start + 4 * gap + 1));
    gaps.take_while(|(_, end)| *end <= size.into()).collect()
}

/// In some ranges what was there is missing, and what was missing is there. Most of them lie inside of a gap, as what arrives does.
fn other_gaps(random: &mut Random, size: u32, gaps: &Gaps) -> Gaps {
    if random.once_in(6) {
        return some_gaps(random, size);
    }
    let mut bounds: BTreeSet<u64> = gaps.iter().flat_map(|&(start, end)| [start, end]).collect();
    for _ in 0..random.pick(&[0, 1, 1, 2, 5, 40]) {
        let (low, high) = match gaps.len() {
            0 => (0, size.into()),
            _ if random.once_in(4) => (0, size.into()),
            count => gaps[random.below(count)],
        };
        for _ in 0..2 {
            let bound = low + random.next() % (high - low + 1);
            if !bounds.remove(&bound) {
                bounds.insert(bound);
            }
        }
    }
    gaps_between(&bounds)
}

/// What two windows make of something: neither, one or both change it, alike or not.
fn changed_by_two<T: Clone>(
    random: &mut Random,
    opened: &T,
    change: impl Fn(&mut Random, &T) -> T,
) -> [T; 2] {
    let unchanged = opened.clone();
    match random.below(10) {
        0..=2 => [unchanged.clone(), unchanged],
        3 | 4 => [change(random, opened), unchanged],
        5 | 6 => [unchanged, change(random, opened)],
        7 | 8 => {
            let changed = change(random, opened);
            [changed.clone(), changed]
        }
        _ => [change(random, opened), change(random, opened)],
    }
}

/// A file of a model of this size and two saves of it; the saves may conflict.
pub fn saves_of_size(random: &mut Random, size: u32) -> [PartPlan; 3] {
    let hash = std::array::from_fn(|_| random.byte());
    let (form, others) = (some_form(random, size), some_others(random, size));
    let (date, gaps) = (random.dword(), some_gaps(random, size));
    let forms = changed_by_two(random, &form, |random, form| other_form(random, size, form));
    let lists = changed_by_two(random, &others, |random, others| other_others(random, others));
    let are_combs = random.once_in(4);
    let mut save = |form, others| {
        let date = if random.once_in(3) { date } else { random.dword() };
        let gaps = if are_combs { comb(random, size) } else { other_gaps(random, size, &gaps) };
        PartPlan { form, date, hash, others, gaps }
    };
    let ([first_form, second_form], [first_list, second_list]) = (forms, lists);
    let (first, second) = (save(first_form, first_list), save(second_form, second_list));
    [PartPlan { form, date, hash, others, gaps }, first, second]
}

/// Sizes of models that can be gone through byte by byte.
const SMALL_SIZES: &[u32] = &[0, 1, 2, 5, 30, 31, 100, 130, 200, 300, 600, 1_000];

/// A file and two saves of it, all accepted by themselves. Some are of another model.
pub fn lawful_saves(random: &mut Random) -> [Vec<u8>; 3] {
    let size = random.pick(SMALL_SIZES);
    let mut plans = saves_of_size(random, size);
    if random.once_in(8) {
        let stranger = random.below(3);
        estrange(random, size, &mut plans[stranger]);
    }
    plans.map(|plan| plan.file(random))
}

/// Another hash, or a byte more.
fn estrange(random: &mut Random, size: u32, plan: &mut PartPlan) {
    if size == 0 || random.once_in(2) {
        plan.hash[random.below(16)] ^= 1 << random.below(8);
        return;
    }
    for tag in plan.others.iter_mut().filter(|tag| is_size(tag)) {
        *tag = size_tag(size + 1).1;
    }
}

/// [`lawful_saves`], some of which are damaged.
pub fn some_saves(random: &mut Random) -> [Vec<u8>; 3] {
    let files = lawful_saves(random);
    if !random.once_in(4) {
        return files;
    }
    files.map(|file| if random.once_in(2) { damaged(random, PART_MET, &file) } else { file })
}

/// What is stored, what was opened and what is to be saved: [`some_saves`], of which some are alike, and some are no part.met.
pub fn stored_opened_new(random: &mut Random) -> [Vec<u8>; 3] {
    let [opened, stored, new] = some_saves(random);
    match random.below(16) {
        0 | 1 => [opened.clone(), opened, new],
        2 => [Vec::new(), Vec::new(), new],
        3 => {
            let bytes = damaged(random, PART_MET, &opened);
            [bytes.clone(), bytes, new]
        }
        4 => [Vec::new(), opened, new],
        5 => [stored, Vec::new(), new],
        6 => [new.clone(), opened, new],
        7 => [stored, opened.clone(), opened],
        8 => [damaged(random, PART_MET, &opened), opened, new],
        _ => [stored, opened, new],
    }
}
