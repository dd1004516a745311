//! Merging two saves: each file is read once, other tags are compared as runs of bytes between the
//! gap tags, the bounds of the gaps are swept, and the outcome is written once.

use super::part::{COUNTED_OPENING, Output, Pair, Part, pairs_bytes, read};
use super::{Answer, GAP_CEILING, MET_CEILING, Refusal};

/// A file that was read, and its gaps with the byte ranges of their tags.
pub(super) struct Read<'a> {
    file: &'a [u8],
    part: Part,
    pairs: [Pair; GAP_CEILING],
    count: usize,
    /// How many bytes the gap tags have.
    gap_bytes: usize,
}

impl<'a> Read<'a> {
    #[inline]
    pub fn new(file: &'a [u8]) -> Answer<Self> {
        let mut pairs = [Pair::default(); GAP_CEILING];
        let (mut count, mut gap_bytes) = (0, 0);
        let part = read(file, |index, pair| {
            count = index + 1;
            gap_bytes += pair.next - pair.at;
            if let Some(slot) = pairs.get_mut(index) {
                *slot = pair;
            }
        })?;
        Ok(Read { file, part, pairs, count, gap_bytes })
    }

    fn pairs(&self) -> &[Pair] {
        &self.pairs[..self.count]
    }

    fn hash(&self) -> &'a [u8] {
        &self.file[self.part.hash as usize..][..16]
    }

    /// The opening byte and the hash lists: an E0 has them before its tags, an E1 after them.
    fn form(&self) -> (u8, &'a [u8]) {
        let lists = match self.part.opening {
            COUNTED_OPENING => &self.file[21..self.part.tags.at - 4],
            _ => &self.file[self.part.tags.end..],
        };
        (self.part.opening, lists)
    }

    /// The bytes of the other tags, run by run. Gap tags that lie together part two runs.
    fn runs(&self) -> Runs<'a, '_> {
        let tags = &self.part.tags;
        Runs { file: self.file, at: tags.at, end: tags.end, pairs: self.pairs() }
    }

    fn other_bytes(&self) -> usize {
        self.part.tags.end - self.part.tags.at - self.gap_bytes
    }
}

struct Runs<'a, 'p> {
    file: &'a [u8],
    at: usize,
    end: usize,
    pairs: &'p [Pair],
}

impl<'a> Iterator for Runs<'a, '_> {
    type Item = &'a [u8];

    /// A run that is not empty.
    #[inline]
    fn next(&mut self) -> Option<&'a [u8]> {
        while let [pair, pairs @ ..] = self.pairs {
            let run = &self.file[self.at..pair.at];
            (self.at, self.pairs) = (pair.next, pairs);
            if !run.is_empty() {
                return Some(run);
            }
        }
        let run = &self.file[self.at..self.end];
        self.at = self.end;
        (!run.is_empty()).then_some(run)
    }
}

/// Lists of tags with the same bytes are the same lists.
fn same_others(one: &Read, other: &Read) -> bool {
    if one.other_bytes() != other.other_bytes() {
        return false;
    }
    let (mut ones, mut others) = (one.runs(), other.runs());
    let (mut run, mut other_run): (&[u8], &[u8]) = (&[], &[]);
    loop {
        if run.is_empty() {
            match ones.next() {
                Some(next) => run = next,
                None => return true,
            }
        }
        if other_run.is_empty() {
            match others.next() {
                Some(next) => other_run = next,
                None => return true,
            }
        }
        let length = run.len().min(other_run.len());
        if run[..length] != other_run[..length] {
            return false;
        }
        (run, other_run) = (&run[length..], &other_run[length..]);
    }
}

/// The one that changed something, of which these are alike or not.
#[inline]
fn changed<'r, 'a>(
    opened: &'r Read<'a>,
    first: &'r Read<'a>,
    second: &'r Read<'a>,
    alike: impl Fn(&Read, &Read) -> bool,
) -> Answer<&'r Read<'a>> {
    if alike(first, second) || alike(second, opened) {
        Ok(first)
    } else if alike(first, opened) {
        Ok(second)
    } else {
        Err(Refusal::Conflict)
    }
}

/// The bounds of the gaps of a file, in order; none comes after them.
struct Bounds<'p> {
    pairs: &'p [Pair],
    inside: bool,
}

const NO_BOUND: u64 = u64::MAX;

impl Bounds<'_> {
    #[inline]
    fn next(&self) -> u64 {
        match self.pairs {
            [pair, ..] if self.inside => pair.end.into(),
            [pair, ..] => pair.start.into(),
            [] => NO_BOUND,
        }
    }

    /// Passes the next bound if it is here.
    #[inline]
    fn pass(&mut self, at: u64) {
        if self.next() == at {
            if self.inside {
                self.pairs = &self.pairs[1..];
            }
            self.inside = !self.inside;
        }
    }
}

/// The gaps of the outcome, at most as many as a file may have.
struct Merged {
    gaps: [(u32, u32); GAP_CEILING],
    count: usize,
}

fn merged_gaps(opened: &Read, first: &Read, second: &Read) -> Answer<Merged> {
    let bounds = |read| Bounds { pairs: Read::pairs(read), inside: false };
    let (mut opened, mut first, mut second) = (bounds(opened), bounds(first), bounds(second));
    let mut merged = Merged { gaps: [(0, 0); GAP_CEILING], count: 0 };
    let mut start = None;
    loop {
        let at = opened.next().min(first.next()).min(second.next());
        if at == NO_BOUND {
            return Ok(merged);
        }
        opened.pass(at);
        first.pass(at);
        second.pass(at);
        let (first, second) = (first.inside, second.inside);
        let missing = if opened.inside { first & second } else { first | second };
        match (start, missing) {
            (None, true) => start = Some(at as u32),
            (Some(from), false) => {
                let gap = merged.gaps.get_mut(merged.count).ok_or(Refusal::Limit)?;
                *gap = (from, at as u32);
                merged.count += 1;
                start = None;
            }
            _ => (),
        }
    }
}

pub fn merge(opened: &[u8], first: &[u8], second: &[u8], output: &mut [u8]) -> Answer<usize> {
    let opened = Read::new(opened)?;
    let first = Read::new(first)?;
    let second = Read::new(second)?;
    merge_read(&opened, &first, &second, output)
}

/// The merge of files that are accepted by themselves.
#[inline]
pub(super) fn merge_read(
    opened: &Read,
    first: &Read,
    second: &Read,
    output: &mut [u8],
) -> Answer<usize> {
    let of_one_model =
        |save: &Read| save.part.size == opened.part.size && save.hash() == opened.hash();
    if !of_one_model(first) || !of_one_model(second) {
        return Err(Refusal::Strangers);
    }
    let form = changed(opened, first, second, |one, other| one.form() == other.form())?;
    let tags = changed(opened, first, second, same_others)?;
    let merged = merged_gaps(opened, first, second)?;
    let date = first.part.date.max(second.part.date);
    put(form, date, tags, &merged.gaps[..merged.count], output)
}

fn put(
    form: &Read,
    date: u32,
    tags: &Read,
    gaps: &[(u32, u32)],
    output: &mut [u8],
) -> Answer<usize> {
    let (opening, lists) = form.form();
    let head: &[u8] = if opening == COUNTED_OPENING { &[opening] } else { &[opening, 2] };
    let length = head.len() + 24 + lists.len() + tags.other_bytes() + pairs_bytes(gaps.len());
    if length > MET_CEILING {
        return Err(Refusal::Limit);
    }
    let mut output = Output { rest: output.get_mut(..length).ok_or(Refusal::Room)? };
    output.put(head);
    output.put(&date.to_le_bytes());
    output.put(form.hash());
    if opening == COUNTED_OPENING {
        output.put(lists);
    }
    let count = tags.part.tags.count - 2 * tags.count as u32 + 2 * gaps.len() as u32;
    output.put(&count.to_le_bytes());
    tags.runs().for_each(|run| output.put(run));
    for (number, &(start, end)) in gaps.iter().enumerate() {
        output.put_pair(number, start, end);
    }
    if opening != COUNTED_OPENING {
        output.put(lists);
    }
    Ok(length)
}
