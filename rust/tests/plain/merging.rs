//! Merging two saves (02, No. 3), byte by byte over the size of the model: for small models.

use std::ops::Range;

use super::met::{END, PART_OPENING, START, is_gap_tag, part, write_gap_tag};
use super::tags::Tags;
use super::writers::write;
use super::{Answer, GAP_CEILING, MET_CEILING, Refusal, within};

/// A part.met by what a merge treats by itself.
struct Message {
    date: u32,
    hash: Vec<u8>,
    /// The opening byte, and all that is not date, hash and tags.
    form: (u8, Vec<u8>),
    /// The bytes of each tag that is no gap tag.
    others: Vec<Vec<u8>>,
    size: usize,
    gaps: Vec<Range<usize>>,
}

impl Message {
    fn read(file: &[u8]) -> Answer<Message> {
        let part = within(file, MET_CEILING, part)?;
        let hash = file[part.hash as usize..][..16].to_vec();
        let (before, after) = (&file[part.hash as usize + 16..part.tags.at - 4], &file[part.tags.end..]);
        let mut others = Vec::new();
        let mut tags = Tags::of(file, part.tags);
        let mut at = tags.at();
        while let Some(tag) = tags.next() {
            if !is_gap_tag(&tag) {
                others.push(file[at..tags.at()].to_vec());
            }
            at = tags.at();
        }
        let [size, count, bounds @ ..] = part.gaps.map(|number| number as usize);
        let gaps = bounds.chunks_exact(2).take(count).map(|gap| gap[0]..gap[1]).collect();
        let form = (part.opening, [before, after].concat());
        Ok(Message { date: part.date, hash, form, others, size, gaps })
    }

    /// Of each byte of the model, whether it is missing.
    fn missing(&self) -> Vec<bool> {
        let mut missing = vec![false; self.size];
        for gap in &self.gaps {
            missing[gap.clone()].fill(true);
        }
        missing
    }

    fn write(&self) -> Answer<Vec<u8>> {
        if self.gaps.len() > GAP_CEILING {
            return Err(Refusal::Limit);
        }
        let mut tags = ((self.others.len() + 2 * self.gaps.len()) as u32).to_le_bytes().to_vec();
        tags.extend(self.others.concat());
        for (number, gap) in self.gaps.iter().enumerate() {
            let mut put = |bytes: &[u8]| tags.extend(bytes);
            write_gap_tag(&mut put, START, number, gap.start as u32);
            write_gap_tag(&mut put, END, number, gap.end as u32);
        }
        let (opening, lists) = &self.form;
        let date = self.date.to_le_bytes();
        let bytes = match *opening {
            PART_OPENING => [&[PART_OPENING][..], &date, &self.hash, lists, &tags].concat(),
            other => [&[other, 2][..], &date, &self.hash, &tags, lists].concat(),
        };
        if bytes.len() > MET_CEILING { Err(Refusal::Limit) } else { Ok(bytes) }
    }
}

/// The runs of missing bytes.
fn runs(missing: &[bool]) -> Vec<Range<usize>> {
    let mut end = 0;
    let mut runs = Vec::new();
    for run in missing.chunk_by(|one, next| one == next) {
        let start = end;
        end += run.len();
        if run[0] {
            runs.push(start..end);
        }
    }
    runs
}

/// The changed one, if there is one.
fn three_way<T: Clone + PartialEq>(opened: &T, first: &T, second: &T) -> Answer<T> {
    match (first != opened, second != opened) {
        (true, true) if first != second => Err(Refusal::Conflict),
        (true, _) => Ok(first.clone()),
        (false, _) => Ok(second.clone()),
    }
}

pub fn merge(opened: &[u8], first: &[u8], second: &[u8], output: &mut [u8]) -> Answer<usize> {
    let opened = Message::read(opened)?;
    let first = Message::read(first)?;
    let second = Message::read(second)?;
    for save in [&first, &second] {
        if save.hash != opened.hash || save.size != opened.size {
            return Err(Refusal::Strangers);
        }
    }
    let form = three_way(&opened.form, &first.form, &second.form)?;
    let others = three_way(&opened.others, &first.others, &second.others)?;
    let saves = first.missing().into_iter().zip(second.missing());
    let missing = opened
        .missing()
        .into_iter()
        .zip(saves)
        .map(|(opened, (first, second))| if opened { first && second } else { first || second });
    let gaps = runs(&missing.collect::<Vec<bool>>());
    let date = first.date.max(second.date);
    let merged = Message { date, hash: opened.hash, form, others, size: opened.size, gaps };
    write(&[&merged.write()?], output)
}
