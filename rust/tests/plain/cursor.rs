//! The items: numbers, hashes, texts and names, each there (1) before it is checked.

use super::{Answer, List, NAME_CEILING, Refusal};

/// A run of bytes and its offset.
#[derive(Clone, Copy, Debug)]
pub struct Run<'a> {
    pub at: usize,
    pub bytes: &'a [u8],
}

impl Run<'_> {
    #[inline]
    pub fn numbers(self) -> [u64; 2] {
        [self.at as u64, self.bytes.len() as u64]
    }
}

/// What is left of the lent bytes.
#[derive(Clone, Copy)]
pub struct Cursor<'a> {
    rest: &'a [u8],
    length: usize,
}

impl<'a> Cursor<'a> {
    #[inline]
    pub fn new(bytes: &'a [u8]) -> Self {
        Cursor { rest: bytes, length: bytes.len() }
    }

    /// An offset beyond the end leaves nothing.
    #[inline]
    pub fn at_offset(bytes: &'a [u8], at: usize) -> Self {
        Cursor { rest: bytes.get(at..).unwrap_or_default(), length: bytes.len() }
    }

    #[inline]
    pub fn at(&self) -> usize {
        self.length - self.rest.len()
    }

    #[inline]
    pub fn left(&self) -> usize {
        self.rest.len()
    }

    #[inline]
    pub fn finish(&self) -> Answer<()> {
        if self.rest.is_empty() { Ok(()) } else { Err(Refusal::Rest) }
    }

    #[inline]
    fn chunk<const N: usize>(&mut self) -> Answer<&'a [u8; N]> {
        let (chunk, rest) = self.rest.split_first_chunk().ok_or(Refusal::Short)?;
        self.rest = rest;
        Ok(chunk)
    }

    #[inline]
    pub fn byte(&mut self) -> Answer<u8> {
        let &[byte] = self.chunk()?;
        Ok(byte)
    }

    #[inline]
    pub fn word(&mut self) -> Answer<u16> {
        self.chunk().copied().map(u16::from_le_bytes)
    }

    #[inline]
    pub fn dword(&mut self) -> Answer<u32> {
        self.chunk().copied().map(u32::from_le_bytes)
    }

    /// The offset of a HASH.
    #[inline]
    pub fn hash(&mut self) -> Answer<u64> {
        let at = self.at() as u64;
        self.chunk::<16>()?;
        Ok(at)
    }

    /// A byte for which there is one choice.
    #[inline]
    pub fn fixed(&mut self, choice: u8) -> Answer<()> {
        if self.byte()? == choice { Ok(()) } else { Err(Refusal::Choice) }
    }

    #[inline]
    pub fn run(&mut self, length: usize) -> Answer<Run<'a>> {
        let at = self.at();
        let (bytes, rest) = self.rest.split_at_checked(length).ok_or(Refusal::Short)?;
        self.rest = rest;
        Ok(Run { at, bytes })
    }

    #[inline]
    pub fn string(&mut self) -> Answer<Run<'a>> {
        let length = self.word()?;
        self.run(length.into())
    }

    /// The length is checked before the bytes are read.
    #[inline]
    pub fn name(&mut self) -> Answer<Run<'a>> {
        let length = usize::from(self.word()?);
        match length {
            0 => Err(Refusal::Choice),
            1..=NAME_CEILING => self.run(length),
            _ => Err(Refusal::Limit),
        }
    }

    /// As many entries of one width.
    #[inline]
    pub fn even_list(&mut self, count: u32, width: usize) -> Answer<List> {
        let run = self.run(count as usize * width)?;
        Ok(List { at: run.at, end: self.at(), count })
    }

    /// As many entries as counted, each read by itself.
    #[inline]
    pub fn list<T>(&mut self, count: u32, entry: impl Fn(&mut Self) -> Answer<T>) -> Answer<List> {
        let at = self.at();
        for _ in 0..count {
            entry(self)?;
        }
        Ok(List { at, end: self.at(), count })
    }
}
