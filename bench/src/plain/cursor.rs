//! The items: each is there (1) before it is checked.

use super::tags::skip_tags;
use super::{Answer, Refusal};

/// Entries that are encoded from `at` up to `end`.
#[derive(Clone, Copy, Default)]
pub struct List {
    pub at: usize,
    pub end: usize,
    pub count: u32,
}

impl List {
    pub fn numbers(self) -> [u64; 3] {
        [self.at as u64, self.end as u64, self.count.into()]
    }
}

/// What is left of the lent bytes.
pub struct Cursor<'a> {
    rest: &'a [u8],
    length: usize,
}

impl<'a> Cursor<'a> {
    #[inline]
    pub fn new(bytes: &'a [u8]) -> Self {
        Cursor { rest: bytes, length: bytes.len() }
    }

    #[inline]
    pub fn at(&self) -> usize {
        self.length - self.rest.len()
    }

    #[inline]
    pub fn rest(&self) -> &'a [u8] {
        self.rest
    }

    #[inline]
    pub fn go_to(&mut self, rest: &'a [u8]) {
        self.rest = rest;
    }

    #[inline]
    pub fn finish(&self) -> Answer<()> {
        if self.rest.is_empty() { Ok(()) } else { Err(Refusal::Rest) }
    }

    #[inline]
    pub fn chunk<const N: usize>(&mut self) -> Answer<&'a [u8; N]> {
        let (chunk, rest) = self.rest.split_first_chunk().ok_or(Refusal::Short)?;
        self.rest = rest;
        Ok(chunk)
    }

    #[inline]
    pub fn byte(&mut self) -> Answer<u8> {
        self.chunk().map(|&[byte]| byte)
    }

    #[inline]
    pub fn word(&mut self) -> Answer<u16> {
        self.chunk().copied().map(u16::from_le_bytes)
    }

    #[inline]
    pub fn dword(&mut self) -> Answer<u32> {
        self.chunk().copied().map(u32::from_le_bytes)
    }

    /// The offset of a HASH.
    #[inline]
    pub fn hash(&mut self) -> Answer<u64> {
        let at = self.at() as u64;
        self.chunk::<16>()?;
        Ok(at)
    }

    /// A byte for which there is one choice.
    #[inline]
    pub fn fixed(&mut self, choice: u8) -> Answer<()> {
        if self.byte()? == choice { Ok(()) } else { Err(Refusal::Choice) }
    }

    #[inline]
    pub fn run(&mut self, length: usize) -> Answer<&'a [u8]> {
        let (run, rest) = self.rest.split_at_checked(length).ok_or(Refusal::Short)?;
        self.rest = rest;
        Ok(run)
    }

    #[inline]
    pub fn string(&mut self) -> Answer<&'a [u8]> {
        let length = self.word()?;
        self.run(length.into())
    }

    /// The length is checked before the bytes are read.
    #[inline]
    pub fn name(&mut self) -> Answer<&'a [u8]> {
        match self.word()? {
            0 => Err(Refusal::Choice),
            length @ 1..=255 => self.run(length.into()),
            _ => Err(Refusal::Limit),
        }
    }

    /// As many entries of one width.
    #[inline]
    pub fn even_list(&mut self, count: u32, width: usize) -> Answer<List> {
        let at = self.at();
        self.run(count as usize * width)?;
        Ok(List { at, end: self.at(), count })
    }

    /// As many entries, each skipped by itself.
    #[inline]
    pub fn list(&mut self, count: u32, skip: impl Fn(&mut Self) -> Answer<()>) -> Answer<List> {
        let at = self.at();
        for _ in 0..count {
            skip(self)?;
        }
        Ok(List { at, end: self.at(), count })
    }

    #[inline]
    pub fn tags(&mut self) -> Answer<List> {
        let count = self.dword()?;
        let at = self.at();
        self.rest = skip_tags(self.rest, count)?;
        Ok(List { at, end: self.at(), count })
    }
}
