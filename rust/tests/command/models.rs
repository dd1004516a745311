//! Models for the tests of saves that are merged.

use crate::packets;
use crate::studio::Studio;

/// How many bytes the model of these tests has, unless a test changes it.
pub const SIZE: u32 = 40;

/// A part.met by what a merge treats by itself. A hash is given by the byte that it is full of.
#[derive(Clone)]
pub struct Model {
    pub opening: u8,
    pub date: u32,
    pub hash: u8,
    pub parts: Vec<u8>,
    pub blocks: Vec<u8>,
    pub tags: Vec<Vec<u8>>,
    pub gaps: Vec<(u32, u32)>,
}

impl Model {
    /// The opened file, of which nothing has arrived, with some change.
    pub fn with(change: impl FnOnce(&mut Model)) -> Model {
        let tags = vec![
            packets::text_tag(&[0x01], b"left last.stl"),
            packets::dword_tag(&[0x02], SIZE),
            packets::dword_tag(&[0x13], 5),
        ];
        let (opening, date, hash) = (0xE0, 1_253_225_404, 0xA0);
        let mut model =
            Model { opening, date, hash, parts: vec![], blocks: vec![], tags, gaps: vec![(0, SIZE)] };
        change(&mut model);
        model
    }

    pub fn with_gaps(gaps: &[(u32, u32)]) -> Model {
        Model::with(|model| model.gaps = gaps.to_vec())
    }

    pub fn bytes(&self) -> Vec<u8> {
        let gap_tags = packets::model_tags(SIZE, &self.gaps).split_off(2);
        let tags = packets::list(&[self.tags.clone(), gap_tags].concat());
        let hashes =
            |bytes: &[u8], length: usize| bytes.iter().flat_map(|byte| vec![*byte; length]).collect();
        let (parts, blocks): (Vec<u8>, Vec<u8>) = (hashes(&self.parts, 16), hashes(&self.blocks, 8));
        let date_and_hash = [packets::dword(self.date), vec![self.hash; 16]].concat();
        if self.opening == 0xE0 {
            let count = packets::word(self.parts.len() as u16);
            return [vec![0xE0], date_and_hash, count, parts, tags].concat();
        }
        let block = |hashes: Vec<u8>| if hashes.is_empty() { vec![] } else { [vec![1], hashes].concat() };
        [vec![0xE1, 0x02], date_and_hash, tags, block(parts), block(blocks), vec![0]].concat()
    }
}

/// A folder with these models by these names.
pub fn folder(names: [&str; 3], models: [&Model; 3]) -> Studio {
    let studio = Studio::new();
    for (name, model) in names.into_iter().zip(models) {
        studio.file(name, &model.bytes());
    }
    studio
}

/// The opened file, and two saves of it, each with another range.
pub fn toe_and_heel() -> [Model; 3] {
    [[(0, 40)], [(10, 40)], [(0, 30)]].map(|gaps| Model::with_gaps(&gaps))
}

/// What they make: the bytes from 10 up to 30 are missing.
pub fn merged() -> Vec<u8> {
    Model::with_gaps(&[(10, 30)]).bytes()
}
