//! The inputs of the program `test_vectors`.

/// The kind and the bytes of each: a letter, a DWORD length and the bytes, one after another.
pub fn vector_inputs(mut run: &[u8]) -> Vec<(u8, &[u8])> {
    let mut inputs = Vec::new();
    while let [letter, a, b, c, d, rest @ ..] = run {
        let kind = b"scukvp".iter().position(|known| known == letter).expect("a letter");
        let (bytes, after) = rest.split_at(u32::from_le_bytes([*a, *b, *c, *d]) as usize);
        inputs.push((kind as u8, bytes));
        run = after;
    }
    inputs
}
