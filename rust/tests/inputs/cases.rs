//! Answers of an independent reading.

/// What a call answers to three files in so much room.
pub struct Case {
    /// The line that it stands in.
    pub line: usize,
    pub number: u8,
    pub room: usize,
    pub files: [Vec<u8>; 3],
    pub output: Vec<u8>,
}

/// A line is the number, the room, the three files and the output, in hex; `-` is nothing.
pub fn cases(lines: &str) -> impl Iterator<Item = Case> {
    lines.lines().zip(1..).map(|(columns, line)| {
        let columns: [&str; 6] = columns.split(' ').collect::<Vec<_>>().try_into().expect("six columns");
        let [number, room, files @ .., output] = columns;
        let (number, room) = (number.parse().expect("a number"), room.parse().expect("a room"));
        Case { line, number, room, files: files.map(bytes), output: bytes(output) }
    })
}

/// Why a packet is refused: nothing but the bytes if it is not.
pub struct ReasonCase {
    /// The line that it stands in.
    pub line: usize,
    /// The number of its link's kind.
    pub link: u8,
    pub bytes: Vec<u8>,
    /// The number, the offset of the item and the name of the rule.
    pub reason: Option<(u8, usize, String)>,
}

/// A line is the letter of the link, the number, the offset, the rule and the packet in hex; `-` is nothing.
pub fn reason_cases(lines: &str) -> impl Iterator<Item = ReasonCase> {
    lines.lines().zip(1..).map(|(columns, line)| {
        let columns: [&str; 5] = columns.split(' ').collect::<Vec<_>>().try_into().expect("five columns");
        let [letter, number, offset, rule, packet] = columns;
        let link = ["s", "c", "u"].iter().position(|known| *known == letter).expect("a link") as u8;
        let reason = (columns[1..4] != ["0", "-", "accepted"]).then(|| {
            let (number, offset) = (number.parse().expect("a number"), offset.parse().expect("an offset"));
            (number, offset, rule.to_string())
        });
        ReasonCase { line, link, bytes: bytes(packet), reason }
    })
}

fn bytes(hex: &str) -> Vec<u8> {
    let digits = hex.trim_matches('-').as_bytes().chunks(2);
    digits.map(|byte| u8::from_str_radix(str::from_utf8(byte).expect("ASCII"), 16).expect("hex")).collect()
}
