//! Numbers, dates and texts as people read them.

use std::ffi::OsStr;
use std::fmt::Write;

/// 1234567 as 1,234,567.
pub fn grouped(number: u64) -> String {
    let digits = number.to_string();
    let mut grouped = String::new();
    for (index, digit) in digits.chars().enumerate() {
        if index > 0 && (digits.len() - index).is_multiple_of(3) {
            grouped.push(',');
        }
        grouped.push(digit);
    }
    grouped
}

/// The number that is written so, with or without its groups.
pub fn number(word: &str) -> Option<u64> {
    let number = word.replace(',', "").parse().ok()?;
    (!word.contains(',') || grouped(number) == word).then_some(number)
}

/// So many of something, by its word for one and for several.
pub fn count(number: usize, one: &str, several: &str) -> String {
    format!("{} {}", grouped(number as u64), if number == 1 { one } else { several })
}

/// A number of bytes, with a larger unit where one helps.
pub fn bytes(number: u64) -> String {
    let exact = format!("{} byte{}", grouped(number), if number == 1 { "" } else { "s" });
    let units = [(1u64 << 30, "GiB"), (1 << 20, "MiB"), (1 << 10, "KiB")];
    match units.into_iter().find(|(unit, _)| number >= *unit) {
        Some((unit, name)) => format!("{exact} ({:.1} {name})", number as f64 / unit as f64),
        None => exact,
    }
}

/// A part of a whole in per cent, with one digit. It says 0 and 100 of nothing and of all alone.
pub fn per_cent(part: u64, whole: u64) -> String {
    if part == 0 {
        return "0 %".into();
    }
    if part == whole {
        return "100 %".into();
    }
    let tenths = (u128::from(part) * 1000 + u128::from(whole) / 2) / u128::from(whole);
    match tenths {
        0 => "less than 0.1 %".into(),
        1000 => "more than 99.9 %".into(),
        _ => format!("{}.{} %", tenths / 10, tenths % 10),
    }
}

/// Seconds since the beginning of 1970 as a date.
pub fn date(seconds: u32) -> String {
    let (day, second) = (seconds / 86_400, seconds % 86_400);
    let (year, month, day) = civil(day);
    format!("{year}-{month:02}-{day:02} {:02}:{:02}:{:02} UTC", second / 3600, second / 60 % 60, second % 60)
}

/// Year, month and day of a day counted from the beginning of 1970. Years begin in March here, so that the odd day of a
/// leap year is the last one; 400 of them have 146,097 days.
fn civil(day: u32) -> (u32, u32, u32) {
    let since_era = day + 719_468;
    let (era, day) = (since_era / 146_097, since_era % 146_097);
    let year = (day - day / 1_460 + day / 36_524 - day / 146_096) / 365;
    let day = day - (365 * year + year / 4 - year / 100);
    let march = (5 * day + 2) / 153;
    let day = day - (153 * march + 2) / 5 + 1;
    let month = if march < 10 { march + 3 } else { march - 9 };
    (era * 400 + year + u32::from(month <= 2), month, day)
}

/// Bytes of a text. What is not UTF-8 and what cannot be printed is written as an escape, so that a name can neither break
/// a line nor command the terminal.
pub fn plain(text: &[u8]) -> String {
    let mut shown = String::new();
    for chunk in text.utf8_chunks() {
        for character in chunk.valid().chars() {
            match character {
                '\'' | '"' => shown.push(character),
                _ => shown.extend(character.escape_debug()),
            }
        }
        for byte in chunk.invalid() {
            let _ = write!(shown, "\\x{byte:02X}");
        }
    }
    shown
}

/// The same, in quotes.
pub fn quoted(text: &[u8]) -> String {
    format!("\"{}\"", plain(text).replace('"', "\\\""))
}

/// A file's name, in quotes.
pub fn file_name(name: &OsStr) -> String {
    format!("'{}'", plain(name.as_encoded_bytes()))
}

/// The names of files, each in quotes.
pub fn file_names(names: &[&OsStr]) -> String {
    let names: Vec<String> = names.iter().map(|name| file_name(name)).collect();
    names.join(" and ")
}

/// A file's name, in quotes, where `-` is standard input.
pub fn input_name(name: &OsStr) -> String {
    if name == "-" { "standard input".into() } else { file_name(name) }
}

/// Bytes as hexadecimal digits, two for each.
pub fn digits(bytes: &[u8]) -> String {
    bytes.iter().fold(String::new(), |mut digits, byte| {
        let _ = write!(digits, "{byte:02X}");
        digits
    })
}

/// Bytes as hexadecimal digits for people; of a long run the first ones.
pub fn hex(bytes: &[u8]) -> String {
    let (first, more) = beginning(bytes, 12);
    let digits: Vec<String> = first.iter().map(|byte| format!("{byte:02X}")).collect();
    format!("{}{more}", digits.join(" "))
}

/// Bytes that may or may not be a text, in quotes; of a long run the first ones.
pub fn quoted_beginning(bytes: &[u8]) -> String {
    let (first, more) = beginning(bytes, 32);
    format!("{}{more}", quoted(first))
}

/// At most so many bytes from the front, and a sign that there are more.
fn beginning(bytes: &[u8], most: usize) -> (&[u8], &'static str) {
    match bytes.get(..most) {
        Some(first) if bytes.len() > most => (first, " .."),
        _ => (bytes, ""),
    }
}

/// How many columns a line has at most.
const COLUMNS: usize = 80;

/// Words within 80 columns: the first line begins with `label`, the others with `hang` spaces. A word that is longer, as the
/// name of a file may be, stays whole.
pub fn wrapped(label: &str, words: &str, hang: usize) -> String {
    let mut lines = vec![label.to_string()];
    let mut fresh = true;
    for word in words.split(' ') {
        let line = lines.last_mut().expect("there is always a line");
        if !fresh && line.chars().count() + 1 + word.chars().count() > COLUMNS {
            lines.push(format!("{}{word}", " ".repeat(hang)));
        } else {
            line.push_str(if fresh { "" } else { " " });
            line.push_str(word);
        }
        fresh = false;
    }
    lines.join("\n")
}

/// The lines of a message to people, each wrapped. A line that begins with a space goes on with the one before.
pub fn message(lines: &str) -> String {
    lines.lines().map(|line| wrapped("", line, 2) + "\n").collect()
}

/// A line within 80 columns: what does not fit stands in lines below, after `hang` spaces. It is cut before a space where
/// one is far enough to the right, and no sign is lost: the pieces after the spaces make up the line.
pub fn folded(line: &str, hang: usize) -> String {
    let (first, mut rest) = line.split_at(cut(line, COLUMNS, hang));
    let mut lines = vec![first.to_string()];
    while !rest.is_empty() {
        let (piece, left) = rest.split_at(cut(rest, COLUMNS - hang, 0));
        lines.push(format!("{}{piece}", " ".repeat(hang)));
        rest = left;
    }
    lines.join("\n")
}

/// How many bytes of a text stand in a line of this room: all, or those before the last space after the column `least`, or
/// as many as the room has.
fn cut(text: &str, room: usize, least: usize) -> usize {
    let Some((full, _)) = text.char_indices().nth(room) else {
        return text.len();
    };
    let before_space = |at: &usize| text[*at..].starts_with(' ') && !text[..*at].ends_with(' ');
    let offsets = text.char_indices().map(|(at, _)| at).take(room + 1).skip(least + 1);
    offsets.filter(before_space).last().unwrap_or(full)
}

#[cfg(test)]
mod tests {
    use super::*;

    #[test]
    fn numbers_have_groups_and_units() {
        assert_eq!(grouped(0), "0");
        assert_eq!(grouped(999), "999");
        assert_eq!(grouped(4_294_967_295), "4,294,967,295");
        assert_eq!([number("4294967295"), number("4,294,967,295")], [Some(4_294_967_295); 2]);
        assert_eq!([number("4,29"), number(",429"), number("429,"), number("")], [None; 4]);
        assert_eq!(bytes(1), "1 byte");
        assert_eq!(bytes(1_023), "1,023 bytes");
        assert_eq!(bytes(9_728_000), "9,728,000 bytes (9.3 MiB)");
        assert_eq!(count(1, "entry", "entries"), "1 entry");
        assert_eq!(count(0, "entry", "entries"), "0 entries");
    }

    #[test]
    fn only_all_and_nothing_are_said_to_be_so() {
        assert_eq!(per_cent(0, 0), "0 %");
        assert_eq!(per_cent(1, 4_294_967_295), "less than 0.1 %");
        assert_eq!(per_cent(4_294_967_294, 4_294_967_295), "more than 99.9 %");
        assert_eq!(per_cent(80, 100), "80.0 %");
        assert_eq!(per_cent(100, 100), "100 %");
    }

    #[test]
    fn dates_are_those_of_the_calendar() {
        assert_eq!(date(0), "1970-01-01 00:00:00 UTC");
        assert_eq!(date(951_782_399), "2000-02-28 23:59:59 UTC");
        assert_eq!(date(951_782_400), "2000-02-29 00:00:00 UTC");
        assert_eq!(date(951_868_800), "2000-03-01 00:00:00 UTC");
        assert_eq!(date(1_253_225_404), "2009-09-17 22:10:04 UTC");
        assert_eq!(date(4_294_967_295), "2106-02-07 06:28:15 UTC");
    }

    #[test]
    fn texts_cannot_command_the_terminal() {
        assert_eq!(plain("größe".as_bytes()), "größe");
        assert_eq!(plain(b"a\x1b[2Jb\n\xff"), "a\\u{1b}[2Jb\\n\\xFF");
        assert_eq!(quoted(b"5\" heel"), "\"5\\\" heel\"");
    }

    #[test]
    fn wrapped_lines_have_at_most_80_columns() {
        let lines = wrapped("   5  ", &"word ".repeat(40), 6);
        assert!(lines.lines().all(|line| line.len() <= 80));
        assert!(lines.lines().skip(1).all(|line| line.starts_with("      ")));
        let name = "n".repeat(100);
        let printed = message(&format!("ed2k: '{name}' is gone\nso\n"));
        assert_eq!(printed, format!("ed2k:\n  '{name}'\n  is gone\nso\n"));
    }

    #[test]
    fn folded_lines_lose_no_sign() {
        let long =
            ["a".repeat(500), "größe ".repeat(50), " ".repeat(300), "x  y ".repeat(60), "short".into()];
        for (text, hang) in long.iter().flat_map(|text| [(text, 0), (text, 35), (text, 60)]) {
            let line = format!("{:hang$}{text}", "");
            let folded = folded(&line, hang);
            assert!(folded.lines().all(|line| line.chars().count() <= 80), "{folded}");
            let pieces: String = folded.lines().map(|line| &line[hang..]).collect();
            assert_eq!(pieces, *text);
        }
        assert_eq!(folded(&"word ".repeat(17), 4).lines().next(), Some(["word"; 16].join(" ").as_str()));
    }
}
