//! Users and groups by number and name.

use std::fs;

/// The user of a process, if the system says.
pub(super) fn of_process(process: u32) -> Option<u32> {
    let status = fs::read_to_string(format!("/proc/{process}/status")).ok()?;
    let numbers = status.lines().find_map(|line| line.strip_prefix("Uid:"))?;
    // The real user, then the one whose rights count.
    numbers.split_whitespace().nth(1)?.parse().ok()
}

/// A user's name if this machine lists it, else the number.
pub(super) fn user(number: u32) -> String {
    name("/etc/passwd", number)
}

/// A group's name if this machine lists it, else the number.
pub(super) fn group(number: u32) -> String {
    name("/etc/group", number)
}

/// The name with this number in a list of lines `name:password:number:..`.
fn name(list: &str, number: u32) -> String {
    let number = number.to_string();
    let lines = fs::read_to_string(list).unwrap_or_default();
    let named = lines.lines().find_map(|line| {
        let mut fields = line.split(':');
        let name = fields.next()?;
        (fields.nth(1) == Some(&number)).then(|| name.to_string())
    });
    named.unwrap_or(number)
}

#[cfg(test)]
mod tests {
    use super::*;

    #[test]
    fn what_the_machine_lists_has_a_name() {
        assert_eq!([user(0), group(0)], ["root", "root"]);
        assert_eq!([user(4_294_000_000), group(4_294_000_000)], ["4294000000", "4294000000"]);
    }
}
