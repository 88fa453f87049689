//! A refused rule in words: the line of the rules file, a caret under the place, what the number
//! means, and where it can be told what was probably meant.

use watcher::{Error, Flags, Refusal, Table};

use crate::bytes;
use crate::rules::{self, Refused, MALFORMED};

/// So much of a line is shown on each side of the caret.
const BESIDE: usize = 60;

/// The file begins with these bytes in some editors, which the id cannot follow.
const BYTE_ORDER_MARK: &[u8] = b"\xEF\xBB\xBF";

/// Where a refusal points, in the line as it is shown, and what it says.
pub struct Told {
    /// What the number means.
    pub text: &'static str,
    /// The line, or the part of it around the caret.
    pub line: String,
    /// The caret's column in that line.
    pub caret: usize,
    /// What was probably meant, where that can be told.
    pub hint: Option<String>,
}

/// One of the refusals of these lines in words.
pub fn tell(lines: &[&[u8]], all: &[Refused], refused: Refused) -> Told {
    let line = lines.get(refused.line.wrapping_sub(1)).copied().unwrap_or_default();
    let at = caret(line, refused);
    let (line_shown, caret) = around(line, at);
    let text = Refusal::of(refused.number).map_or("an unknown refusal", |refusal| refusal.text);
    Told { text, line: line_shown, caret, hint: hint(lines, all, line, refused) }
}

/// What is wrong with the whole file, if that is why its lines are refused.
pub fn of_the_file(text: &[u8], refused: &[Refused]) -> Option<String> {
    let number = |number| refused.iter().any(|refused| refused.number == number);
    let mut found = vec![];
    if text.starts_with(BYTE_ORDER_MARK) && number(MALFORMED) {
        found.push(
            "It begins with a byte-order mark (bytes EF BB BF): save it as UTF-8 without one.",
        );
    }
    if text.starts_with(b"\xFF\xFE") || text.starts_with(b"\xFE\xFF") {
        found.push("It is in UTF-16: save it as UTF-8 without a byte-order mark.");
    }
    if text.windows(2).any(|pair| pair == b"\r\n") && (number(23) || number(MALFORMED)) {
        found.push(
            "Its lines end in CR LF, and the CR counts as the pattern's last byte: \
             save it with Unix line ends, or run sed -i 's/\\r$//' on it.",
        );
    }
    (!found.is_empty()).then(|| found.join("\n"))
}

/// Which byte of the line the refusal points at: the place in the pattern, or for the numbers that
/// have none the part of the line that they speak of.
fn caret(line: &[u8], refused: Refused) -> usize {
    let Some(parts) = rules::parts(line) else { return malformed(line).0 };
    let pattern = line.len() - parts.pattern.len();
    match refused.number {
        2 | 24 => line.iter().position(|&byte| byte == b' ').map_or(0, |space| space + 1),
        3 => 0,
        5 => pattern + parts.pattern.len().min(1024),
        _ => pattern + refused.place,
    }
}

/// The line as text, cut on both sides where it is long, and the caret's column.
fn around(line: &[u8], at: usize) -> (String, usize) {
    let at = at.min(line.len());
    let at = if at < line.len() { bytes::character(line, at).start } else { at };
    let from = at.saturating_sub(BESIDE);
    let to = line.len().min(at + BESIDE);
    let (from_mark, to_mark) =
        (if from > 0 { "…" } else { "" }, if to < line.len() { "…" } else { "" });
    let before = format!("{from_mark}{}", bytes::of_pattern(&line[from..at]));
    let text = format!("{before}{}{to_mark}", bytes::of_pattern(&line[at..to]));
    (text, bytes::width(&before))
}

/// Where a malformed line goes wrong, and why.
fn malformed(line: &[u8]) -> (usize, String) {
    let said = |text: &str| text.to_string();
    if line.is_empty() {
        return (0, said("The line is empty; remove it."));
    }
    if line.starts_with(b"#") || line.starts_with(b"//") {
        return (0, said("There are no comment lines; write (?#..) in a pattern."));
    }
    if line.starts_with(BYTE_ORDER_MARK) {
        return (0, said("A byte-order mark stands before the id."));
    }
    if let Some(here) = from_hyperscan(line) {
        return (0, format!("That is Hyperscan's way; here the line is: {here}"));
    }
    let mut from = 0;
    for what in ["id", "flags"] {
        let rest = &line[from..];
        let length = rest.iter().position(|&byte| byte == b' ').unwrap_or(rest.len());
        if let Some((at, why)) = bad_number(&rest[..length], what) {
            return (from + at, why);
        }
        from += length;
        if from == line.len() {
            let next = if what == "id" { "flags (0 for none)" } else { "the pattern" };
            return (from, format!("After the {what} come a space and {next}."));
        }
        from += 1;
    }
    (from, said("The line is not an id, a space, flags, a space, a pattern."))
}

/// The rule of a line as Hyperscan's tools have it, `ID:/pattern/flags`.
fn from_hyperscan(line: &[u8]) -> Option<String> {
    let colon = line.iter().position(|&byte| byte == b':')?;
    let id = rules::decimal(&line[..colon])?;
    let rest = line[colon + 1..].strip_prefix(b"/")?;
    let slash = rest.iter().rposition(|&byte| byte == b'/')?;
    let flag = |&letter: &u8| match letter {
        b'i' => Some(1),
        b's' => Some(2),
        b'm' => Some(4),
        b'H' => Some(8),
        _ => None,
    };
    let flags = rest[slash + 1..].iter().try_fold(0, |sum, letter| Some(sum | flag(letter)?))?;
    Some(format!("{id} {flags} {}", bytes::of_pattern(&rest[..slash])))
}

/// Where and why these bytes are no number for an id or flags.
fn bad_number(digits: &[u8], what: &str) -> Option<(usize, String)> {
    if digits.is_empty() {
        return Some((0, format!("The {what} should stand here: there is a space too many.")));
    }
    let wrong = digits.iter().position(|byte| !byte.is_ascii_digit());
    if let Some(at) = wrong {
        let why = match digits[at] {
            b'\t' => "One space parts id, flags and pattern, not a tab.".to_string(),
            b'\r' => "The line ends in CR LF.".to_string(),
            _ if what == "id" => "A line begins with an id and flags, as in: 7 0 slack".to_string(),
            _ => "After the id come the flags, a decimal number; 0 is none.".to_string(),
        };
        return Some((at, why));
    }
    let large = rules::decimal(digits).is_none();
    large.then(|| (0, format!("At most 10 digits and at most 4,294,967,295 for the {what}.")))
}

/// What was probably meant.
fn hint(lines: &[&[u8]], all: &[Refused], line: &[u8], refused: Refused) -> Option<String> {
    if refused.number == MALFORMED {
        return Some(malformed(line).1);
    }
    let parts = rules::parts(line)?;
    let rest = parts.pattern.get(refused.place..).unwrap_or_default();
    match refused.number {
        2 => Some(flags(parts.flags)),
        3 => {
            let first = (1..).zip(lines).find(|&(number, line)| {
                rules::parts(line).is_some_and(|other| other.id == parts.id)
                    && all.iter().all(|refused| refused.line != number)
            });
            first.map(|(number, _)| format!("Line {number} has the id {} already.", parts.id))
        }
        5 => Some(format!("It has {} bytes.", bytes::grouped(parts.pattern.len() as u64))),
        10 => Some(nothing_to_repeat(&parts.pattern[..refused.place.min(parts.pattern.len())])),
        14 => unsupported(rest).map(str::to_string),
        23 => raw_byte(parts.pattern, refused.place),
        24 => Some("Leave out 8 for every match with its start, or 256 for the first end.".into()),
        _ => None,
    }
}

/// The flags that the library does not know, with Hyperscan's names for its own.
fn flags(flags: u32) -> String {
    let name = |bit: u32| match bit {
        16 => " (allow empty)",
        32 => " (UTF-8)",
        64 => " (Unicode properties)",
        128 => " (prefilter)",
        512 => " (combination)",
        1024 => " (quiet)",
        _ => "",
    };
    let unknown = |bit: &u32| Table::new().add(0, Flags(*bit), b"a") == Err(Error::BadFlag);
    let set = (0..u32::BITS).map(|shift| 1 << shift).filter(|bit| flags & bit != 0);
    let found: Vec<String> = set.filter(unknown).map(|bit| format!("{bit}{}", name(bit))).collect();
    format!("There is no flag {}.", found.join(", "))
}

fn nothing_to_repeat(before: &[u8]) -> String {
    let after = match before.last() {
        None => "It stands at the start of the pattern.",
        Some(b'(' | b'|' | b':') => "It stands at the start of a group or branch.",
        Some(b'^' | b'$') => "It stands after an assertion.",
        Some(b'?' | b'*' | b'+' | b'}') => "It stands after another quantifier.",
        Some(_) => "There is nothing before it that can be repeated.",
    };
    format!("{after} Write \\ before it for the byte itself.")
}

/// What a construct outside the subset is called.
fn unsupported(rest: &[u8]) -> Option<&'static str> {
    let starts = |start: &str| rest.starts_with(start.as_bytes());
    if ["(?=", "(?!", "(?<=", "(?<!"].iter().any(|start| starts(start)) {
        return Some("Look-ahead and look-behind are not supported.");
    }
    if ["(?<", "(?P<", "(?'"].iter().any(|start| starts(start)) {
        return Some("Groups have no names: write (..).");
    }
    if starts("(?>") {
        return Some("Atomic groups are not supported: write (?:..).");
    }
    if starts("(*") {
        return Some("Verbs are not supported; for the byte itself write \\(.");
    }
    if starts("(?") {
        return Some("Options are i, s and m: (?i), (?s-m), (?i:..).");
    }
    if starts("[:") || starts("[.") || starts("[=") {
        return Some("There is no class of this name; for a bracket itself write \\[.");
    }
    match rest {
        [b'\\', b'1'..=b'9', ..] => Some("Back references are not supported; a byte is \\xNN."),
        [b'\\', b'p' | b'P', ..] => Some("Unicode properties are not supported."),
        [b'\\', b'u' | b'U', ..] => Some("A character is written as its bytes, \\xNN each."),
        [b'\\', b'A' | b'z' | b'Z' | b'B' | b'N', ..] => Some("It has no meaning in a class."),
        [b'\\', ..] => Some("There is no such escape."),
        [b'?' | b'*' | b'+' | b'{', ..] => Some("Possessive quantifiers are not supported."),
        _ => None,
    }
}

fn raw_byte(pattern: &[u8], place: usize) -> Option<String> {
    let raw = |byte: &&u8| **byte < 32 || **byte == 127;
    let byte = *pattern.get(place..)?.iter().find(raw)?;
    let (name, spelt) = match byte {
        9 => ("a tab", "\\t".to_string()),
        13 => ("a carriage return", "\\r".to_string()),
        27 => ("an escape", "\\e".to_string()),
        _ => ("a control byte", format!("\\x{byte:02X}")),
    };
    Some(format!("Byte {byte}, {name}: write {spelt}."))
}

#[cfg(test)]
mod tests {
    use super::*;

    /// The caret's column and the hint of the only refusal of these rules.
    fn told(text: &[u8]) -> (String, usize, String) {
        let refused = rules::add(text).refused;
        assert_eq!(refused.len(), 1, "{refused:?}");
        let told = tell(&rules::lines(text), &refused, refused[0]);
        (told.line, told.caret, told.hint.unwrap_or_default())
    }

    #[test]
    fn the_caret_stands_under_the_place() {
        assert_eq!(told(b"8 0 a**").1, 6);
        assert_eq!(told(b"8 0 (a").1, 6);
        assert_eq!(told(b"81 32 a").1, 3);
        assert_eq!(told(b"81 264 a").1, 3);
        assert_eq!(
            told("8 0 é\t".as_bytes()),
            ("8 0 é\\x09".into(), 5, "Byte 9, a tab: write \\t.".into())
        );
    }

    #[test]
    fn a_long_line_is_cut_on_both_sides() {
        let long = format!("8 0 {}**{}", "a".repeat(200), "b".repeat(200));
        let (line, caret, _) = told(long.as_bytes());
        assert_eq!((line.chars().count(), line.chars().nth(caret)), (122, Some('*')));
        assert!(line.starts_with('…') && line.ends_with('…'));
    }

    #[test]
    fn a_malformed_line_says_why() {
        let why = |text: &[u8]| (told(text).1, told(text).2);
        assert_eq!(why(b"1 a b").0, 2);
        assert_eq!(why(b"error").1, "A line begins with an id and flags, as in: 7 0 slack");
        assert_eq!(
            why(b"7:/a.*\\/b/is").1,
            "That is Hyperscan's way; here the line is: 7 3 a.*\\/b"
        );
        assert_eq!(why(b"1  a").0, 2);
        assert_eq!(why(b"1\t0 a"), (1, "One space parts id, flags and pattern, not a tab.".into()));
        assert_eq!(why(b"7 0"), (3, "After the flags come a space and the pattern.".into()));
        assert_eq!(why(b"# note").1, "There are no comment lines; write (?#..) in a pattern.");
        assert_eq!(why(b"4294967296 0 a").0, 0);
    }

    #[test]
    fn what_was_meant_is_named() {
        let hint = |pattern: &str| told(format!("1 0 {pattern}").as_bytes()).2;
        assert_eq!(hint("a(?=b)"), "Look-ahead and look-behind are not supported.");
        assert_eq!(hint("(?<year>a)"), "Groups have no names: write (..).");
        assert_eq!(hint("(a)\\1"), "Back references are not supported; a byte is \\xNN.");
        assert_eq!(hint("a++"), "Possessive quantifiers are not supported.");
        assert_eq!(told(b"1 33 a").2, "There is no flag 32 (UTF-8).");
        assert_eq!(told(b"1 2080 a").2, "There is no flag 32 (UTF-8), 2048.");
    }

    #[test]
    fn a_file_with_another_encoding_or_line_end_says_so() {
        let of = |text: &[u8]| of_the_file(text, &rules::add(text).refused).unwrap_or_default();
        assert!(of(b"1 0 a\r\n").contains("CR LF"));
        assert!(of(b"\xEF\xBB\xBF1 0 a\n").contains("byte-order mark"));
        assert!(of(b"\xFF\xFE1\0").contains("UTF-16"));
        assert_eq!(of(b"1 0 a\n2 0 a**\n"), "");
    }
}
