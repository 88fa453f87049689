//! Bytes as text on a terminal or a page: what can be seen stands as it is, all else as `\xNN`.

/// Where the tab stops are.
const TAB: usize = 8;

/// The bytes of a pattern: a tab is `\x09`, since it matters which byte it is.
pub fn of_pattern(bytes: &[u8]) -> String {
    let mut text = String::new();
    for chunk in bytes.utf8_chunks() {
        chunk.valid().chars().for_each(|c| push(&mut text, c));
        chunk.invalid().iter().for_each(|&byte| push_byte(&mut text, byte));
    }
    text
}

/// The bytes of a log that begin at a column: a tab reaches to the next tab stop.
pub fn of_log(bytes: &[u8], column: usize) -> String {
    let mut text = String::new();
    for (number, part) in bytes.split(|&byte| byte == b'\t').enumerate() {
        if number > 0 {
            let at = column + width(&text);
            text.push_str(&" ".repeat(TAB - at % TAB));
        }
        text.push_str(&of_pattern(part));
    }
    text
}

fn push(text: &mut String, c: char) {
    if c.is_control() || is_hidden(c) {
        let mut buffer = [0; 4];
        c.encode_utf8(&mut buffer).bytes().for_each(|byte| push_byte(text, byte));
    } else {
        text.push(c);
    }
}

fn push_byte(text: &mut String, byte: u8) {
    text.push_str(&format!("\\x{byte:02X}"));
}

/// Characters without a look of their own, or that turn the direction of what follows.
fn is_hidden(c: char) -> bool {
    matches!(c, '\u{AD}' | '\u{200B}'..='\u{200F}' | '\u{2028}'..='\u{202E}')
        || matches!(c, '\u{2060}'..='\u{206F}' | '\u{FEFF}' | '\u{FFF9}'..='\u{FFFB}')
}

/// How many columns a text takes: two for the wide characters of East Asia and pictures, none for
/// marks that stand over the one before.
pub fn width(text: &str) -> usize {
    text.chars().map(columns).sum()
}

fn columns(c: char) -> usize {
    match c {
        '\u{300}'..='\u{36F}' => 0,
        '\u{1100}'..='\u{115F}' | '\u{2E80}'..='\u{A4CF}' | '\u{AC00}'..='\u{D7A3}' => 2,
        '\u{F900}'..='\u{FAFF}' | '\u{FE30}'..='\u{FE6F}' | '\u{FF00}'..='\u{FF60}' => 2,
        '\u{1F300}'..='\u{1FAFF}' | '\u{20000}'..='\u{3FFFD}' => 2,
        _ => 1,
    }
}

/// The bytes of the character that byte `at` belongs to: that byte alone unless it is UTF-8.
pub fn character(bytes: &[u8], at: usize) -> std::ops::Range<usize> {
    for from in (at.saturating_sub(3)..=at).rev() {
        for to in at + 1..=bytes.len().min(from + 4) {
            let one = std::str::from_utf8(&bytes[from..to]).is_ok_and(|s| s.chars().count() == 1);
            if one {
                return from..to;
            }
        }
    }
    at..at + 1
}

/// A number with a comma between each three digits.
pub fn grouped(number: u64) -> String {
    let digits = number.to_string();
    let mut text = String::new();
    for (index, digit) in digits.chars().enumerate() {
        if index > 0 && (digits.len() - index) % 3 == 0 {
            text.push(',');
        }
        text.push(digit);
    }
    text
}

/// How many of a thing: `1 hit`, `2 hits`.
pub fn counted(number: u64, thing: &str) -> String {
    let ending = if number == 1 { "" } else { "s" };
    format!("{} {thing}{ending}", grouped(number))
}

#[cfg(test)]
mod tests {
    use super::*;

    #[test]
    fn what_cannot_be_seen_is_spelt() {
        assert_eq!(of_pattern(b"a\tb\x7f\xff\xc3\xa9\r"), "a\\x09b\\x7F\\xFFé\\x0D");
        assert_eq!(of_pattern("\u{202E}x".as_bytes()), "\\xE2\\x80\\xAEx");
        assert_eq!(of_log(b"ab\tc\t\td", 0), "ab      c               d");
        assert_eq!(of_log(b"\tc", 7), " c");
    }

    #[test]
    fn a_byte_within_a_character_is_that_character() {
        let bytes = "aé€b".as_bytes();
        let found: Vec<_> = (0..bytes.len()).map(|at| character(bytes, at)).collect();
        assert_eq!(found, [0..1, 1..3, 1..3, 3..6, 3..6, 3..6, 6..7]);
        assert_eq!(character(b"\xff\x80", 1), 1..2);
    }

    #[test]
    fn numbers_are_grouped() {
        assert_eq!(grouped(7), "7");
        assert_eq!(grouped(87_037), "87,037");
        assert_eq!(grouped(1_099_511_627_775), "1,099,511,627,775");
        assert_eq!(counted(1, "hit"), "1 hit");
    }
}
