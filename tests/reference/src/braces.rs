//! Numbers between braces, for quantifiers and for `\x{..}` and `\o{..}`. Comes in: a pattern and an
//! index. Goes out: the number that stands there, if one does, and the index after it.
//!
//! Spaces and tabs before and after the digits are passed over. Between a number's neighbours `{`,
//! `,` and `}` that is after the brace, before the brace and around the comma. Between two digits it
//! is the number's end, so that the caller finds a digit where a comma or a brace should be.

/// A space or a tab, and no other byte.
fn is_blank(byte: u8) -> bool {
    byte == b' ' || byte == b'\t'
}

/// The index of the first byte from `at` on that is no blank.
fn after_blanks(pattern: &[u8], at: usize) -> usize {
    let rest = pattern.get(at..).unwrap_or_default();
    at + rest.iter().take_while(|&&byte| is_blank(byte)).count()
}

/// Blanks, digits of the base, blanks; none if there is no digit. The value is held at `held`, so
/// that any number of digits can be read.
pub fn number(pattern: &[u8], at: usize, base: u32, held: u32) -> (Option<u32>, usize) {
    let first = after_blanks(pattern, at);
    let mut value = 0;
    let mut end = first;
    while let Some(digit) = pattern.get(end).and_then(|&b| char::from(b).to_digit(base)) {
        value = (value * base + digit).min(held);
        end += 1;
    }
    ((end > first).then_some(value), after_blanks(pattern, end))
}
