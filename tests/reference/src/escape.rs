//! Escapes. Comes in: a pattern and the index of a `\`. Goes out: what the escape stands for and
//! where it ends, or the number of its fault. Whether it stands in a class matters for `\b`, `\B`,
//! `\N`, `\A`, `\Z` and `\z` only. `\Q` and `\E` are passed over before a token is read, and never
//! come here.

use crate::braces;
use crate::bytes::{type_named, ByteSet};
use crate::tree::Assertion;

#[derive(Clone, Debug)]
pub enum Escaped {
    Byte(u8),
    Type(ByteSet),
    NotNewline,
    Assertion(Assertion),
}

/// An escape read: its meaning or the number of its fault, and the index after it. An escape with
/// fault 6 is unfinished; it is taken to reach the pattern's end.
pub struct Escape {
    pub meaning: Result<Escaped, u32>,
    pub end: usize,
}

pub fn read(pattern: &[u8], at: usize, in_class: bool) -> Escape {
    let Some(&letter) = pattern.get(at + 1) else {
        return unfinished(pattern);
    };
    let two = |meaning| Escape { meaning, end: at + 2 };
    if !letter.is_ascii_alphanumeric() {
        return two(Ok(Escaped::Byte(letter)));
    }
    if let Some(set) = type_named(letter) {
        return two(Ok(Escaped::Type(set)));
    }
    match letter {
        b'a' => two(Ok(Escaped::Byte(7))),
        b'e' => two(Ok(Escaped::Byte(27))),
        b'f' => two(Ok(Escaped::Byte(12))),
        b'n' => two(Ok(Escaped::Byte(10))),
        b'r' => two(Ok(Escaped::Byte(13))),
        b't' => two(Ok(Escaped::Byte(9))),
        b'0' => few_digits(pattern, at + 2, 8),
        b'x' if pattern.get(at + 2) != Some(&b'{') => few_digits(pattern, at + 2, 16),
        b'x' => in_braces(pattern, at + 2, 16),
        b'o' => in_braces(pattern, at + 2, 8),
        b'c' => control(pattern, at),
        b'b' if in_class => two(Ok(Escaped::Byte(8))),
        b'N' if !in_class => two(Ok(Escaped::NotNewline)),
        b'A' if !in_class => two(Ok(Escaped::Assertion(Assertion::Start))),
        b'Z' if !in_class => two(Ok(Escaped::Assertion(Assertion::LastLine))),
        b'z' if !in_class => two(Ok(Escaped::Assertion(Assertion::End))),
        b'b' => two(Ok(Escaped::Assertion(Assertion::WordEdge))),
        b'B' if !in_class => two(Ok(Escaped::Assertion(Assertion::NoWordEdge))),
        _ => two(Err(14)),
    }
}

fn unfinished(pattern: &[u8]) -> Escape {
    Escape { meaning: Err(6), end: pattern.len() }
}

/// The value of an ASCII digit in a base, if it is one.
fn digit(byte: u8, base: u32) -> Option<u32> {
    (byte as char).to_digit(base)
}

/// Up to two digits from `at` on; none gives 0. Two hex digits reach 255, two octal ones 63.
fn few_digits(pattern: &[u8], at: usize, base: u32) -> Escape {
    let mut value = 0;
    let mut end = at;
    while end < pattern.len() && end < at + 2 {
        let Some(d) = digit(pattern[end], base) else { break };
        value = value * base + d;
        end += 1;
    }
    Escape { meaning: Ok(Escaped::Byte(value as u8)), end }
}

/// `{`, one or more digits, `}` from `at` on, or fault 6; a value over 255 is fault 7.
fn in_braces(pattern: &[u8], at: usize, base: u32) -> Escape {
    if pattern.get(at) != Some(&b'{') {
        return unfinished(pattern);
    }
    match braces::number(pattern, at + 1, base, 256) {
        (Some(value), end) if pattern.get(end) == Some(&b'}') => {
            Escape { meaning: u8::try_from(value).map(Escaped::Byte).map_err(|_| 7), end: end + 1 }
        }
        _ => unfinished(pattern),
    }
}

/// `\c` and a byte from 32 to 126, raised to upper case, its 64 bit flipped.
fn control(pattern: &[u8], at: usize) -> Escape {
    match pattern.get(at + 2) {
        Some(&b) if (32..=126).contains(&b) => {
            Escape { meaning: Ok(Escaped::Byte(b.to_ascii_uppercase() ^ 64)), end: at + 3 }
        }
        _ => unfinished(pattern),
    }
}
