//! Sets of bytes: what one position accepts. A plain list of 256 answers, and the sets that the
//! escapes `\d \w \s \h \v` and their capitals name.

use std::rc::Rc;

/// One answer for each byte value.
#[derive(Clone, PartialEq, Eq)]
pub struct ByteSet {
    answers: Rc<[bool; 256]>,
}

impl ByteSet {
    /// The set of the bytes for which `member` says yes.
    pub fn of(member: impl Fn(u8) -> bool) -> ByteSet {
        let mut answers = [false; 256];
        for byte in 0..=255u8 {
            answers[byte as usize] = member(byte);
        }
        ByteSet { answers: Rc::new(answers) }
    }

    pub fn none() -> ByteSet {
        ByteSet::of(|_| false)
    }

    pub fn all() -> ByteSet {
        ByteSet::of(|_| true)
    }

    pub fn one(byte: u8) -> ByteSet {
        ByteSet::of(|b| b == byte)
    }

    /// Any byte but the newline, 10.
    pub fn not_newline() -> ByteSet {
        ByteSet::of(|b| b != 10)
    }

    pub fn has(&self, byte: u8) -> bool {
        self.answers[byte as usize]
    }

    pub fn union(&self, other: &ByteSet) -> ByteSet {
        ByteSet::of(|b| self.has(b) || other.has(b))
    }

    pub fn complement(&self) -> ByteSet {
        ByteSet::of(|b| !self.has(b))
    }

    /// Each member joined by its other case. Letters with case are ASCII only.
    pub fn with_other_case(&self) -> ByteSet {
        ByteSet::of(|b| {
            self.has(b) || self.has(b.to_ascii_lowercase()) || self.has(b.to_ascii_uppercase())
        })
    }

    /// The members in rising order.
    pub fn members(&self) -> Vec<u8> {
        (0..=255).filter(|&b| self.has(b)).collect()
    }
}

impl std::fmt::Debug for ByteSet {
    fn fmt(&self, f: &mut std::fmt::Formatter<'_>) -> std::fmt::Result {
        write!(f, "{:?}", self.members())
    }
}

/// What `\w` takes.
pub fn is_word(byte: u8) -> bool {
    byte.is_ascii_alphanumeric() || byte == b'_'
}

/// The set that a type escape names by its letter; none for any other letter.
pub fn type_named(letter: u8) -> Option<ByteSet> {
    let plain = match letter.to_ascii_lowercase() {
        b'd' => ByteSet::of(|b| (48..=57).contains(&b)),
        b'w' => ByteSet::of(is_word),
        b's' => ByteSet::of(|b| (9..=13).contains(&b) || b == 32),
        b'h' => ByteSet::of(|b| b == 9 || b == 32 || b == 160),
        b'v' => ByteSet::of(|b| (10..=13).contains(&b) || b == 133),
        _ => return None,
    };
    Some(if letter.is_ascii_uppercase() { plain.complement() } else { plain })
}
