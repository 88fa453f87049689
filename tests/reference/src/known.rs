//! What is known of a stream at a moment. After m bytes: those m bytes, and nothing of what
//! follows, so not that the end is there either. At closing: all bytes, and that they end there; so
//! which newline is the last byte is known at closing alone.
//!
//! An assertion is known to hold at a gap when what it looks at is known and as it asks. What looks
//! at the byte after the gap waits until that byte is known, or the end.

use crate::bytes::{self, ByteSet};
use crate::tree::Assertion;

/// What stands on one side of a gap.
#[derive(Clone, Copy, PartialEq, Eq)]
enum Side {
    Byte(u8),
    /// The stream's start or end.
    Edge,
    Unknown,
}

#[derive(Clone, Copy)]
pub struct Known<'a> {
    /// The offset of the first byte below. 0, but for a state whose total was set by hand.
    pub base: u64,
    /// The byte before the ones below, if there is one.
    pub before: u8,
    pub bytes: &'a [u8],
    /// Is it known that the stream ends after these bytes?
    pub end: bool,
}

impl<'a> Known<'a> {
    /// The moment when these bytes, the stream's first, were just taken.
    pub fn after(bytes: &'a [u8]) -> Known<'a> {
        Known { base: 0, before: 0, bytes, end: false }
    }

    /// The closing of the stream of these bytes.
    pub fn at_closing(bytes: &'a [u8]) -> Known<'a> {
        Known { base: 0, before: 0, bytes, end: true }
    }

    /// Is the byte after this gap known and in the set?
    pub fn byte_in(&self, gap: usize, set: &ByteSet) -> bool {
        self.bytes.get(gap).is_some_and(|&byte| set.has(byte))
    }

    /// Is it known that the assertion holds at this gap?
    pub fn holds(&self, assertion: Assertion, gap: usize) -> bool {
        let (previous, next) = (self.previous(gap), self.next(gap));
        match assertion {
            Assertion::Start => previous == Side::Edge,
            Assertion::LastLine => self.end && self.last_line_ends(gap),
            Assertion::End => next == Side::Edge,
            Assertion::LineStart => {
                let after_newline = previous == Side::Byte(b'\n');
                previous == Side::Edge || (after_newline && matches!(next, Side::Byte(_)))
            }
            Assertion::LineEnd => next == Side::Edge || next == Side::Byte(b'\n'),
            Assertion::WordEdge => next != Side::Unknown && is_word(previous) != is_word(next),
            Assertion::NoWordEdge => next != Side::Unknown && is_word(previous) == is_word(next),
        }
    }

    fn previous(&self, gap: usize) -> Side {
        match gap.checked_sub(1) {
            Some(last) => Side::Byte(self.bytes[last]),
            None if self.base == 0 => Side::Edge,
            None => Side::Byte(self.before),
        }
    }

    fn next(&self, gap: usize) -> Side {
        match self.bytes.get(gap) {
            Some(&byte) => Side::Byte(byte),
            None if self.end => Side::Edge,
            None => Side::Unknown,
        }
    }

    /// Is nothing known after this gap, or a newline alone?
    fn last_line_ends(&self, gap: usize) -> bool {
        self.bytes.get(gap..).is_some_and(|rest| rest.is_empty() || rest == b"\n")
    }
}

/// Both ends of the stream count as not a word.
fn is_word(side: Side) -> bool {
    matches!(side, Side::Byte(byte) if bytes::is_word(byte))
}
