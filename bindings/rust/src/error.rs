//! Why a call was refused. Each case has its number; the faults of a pattern have their place too.

use std::fmt;

use crate::refusal::Refusal;

/// A refusal. The cases and numbers are those of `include/watcher.h`; [`Refusal`] has them in
/// words.
///
/// ```
/// use watcher::{Error, Flags, Table};
///
/// let error = Table::new().add(8, Flags::NONE, b"a**").unwrap_err();
/// assert_eq!(error, Error::BadQuantifier { place: 2 });
/// assert_eq!(error.to_string(), "refused 10 at 2: a quantifier with nothing to repeat");
/// ```
#[derive(Clone, Copy, Debug, PartialEq, Eq)]
pub enum Error {
    /// 1: too few words, or not a valid table.
    NoTable,
    /// 2: a flag that is not one of [`Flags`](crate::Flags).
    BadFlag,
    /// 3: a rule of the table has this id.
    IdTaken,
    /// 4: the table has [`MAX_RULES`](crate::MAX_RULES) rules.
    TableFull,
    /// 5: a pattern of more than 1,024 bytes.
    LongPattern,
    /// 6: an escape that is cut off, as in `a\`.
    BadEscape {
        /// Where the fault lies in the pattern.
        place: usize,
    },
    /// 7: a number escape over 255, as `\x{100}`.
    BigEscape {
        /// Where the fault lies in the pattern.
        place: usize,
    },
    /// 8: a class that is not closed, as `[a`.
    OpenClass {
        /// Where the fault lies in the pattern.
        place: usize,
    },
    /// 9: a range that falls or has a type at an end, as `[z-a]`.
    BadRange {
        /// Where the fault lies in the pattern.
        place: usize,
    },
    /// 10: a quantifier with nothing to repeat, as in `a**`.
    BadQuantifier {
        /// Where the fault lies in the pattern.
        place: usize,
    },
    /// 11: a faulty count, as in `a{3,2}`.
    BadCount {
        /// Where the fault lies in the pattern.
        place: usize,
    },
    /// 12: a group or comment that is not closed, or `)` without one.
    BadGroup {
        /// Where the fault lies in the pattern.
        place: usize,
    },
    /// 13: a 17th group open at once.
    DeepGroup {
        /// Where the fault lies in the pattern.
        place: usize,
    },
    /// 14: a construct outside the subset, as `(?=a)`.
    Unsupported {
        /// Where the fault lies in the pattern.
        place: usize,
    },
    /// 15: the rule could match no bytes, as `a*`.
    EmptyMatch {
        /// Where the fault lies in the pattern.
        place: usize,
    },
    /// 16: over 256 positions in the rule, as `a{257}`.
    LargeRule {
        /// Where the fault lies in the pattern.
        place: usize,
    },
    /// 17: over 256 positions with those in the table.
    LargeTable {
        /// Where the fault lies in the pattern.
        place: usize,
    },
    /// 18: the state is not valid for the table.
    BadState,
    /// 19: the stream is closed.
    Closed,
    /// 20: fewer report slots than twice the table's rules.
    SmallSpace,
    /// 21: the bytes taken and this block are over the stream's limit.
    LongStream,
    /// 23: a raw byte below 32, or 127, in the pattern.
    RawByte {
        /// Where the fault lies in the pattern.
        place: usize,
    },
    /// 24: the flags for the leftmost start and for a single match.
    SingleStart,
    /// 25: neither the tail nor the block holds the whole match.
    NotKept,
    /// 26: a smallest end offset above the largest.
    BadWindow,
    /// 28: a log over 1,024 bytes for the plain matcher.
    LongLog,
    /// 27: bytes that are not block `place` of a table.
    NoBlock {
        /// The block's number.
        place: usize,
    },
    /// 100: fewer words than a state has, or in [`Stream::resume`](crate::Stream::resume) another
    /// number of them.
    ShortState,
    /// A number that this wrapper does not know.
    Other {
        /// The number.
        number: u32,
        /// The place that came with it.
        place: usize,
    },
}

impl Error {
    /// The refusal with this number and place; none for 0.
    pub(crate) fn check(number: u32, place: usize) -> Result<(), Error> {
        Err(match number {
            0 => return Ok(()),
            1 => Error::NoTable,
            2 => Error::BadFlag,
            3 => Error::IdTaken,
            4 => Error::TableFull,
            5 => Error::LongPattern,
            6 => Error::BadEscape { place },
            7 => Error::BigEscape { place },
            8 => Error::OpenClass { place },
            9 => Error::BadRange { place },
            10 => Error::BadQuantifier { place },
            11 => Error::BadCount { place },
            12 => Error::BadGroup { place },
            13 => Error::DeepGroup { place },
            14 => Error::Unsupported { place },
            15 => Error::EmptyMatch { place },
            16 => Error::LargeRule { place },
            17 => Error::LargeTable { place },
            18 => Error::BadState,
            19 => Error::Closed,
            20 => Error::SmallSpace,
            21 => Error::LongStream,
            23 => Error::RawByte { place },
            24 => Error::SingleStart,
            25 => Error::NotKept,
            26 => Error::BadWindow,
            27 => Error::NoBlock { place },
            28 => Error::LongLog,
            100 => Error::ShortState,
            _ => Error::Other { number, place },
        })
    }

    /// The number that the library answered.
    ///
    /// ```
    /// assert_eq!(watcher::Error::IdTaken.number(), 3);
    /// ```
    pub fn number(&self) -> u32 {
        match self {
            Error::NoTable => 1,
            Error::BadFlag => 2,
            Error::IdTaken => 3,
            Error::TableFull => 4,
            Error::LongPattern => 5,
            Error::BadEscape { .. } => 6,
            Error::BigEscape { .. } => 7,
            Error::OpenClass { .. } => 8,
            Error::BadRange { .. } => 9,
            Error::BadQuantifier { .. } => 10,
            Error::BadCount { .. } => 11,
            Error::BadGroup { .. } => 12,
            Error::DeepGroup { .. } => 13,
            Error::Unsupported { .. } => 14,
            Error::EmptyMatch { .. } => 15,
            Error::LargeRule { .. } => 16,
            Error::LargeTable { .. } => 17,
            Error::BadState => 18,
            Error::Closed => 19,
            Error::SmallSpace => 20,
            Error::LongStream => 21,
            Error::RawByte { .. } => 23,
            Error::SingleStart => 24,
            Error::NotKept => 25,
            Error::BadWindow => 26,
            Error::NoBlock { .. } => 27,
            Error::LongLog => 28,
            Error::ShortState => 100,
            Error::Other { number, .. } => *number,
        }
    }

    /// Where the fault lies in the pattern: the first byte of the faulty token, or the pattern's
    /// length for a fault known only at its end; of a block that is none, its number. 0 for all
    /// other refusals.
    ///
    /// ```
    /// use watcher::{Flags, Table};
    ///
    /// assert_eq!(Table::new().add(1, Flags::NONE, b"[z-a]").unwrap_err().place(), 1);
    /// ```
    pub fn place(&self) -> usize {
        match self {
            Error::BadEscape { place }
            | Error::BigEscape { place }
            | Error::OpenClass { place }
            | Error::BadRange { place }
            | Error::BadQuantifier { place }
            | Error::BadCount { place }
            | Error::BadGroup { place }
            | Error::DeepGroup { place }
            | Error::Unsupported { place }
            | Error::EmptyMatch { place }
            | Error::LargeRule { place }
            | Error::LargeTable { place }
            | Error::RawByte { place }
            | Error::NoBlock { place }
            | Error::Other { place, .. } => *place,
            _ => 0,
        }
    }

    /// What the number means, in a few words, as `refusals.txt` has it.
    ///
    /// ```
    /// assert_eq!(watcher::Error::Closed.text(), "the stream is closed");
    /// ```
    pub fn text(&self) -> &'static str {
        Refusal::of(self.number()).map_or("an unknown refusal", |refusal| refusal.text)
    }
}

impl fmt::Display for Error {
    fn fmt(&self, f: &mut fmt::Formatter<'_>) -> fmt::Result {
        write!(f, "refused {} at {}: {}", self.number(), self.place(), self.text())
    }
}

impl std::error::Error for Error {}
