//! The gaps of a stream by number, as docs/TABLE.md lists them, and which assertions are known to hold
//! at each. A number stands for all gaps at which the same ones do.

use reference::bytes::is_word;
use reference::tree::Assertion;

/// What a byte is to the assertions, with its number in a state.
#[derive(Clone, Copy, Debug, PartialEq, Eq)]
pub enum Side {
    Other = 0,
    Word = 1,
    Newline = 2,
}

pub const SIDES: [Side; 3] = [Side::Other, Side::Word, Side::Newline];

impl Side {
    pub fn of(byte: u8) -> Side {
        match byte {
            b'\n' => Side::Newline,
            _ if is_word(byte) => Side::Word,
            _ => Side::Other,
        }
    }

    /// The side that a word of a state names: any number but 1 and 2 is another byte.
    pub fn in_state(word: u64) -> Side {
        match word {
            1 => Side::Word,
            2 => Side::Newline,
            _ => Side::Other,
        }
    }
}

/// How many gaps the sets of a table go by, each from 0 on: positions follow one another between two
/// bytes, a match ends after a byte, and it starts anywhere.
pub const FOLLOW_GAPS: usize = 10;
pub const LAST_GAPS: usize = 13;
pub const FIRST_GAPS: usize = 17;

/// How many gaps there are between two bytes of which the second is not taken for the last: `between`
/// gives the numbers below this.
pub const INNER_GAPS: usize = 7;

/// Between two bytes, of which the second is not taken for the last.
pub fn between(before: Side, after: Side) -> usize {
    match (before, after) {
        (Side::Other, Side::Other) | (Side::Word, Side::Word) => 0,
        (Side::Other, Side::Word) | (Side::Word, Side::Other) => 1,
        (Side::Other, Side::Newline) => 2,
        (Side::Word, Side::Newline) => 3,
        (Side::Newline, Side::Newline) => 4,
        (Side::Newline, Side::Other) => 5,
        (Side::Newline, Side::Word) => 6,
    }
}

/// Between a byte and a newline that is the last byte.
pub fn before_last(before: Side) -> usize {
    match before {
        Side::Other => 7,
        Side::Word => 8,
        Side::Newline => 9,
    }
}

/// After a byte, where it is not known what follows.
pub const UNSETTLED: usize = 10;

/// At the stream's end.
pub fn at_end(before: Side) -> usize {
    match before {
        Side::Other | Side::Newline => 11,
        Side::Word => 12,
    }
}

/// At the stream's start, before a byte that is not taken for the last.
pub fn at_start(after: Side) -> usize {
    match after {
        Side::Other => 13,
        Side::Word => 14,
        Side::Newline => 15,
    }
}

/// At the stream's start, before a newline that is the only byte.
pub const START_OF_LAST: usize = 16;

/// What stands on one side of a gap.
#[derive(Clone, Copy, Debug, PartialEq, Eq)]
pub enum Known {
    Byte(Side),
    /// The stream's start or end.
    Edge,
    Unknown,
}

/// A gap by what is known of it.
#[derive(Clone, Copy, Debug)]
pub struct Gap {
    pub before: Known,
    pub after: Known,
    /// Is the byte after it a newline, and known to be the last?
    pub last: bool,
}

impl Gap {
    fn new(before: Known, after: Known) -> Gap {
        Gap { before, after, last: false }
    }

    /// A gap before a newline that is the last byte.
    fn of_last(before: Known) -> Gap {
        Gap { before, after: Known::Byte(Side::Newline), last: true }
    }

    /// Is the assertion known to hold there?
    pub fn holds(&self, assertion: Assertion) -> bool {
        let &Gap { before, after, last } = self;
        let known = after != Known::Unknown;
        let word = |side| side == Known::Byte(Side::Word);
        let newline = |side| side == Known::Byte(Side::Newline);
        match assertion {
            Assertion::Start => before == Known::Edge,
            Assertion::LastLine => last || after == Known::Edge,
            Assertion::End => after == Known::Edge,
            Assertion::LineStart => {
                before == Known::Edge || (newline(before) && matches!(after, Known::Byte(_)))
            }
            Assertion::LineEnd => newline(after) || after == Known::Edge,
            Assertion::WordEdge => known && word(before) != word(after),
            Assertion::NoWordEdge => known && word(before) == word(after),
        }
    }
}

/// Every gap that there is, with its number.
fn all() -> Vec<(usize, Gap)> {
    let mut all = vec![(START_OF_LAST, Gap::of_last(Known::Edge))];
    for side in SIDES {
        let byte = Known::Byte(side);
        all.extend(SIDES.map(|after| (between(side, after), Gap::new(byte, Known::Byte(after)))));
        all.push((before_last(side), Gap::of_last(byte)));
        all.push((UNSETTLED, Gap::new(byte, Known::Unknown)));
        all.push((at_end(side), Gap::new(byte, Known::Edge)));
        all.push((at_start(side), Gap::new(Known::Edge, byte)));
    }
    all
}

/// For each number a gap that it stands for.
pub fn numbered() -> Vec<Gap> {
    let all = all();
    let gap = |number| all.iter().find(|(of, _)| *of == number).map(|(_, gap)| *gap);
    (0..FIRST_GAPS).map(|number| gap(number).expect("every number has a gap")).collect()
}

#[cfg(test)]
mod tests {
    use super::*;

    const ASSERTIONS: [Assertion; 7] = [
        Assertion::Start,
        Assertion::LastLine,
        Assertion::End,
        Assertion::LineStart,
        Assertion::LineEnd,
        Assertion::WordEdge,
        Assertion::NoWordEdge,
    ];

    #[test]
    fn a_number_stands_for_gaps_with_the_same_assertions() {
        let numbered = numbered();
        for (number, gap) in all() {
            for assertion in ASSERTIONS {
                let wanted = numbered[number].holds(assertion);
                assert_eq!(gap.holds(assertion), wanted, "{assertion:?} at {gap:?}");
            }
        }
    }

    #[test]
    fn the_inner_gaps_are_those_between_two_bytes() {
        let mut inner: Vec<usize> =
            SIDES.iter().flat_map(|&one| SIDES.map(|other| between(one, other))).collect();
        inner.sort_unstable();
        inner.dedup();
        assert!(inner.into_iter().eq(0..INNER_GAPS));
    }

    #[test]
    fn no_two_numbers_are_alike() {
        let numbered = numbered();
        let truths: Vec<Vec<bool>> =
            numbered.iter().map(|gap| ASSERTIONS.map(|a| gap.holds(a)).to_vec()).collect();
        for (one, truth) in truths.iter().enumerate() {
            assert_eq!(truths.iter().position(|other| other == truth), Some(one), "{one}");
        }
    }
}
