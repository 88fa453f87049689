//! The harness itself under test: watchers with one slip each, made from the model. The corpus and
//! the random mode must find every one of them, and what the shrinker prints must be a small case
//! that the corpus's reader reads and that still fails.

mod finding;

use harness::exhaustive::{self, Bounds, BRACES, LINES, MEANING, SPELLING};
use harness::model::Model;
use harness::random;
use harness::watcher::{Answer, Change, Watcher};
use reference::calls::{Stream, Table};
use reference::refusal::{least_space, MAX_RULES};
use reference::token::is_control;

#[derive(Clone, Copy, Debug, PartialEq)]
enum Slip {
    PlaceOfTheMark,
    EndFaultAtTheStart,
    HalfOfAByte,
    StopsEarly,
    WritesPastTheCount,
    FallingIds,
    SmallFigure,
    SilentClosing,
    RefusedClosingCloses,
    ForgetsSingleMatch,
    RefusedAdditionAdds,
    TakesNoMoreWhenFull,
    IgnoresTheShorterList,
    CutsCommentsOut,
    NegatesBeforeCase,
    BlanksAreBytes,
    BlanksAreNotThere,
    PlaceOfTheRawByte,
    RawByteBeforeLowerNumbers,
    CommentsMayHoldAnything,
    PlaceInAByte,
}

use Slip::*;

const SLIPS: [Slip; 21] = [
    PlaceOfTheMark,
    EndFaultAtTheStart,
    HalfOfAByte,
    StopsEarly,
    WritesPastTheCount,
    FallingIds,
    SmallFigure,
    SilentClosing,
    RefusedClosingCloses,
    ForgetsSingleMatch,
    RefusedAdditionAdds,
    TakesNoMoreWhenFull,
    IgnoresTheShorterList,
    CutsCommentsOut,
    NegatesBeforeCase,
    BlanksAreBytes,
    BlanksAreNotThere,
    PlaceOfTheRawByte,
    RawByteBeforeLowerNumbers,
    CommentsMayHoldAnything,
    PlaceInAByte,
];

impl Slip {
    /// All bytes of the block are taken, and the reports are cut at the end of the space.
    fn half_of_a_byte(
        self,
        table: &Table,
        stream: Stream,
        allowance: u64,
        block: &[u8],
        ids: &mut [u32],
        offsets: &mut [u64],
    ) -> Answer<Stream> {
        let space = ids.len().min(offsets.len());
        let most = least_space(MAX_RULES) * block.len() + space;
        let mut all = (vec![0; most], vec![0; most]);
        let mut answer =
            Model.scan(table, stream.clone(), allowance, block, &mut all.0, &mut all.1);
        if answer.number != 0 {
            return answer;
        }
        if answer.count > space && space > 0 {
            let before = all.1[0] - 1;
            let last = all.1[space - 1] - before;
            let block = &block[..(last as usize).min(block.len())];
            answer = Model.scan(table, stream, allowance, block, &mut all.0, &mut all.1);
        }
        answer.count = answer.count.min(space);
        ids[..answer.count].copy_from_slice(&all.0[..answer.count]);
        offsets[..answer.count].copy_from_slice(&all.1[..answer.count]);
        answer
    }
}

/// The pattern as if its comments had never been written: then `a*(?#x)?` has a lazy mark.
fn without_comments(pattern: &[u8]) -> Vec<u8> {
    let mut rest = pattern;
    let mut kept = Vec::new();
    while !rest.is_empty() {
        let end = rest.iter().position(|&byte| byte == b')').filter(|_| rest.starts_with(b"(?#"));
        match end {
            Some(end) => rest = &rest[end + 1..],
            None => {
                kept.push(rest[0]);
                rest = &rest[1..];
            }
        }
    }
    kept
}

/// `[:^upper:]` as if the other case of its members were added after the negation: all bytes.
fn any_for_negated_upper(pattern: &[u8]) -> Vec<u8> {
    let negated = b"[:^upper:]";
    match pattern.windows(negated.len()).position(|window| window == negated) {
        Some(at) => [&pattern[..at], b"\\s\\S", &pattern[at + negated.len()..]].concat(),
        None => pattern.to_vec(),
    }
}

/// A brace before a blank as if it were no quantifier's: `a{ 2}` is five bytes.
fn literal_before_blanks(pattern: &[u8]) -> Vec<u8> {
    let mut written = Vec::new();
    for (index, &byte) in pattern.iter().enumerate() {
        if byte == b'{' && pattern.get(index + 1) == Some(&b' ') {
            written.push(b'\\');
        }
        written.push(byte);
    }
    written
}

/// Digits as if the blanks between them had never been written: then `a{2 3}` has a quantifier.
fn without_blanks(pattern: &[u8]) -> Vec<u8> {
    let is_digit = |index: usize| pattern.get(index).is_some_and(u8::is_ascii_digit);
    let keeps = |&(index, &byte): &(usize, &u8)| {
        byte != b' ' || index == 0 || !is_digit(index - 1) || !is_digit(index + 1)
    };
    pattern.iter().enumerate().filter(keeps).map(|(_, &byte)| byte).collect()
}

impl Watcher for Slip {
    type Table = Table;
    type Stream = Stream;

    fn words(&self, count: usize) -> Table {
        Model.words(count)
    }

    fn resized(&self, table: &Table, count: usize) -> Table {
        Model.resized(table, count)
    }

    fn empty(&self, table: &mut Table) -> u32 {
        Model.empty(table)
    }

    fn add(&self, table: &mut Table, id: u32, flags: u32, pattern: &[u8]) -> (u32, usize) {
        let flags = if *self == ForgetsSingleMatch { flags & !8 } else { flags };
        let pattern = &match self {
            CutsCommentsOut => without_comments(pattern),
            NegatesBeforeCase if flags & 1 != 0 => any_for_negated_upper(pattern),
            BlanksAreBytes => literal_before_blanks(pattern),
            BlanksAreNotThere => without_blanks(pattern),
            _ => pattern.to_vec(),
        };
        let (number, place) = Model.add(table, id, flags, pattern);
        match (self, number) {
            (PlaceOfTheMark, 14) => (number, place + 1),
            (EndFaultAtTheStart, 12 | 15) => (number, 0),
            (PlaceOfTheRawByte, 23) => {
                let raw = pattern[place..].iter().position(|&byte| is_control(byte));
                (number, place + raw.unwrap_or(0))
            }
            (RawByteBeforeLowerNumbers, 9 | 10)
                if pattern[place..].iter().skip(1).take(2).any(|&byte| is_control(byte)) =>
            {
                (23, place)
            }
            (CommentsMayHoldAnything, 23) if pattern[place..].starts_with(b"(?#") => {
                let cleaned: Vec<u8> = pattern
                    .iter()
                    .map(|&byte| if is_control(byte) { b'x' } else { byte })
                    .collect();
                Model.add(table, id, flags, &cleaned)
            }
            (RefusedAdditionAdds, 16) => {
                Model.add(table, id, flags, b"a");
                (number, place)
            }
            (PlaceInAByte, _) => (number, place % 256),
            _ => (number, place),
        }
    }

    fn open(&self, table: &Table) -> (u32, Stream) {
        Model.open(table)
    }

    fn scan(
        &self,
        table: &Table,
        stream: Stream,
        allowance: u64,
        block: &[u8],
        ids: &mut [u32],
        offsets: &mut [u64],
    ) -> Answer<Stream> {
        let space = ids.len().min(offsets.len());
        match self {
            HalfOfAByte => {
                return self.half_of_a_byte(table, stream, allowance, block, ids, offsets)
            }
            StopsEarly if block.len() > 1 => {
                let block = &block[..block.len() - 1];
                return Model.scan(table, stream, allowance, block, ids, offsets);
            }
            IgnoresTheShorterList if ids.len() > space => {
                let mut longer = vec![0; ids.len()];
                return Model.scan(table, stream, allowance, block, ids, &mut longer);
            }
            _ => {}
        }
        let whole = Model.scan(table, stream.clone(), allowance, block, ids, offsets);
        if whole.number != 0 {
            return whole;
        }
        match self {
            WritesPastTheCount if whole.count < ids.len() => ids[whole.count] = 0,
            FallingIds => ids[..whole.count].sort_by_key(|id| std::cmp::Reverse(*id)),
            TakesNoMoreWhenFull if whole.count == space && space > 0 => {
                let until = (1..=block.len()).find(|&n| {
                    let stream = stream.clone();
                    Model.scan(table, stream, allowance, &block[..n], ids, offsets).count == space
                });
                let until = until.unwrap_or(block.len());
                return Model.scan(table, stream, allowance, &block[..until], ids, offsets);
            }
            _ => {}
        }
        whole
    }

    fn close(
        &self,
        table: &Table,
        stream: Stream,
        ids: &mut [u32],
        offsets: &mut [u64],
    ) -> Answer<Stream> {
        match self {
            SilentClosing => {
                let (mut other_ids, mut other_offsets) = (ids.to_vec(), offsets.to_vec());
                let answer = Model.close(table, stream, &mut other_ids, &mut other_offsets);
                Answer { count: 0, ..answer }
            }
            RefusedClosingCloses => {
                let answer = Model.close(table, stream.clone(), ids, offsets);
                if answer.number == 20 {
                    let space = least_space(MAX_RULES);
                    let (mut ids, mut offsets) = (vec![0; space], vec![0; space]);
                    let closed = Model.close(table, stream, &mut ids, &mut offsets);
                    return Answer { stream: closed.stream, ..answer };
                }
                answer
            }
            _ => Model.close(table, stream, ids, offsets),
        }
    }

    fn busy(&self, stream: &Stream) -> usize {
        let figure = Model.busy(stream);
        if *self == SmallFigure && figure > 2 {
            figure - 1
        } else {
            figure
        }
    }

    fn changed(&self, stream: &Stream, change: Change) -> Option<Stream> {
        Model.changed(stream, change)
    }
}

#[test]
fn the_corpus_finds_every_slip() {
    finding::by_the_corpus(&SLIPS);
}

#[test]
fn the_random_mode_finds_every_slip_and_makes_it_small() {
    finding::at_random(&SLIPS, 3_000);
}

#[test]
fn the_exhaustive_mode_finds_a_slip() {
    finding::among_all(&[FallingIds, StopsEarly, ForgetsSingleMatch], MEANING, 1, 2);
}

#[test]
fn the_model_agrees_with_the_definition() {
    let bounds = Bounds { alphabet: MEANING, tokens: 2, bytes: 3, part: (0, 1) };
    let count = exhaustive::run(&Model, &Model, bounds).unwrap();
    assert_eq!(count.patterns, 1 + 21 + 21 * 21);
    assert!(count.accepted > 40 && count.pairs == count.accepted * (1 + 4 + 16 + 64));
    let bounds = Bounds { alphabet: LINES, tokens: 3, bytes: 2, part: (0, 1) };
    let count = exhaustive::run(&Model, &Model, bounds).unwrap();
    assert_eq!(count.patterns, 1 + 16 + 16 * 16 + 16 * 16 * 16);
    assert!(count.accepted > 1_000 && count.pairs == count.accepted * (1 + 3 + 9));
    let bounds = Bounds { alphabet: SPELLING, tokens: 3, bytes: 1, part: (0, 1) };
    let count = exhaustive::run(&Model, &Model, bounds).unwrap();
    assert_eq!(count.patterns, 1 + 16 + 16 * 16 + 16 * 16 * 16);
    assert!(count.accepted > 400 && count.pairs == count.accepted * (1 + 6));
    let bounds = Bounds { alphabet: BRACES, tokens: 4, bytes: 1, part: (0, 1) };
    let count = exhaustive::run(&Model, &Model, bounds).unwrap();
    assert_eq!(count.patterns, 1 + 9 + 9 * 9 + 9 * 9 * 9 + 9 * 9 * 9 * 9);
    assert!(count.accepted > 1_000 && count.pairs == count.accepted * (1 + 4));
    random::run(&Model, 2, 0, 500).unwrap();
}

#[test]
fn a_seed_gives_the_same_cases() {
    let scenario = |index| random::scenario(&mut harness::rng::Rng::for_case(5, index));
    assert_eq!(scenario(3), scenario(3));
    assert_ne!(scenario(3), scenario(4));
}
