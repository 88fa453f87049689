//! The interface to whatever is under test. A watcher has tables and streams of its own making; a
//! runner only lends them, keeps what comes back, copies them and compares them for equality.
//! Every answer is a number, with the values that the product's rules give besides.

use corpus::{Kept, Lists};
pub use reference::calls::NO_LIMIT;
use reference::windows::Windows;

/// The answer of a scan or a closing; a closing takes no bytes and no allowance.
pub struct Answer<S> {
    pub number: u32,
    pub taken: usize,
    pub count: usize,
    /// Units of work.
    pub used: u64,
    pub stream: S,
}

/// A state changed by hand.
#[derive(Clone, Copy, Debug)]
pub enum Change {
    /// Another byte total.
    Total(u64),
    /// One more live position, by its index.
    Live(usize),
    /// One more rule marked "already reported", by its index in the order of rising ids.
    Mark(usize),
    /// One more held position, by its index.
    Held(usize),
    /// One more rule with a pair held for the offset before the last byte, by its index likewise.
    Pair(usize),
    /// Another kind of last byte: 1 a word byte, 2 a newline, any other number neither.
    Last(u64),
    /// Another start of what is kept by this index: of a live position, of a held one, of a held pair.
    Start(Kept, usize, u64),
}

pub trait Watcher {
    /// Lent words.
    type Table: Clone + PartialEq;
    /// A stream state.
    type Stream: Clone + PartialEq;

    /// So many words, of any content that is no table.
    fn words(&self, count: usize) -> Self::Table;

    /// The first `count` of these words, or these words and further ones.
    fn resized(&self, table: &Self::Table, count: usize) -> Self::Table;

    fn empty(&self, table: &mut Self::Table) -> u32;

    /// The number and the place.
    fn add(&self, table: &mut Self::Table, id: u32, flags: u32, pattern: &[u8]) -> (u32, usize);

    /// An addition with windows; none if this watcher has no such call.
    fn add_within(
        &self,
        table: &mut Self::Table,
        id: u32,
        flags: u32,
        windows: Windows,
        pattern: &[u8],
    ) -> Option<(u32, usize)> {
        (windows == Windows::NONE).then(|| self.add(table, id, flags, pattern))
    }

    /// Has it additions with windows?
    fn has_windows(&self) -> bool {
        false
    }

    /// Do its streams keep starts? Then its calls are lent four lists.
    fn traces(&self) -> bool {
        false
    }

    fn open(&self, table: &Self::Table) -> (u32, Self::Stream);

    fn scan(
        &self,
        table: &Self::Table,
        stream: Self::Stream,
        allowance: u64,
        block: &[u8],
        ids: &mut [u32],
        offsets: &mut [u64],
    ) -> Answer<Self::Stream>;

    fn close(
        &self,
        table: &Self::Table,
        stream: Self::Stream,
        ids: &mut [u32],
        offsets: &mut [u64],
    ) -> Answer<Self::Stream>;

    /// A scan with as many lists as are lent.
    fn scan_into(
        &self,
        table: &Self::Table,
        stream: Self::Stream,
        allowance: u64,
        block: &[u8],
        lists: &mut Lists,
    ) -> Answer<Self::Stream> {
        self.scan(table, stream, allowance, block, &mut lists.ids, &mut lists.offsets)
    }

    /// A closing with as many lists as are lent.
    fn close_into(
        &self,
        table: &Self::Table,
        stream: Self::Stream,
        lists: &mut Lists,
    ) -> Answer<Self::Stream> {
        self.close(table, stream, &mut lists.ids, &mut lists.offsets)
    }

    fn busy(&self, stream: &Self::Stream) -> usize;

    /// The state with a change made by hand; none if this watcher's states cannot be changed so.
    fn changed(&self, _stream: &Self::Stream, _change: Change) -> Option<Self::Stream> {
        None
    }
}

/// What reading a pattern gives: 0 with the number of positions, or a refusal with its place, as
/// for an addition to an empty table.
#[derive(Clone, Copy, Debug, PartialEq, Eq)]
pub struct Reading {
    pub number: u32,
    pub place: usize,
    pub positions: usize,
}

pub trait PatternReader {
    fn read(&self, flags: u32, pattern: &[u8]) -> Reading;
}

/// The program: what it writes for the bytes of a rules file, if it can be opened, and an input.
pub trait Program {
    /// The longest input that it can be asked for; longer runs are skipped.
    fn longest(&self) -> usize {
        usize::MAX
    }

    fn run(&self, rules: Option<&[u8]>, input: &[u8]) -> Vec<u8>;
}
