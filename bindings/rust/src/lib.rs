//! A safe Rust interface to the verified stream watcher.
//!
//! ```
//! use watcher::{Flags, Stream, Table, NO_LIMIT};
//!
//! let mut table = Table::new();
//! table.add(7, Flags::NONE, b"foo.*bar")?;
//! let mut stream = Stream::open(&table);
//! stream.scan(NO_LIMIT, b"fooxyzbar", |report| println!("{} {}", report.id, report.end))?;
//! stream.close(|report| println!("{} {}", report.id, report.end))?;
//! # Ok::<(), watcher::Error>(())
//! ```
//!
//! A table is 128 KiB and a stream 136 bytes. A stream borrows its table, so that no rule can be
//! added while a stream is open on it. On a table with a rule that reports starts
//! ([`Flags::LEFTMOST_START`]) or has a smallest length ([`Windows::at_least`]) a stream keeps
//! [`TRACE_WORDS`] words on the heap; nothing else here uses the heap.
//!
//! [`raw`] has the library's functions over slices, for words of any content; [`sys`] declares
//! them. [`Refusal`] tells each number in words.

#![warn(missing_docs)]

mod error;
pub mod raw;
mod refusal;
mod stream;
pub mod sys;

pub use error::Error;
pub use raw::Lists;
pub use refusal::{Example, Refusal};
pub use stream::{Report, Scanned, Stream};

/// The version of this crate and of the library that it belongs to, `WATCHER_VERSION` in C.
///
/// ```
/// assert_eq!(watcher::VERSION.split('.').count(), 3);
/// ```
pub const VERSION: &str = env!("CARGO_PKG_VERSION");

/// The words of a table.
///
/// ```
/// assert_eq!(watcher::Table::new().words().len(), watcher::TABLE_WORDS);
/// ```
pub const TABLE_WORDS: usize = 16_384;
/// The words of a stream's state, where no rule of its table needs starts.
///
/// ```
/// let table = watcher::Table::new();
/// assert_eq!(watcher::Stream::open(&table).state().len(), watcher::STATE_WORDS);
/// ```
pub const STATE_WORDS: usize = 15;
/// The words of a stream's state with starts: the same fifteen, then 256 starts of live positions,
/// 256 of held positions and 64 of held pairs.
///
/// ```
/// use watcher::{Flags, Stream, Table, TRACE_WORDS};
///
/// let mut table = Table::new();
/// table.add(1, Flags::LEFTMOST_START, b"ab")?;
/// assert_eq!(Stream::open(&table).state().len(), TRACE_WORDS);
/// # Ok::<(), watcher::Error>(())
/// ```
pub const TRACE_WORDS: usize = STATE_WORDS + 2 * 256 + MAX_RULES;
/// A table has at most so many rules.
///
/// ```
/// use watcher::{Error, Flags, Table, MAX_RULES};
///
/// let mut table = Table::new();
/// for id in 0..MAX_RULES as u32 {
///     table.add(id, Flags::NONE, b"a")?;
/// }
/// assert_eq!(table.add(1_000, Flags::NONE, b"a"), Err(Error::TableFull));
/// # Ok::<(), Error>(())
/// ```
pub const MAX_RULES: usize = 64;
/// So many report slots in each list are enough for any table: a byte may report each rule twice,
/// and so may a closing.
///
/// ```
/// use watcher::{raw, Flags, Stream, Table, NO_LIMIT, REPORT_SLOTS};
///
/// let mut table = Table::new();
/// table.add(1, Flags::NONE, b"a")?;
/// let mut state = Stream::open(&table).state().to_vec();
/// let (mut ids, mut offsets) = ([0; REPORT_SLOTS], [0; REPORT_SLOTS]);
/// let answer = raw::scan(table.words(), &mut state, NO_LIMIT, b"aa", &mut ids, &mut offsets);
/// assert_eq!(&offsets[..answer.reports], [1, 2]);
/// # Ok::<(), watcher::Error>(())
/// ```
pub const REPORT_SLOTS: usize = 2 * MAX_RULES;

/// The allowance of a scan whose work has no limit.
///
/// ```
/// use watcher::{Stream, Table, NO_LIMIT};
///
/// let table = Table::new();
/// assert_eq!(Stream::open(&table).scan(NO_LIMIT, b"all of it", |_| ())?.taken, 9);
/// # Ok::<(), watcher::Error>(())
/// ```
pub const NO_LIMIT: u64 = u64::MAX;
/// A byte costs one unit of work and one for each live position, so never more than this. A scan
/// with so many units takes at least one byte of its block.
///
/// ```
/// use watcher::{Stream, Table, MAX_BYTE_UNITS};
///
/// let table = Table::new();
/// assert!(Stream::open(&table).scan(MAX_BYTE_UNITS, b"abc", |_| ())?.taken >= 1);
/// # Ok::<(), watcher::Error>(())
/// ```
pub const MAX_BYTE_UNITS: u64 = 257;

/// The bytes of a block of a table on a card.
///
/// ```
/// assert_eq!(watcher::Table::new().block(0)?.len(), watcher::BLOCK_BYTES);
/// # Ok::<(), watcher::Error>(())
/// ```
pub const BLOCK_BYTES: usize = 512;
/// How many blocks a table takes on a card.
///
/// ```
/// let table = watcher::Table::new();
/// assert!(table.block(watcher::BLOCKS - 1).is_ok());
/// assert!(table.block(watcher::BLOCKS).is_err());
/// ```
pub const BLOCKS: usize = TABLE_WORDS.div_ceil(63);

/// Flags of a rule, combined with `|`. They have Hyperscan's values.
///
/// ```
/// use watcher::Flags;
///
/// assert_eq!(Flags::CASELESS | Flags::MULTILINE, Flags(5));
/// ```
#[derive(Clone, Copy, Debug, Default, PartialEq, Eq)]
pub struct Flags(pub u32);

impl Flags {
    /// No flag: every end of every match, letters as they are.
    ///
    /// ```
    /// use watcher::{Flags, Stream, Table, NO_LIMIT};
    ///
    /// let mut table = Table::new();
    /// table.add(1, Flags::NONE, br"ab+")?;
    /// let mut ends = vec![];
    /// Stream::open(&table).scan(NO_LIMIT, b"abb AB", |report| ends.push(report.end))?;
    /// assert_eq!(ends, [2, 3]);
    /// # Ok::<(), watcher::Error>(())
    /// ```
    pub const NONE: Flags = Flags(0);
    /// Letters match in either case.
    ///
    /// ```
    /// use watcher::{Flags, Stream, Table, NO_LIMIT};
    ///
    /// let mut table = Table::new();
    /// table.add(1, Flags::CASELESS, br"slack")?;
    /// let mut ends = vec![];
    /// Stream::open(&table).scan(NO_LIMIT, b"Slack", |report| ends.push(report.end))?;
    /// assert_eq!(ends, [5]);
    /// # Ok::<(), watcher::Error>(())
    /// ```
    pub const CASELESS: Flags = Flags(1);
    /// `.` matches a newline too.
    ///
    /// ```
    /// use watcher::{Flags, Stream, Table, NO_LIMIT};
    ///
    /// let mut table = Table::new();
    /// table.add(1, Flags::DOT_ALL, br"a.b")?;
    /// let mut ends = vec![];
    /// Stream::open(&table).scan(NO_LIMIT, b"a\nb", |report| ends.push(report.end))?;
    /// assert_eq!(ends, [3]);
    /// # Ok::<(), watcher::Error>(())
    /// ```
    pub const DOT_ALL: Flags = Flags(2);
    /// `^` and `$` hold at each line.
    ///
    /// ```
    /// use watcher::{Flags, Stream, Table, NO_LIMIT};
    ///
    /// let mut table = Table::new();
    /// table.add(1, Flags::MULTILINE, br"^b")?;
    /// let mut ends = vec![];
    /// Stream::open(&table).scan(NO_LIMIT, b"a\nb", |report| ends.push(report.end))?;
    /// assert_eq!(ends, [3]);
    /// # Ok::<(), watcher::Error>(())
    /// ```
    pub const MULTILINE: Flags = Flags(4);
    /// The rule reports once in a stream.
    ///
    /// ```
    /// use watcher::{Flags, Stream, Table, NO_LIMIT};
    ///
    /// let mut table = Table::new();
    /// table.add(1, Flags::SINGLE_MATCH, br"ab+")?;
    /// let mut ends = vec![];
    /// Stream::open(&table).scan(NO_LIMIT, b"abb", |report| ends.push(report.end))?;
    /// assert_eq!(ends, [2]);
    /// # Ok::<(), watcher::Error>(())
    /// ```
    pub const SINGLE_MATCH: Flags = Flags(8);
    /// The rule reports the leftmost start of each match: the smallest whose match is known when
    /// it is reported. Not with [`Flags::SINGLE_MATCH`]. The streams of its table keep starts, and
    /// are slower for it.
    ///
    /// ```
    /// use watcher::{Error, Flags, Stream, Table, NO_LIMIT};
    ///
    /// let mut table = Table::new();
    /// table.add(1, Flags::LEFTMOST_START, b"ab+")?;
    /// let mut found = vec![];
    /// let mut stream = Stream::open(&table);
    /// stream.scan(NO_LIMIT, b"xabb", |report| found.push((report.start, report.end)))?;
    /// assert_eq!(found, [(1, 3), (1, 4)]);
    /// let both = Flags::LEFTMOST_START | Flags::SINGLE_MATCH;
    /// assert_eq!(table.add(2, both, b"ab+"), Err(Error::SingleStart));
    /// # Ok::<(), watcher::Error>(())
    /// ```
    pub const LEFTMOST_START: Flags = Flags(256);
}

impl std::ops::BitOr for Flags {
    type Output = Flags;

    fn bitor(self, other: Flags) -> Flags {
        Flags(self.0 | other.0)
    }
}

/// The bytes of a match from `start` up to `end`, from what was kept of a stream: a tail, and the
/// block right after it, which begins at `offset`. The block is asked first.
///
/// ```
/// use watcher::{matched_bytes, Error};
///
/// assert_eq!(matched_bytes(b"rope", b" slack", 4, 5, 10), Ok(&b"slack"[..]));
/// assert_eq!(matched_bytes(b"rope", b" slack", 4, 0, 4), Ok(&b"rope"[..]));
/// assert_eq!(matched_bytes(b"rope", b" slack", 4, 0, 5), Err(Error::NotKept));
/// ```
pub fn matched_bytes<'b>(
    tail: &'b [u8],
    block: &'b [u8],
    offset: u64,
    start: u64,
    end: u64,
) -> Result<&'b [u8], Error> {
    Error::check(raw::matched_number(tail, block, offset, start, end), 0)?;
    let part = raw::matched_bytes(tail, block, offset, start, end);
    let bytes = if part.tail { tail } else { block };
    Ok(&bytes[part.place..part.place + part.size])
}

/// The longest log of the plain matcher, in bytes; no rule reports more often on it.
///
/// ```
/// use watcher::{plain, Error, Flags, Windows, PLAIN_LOG};
///
/// let log = [b'a'; PLAIN_LOG + 1];
/// assert_eq!(plain(b"b", Flags::NONE, Windows::NONE, &log, |_| ()), Err(Error::LongLog));
/// ```
pub const PLAIN_LOG: usize = 1024;

/// The windows of a rule: only matches that end from `lowest` to `highest`, both included, and are
/// at least `shortest` bytes long count. They are Hyperscan's `min_offset`, `max_offset` and
/// `min_length`. [`Table::add_within`] and [`plain`] take them.
///
/// ```
/// use watcher::{Flags, Stream, Table, Windows, NO_LIMIT};
///
/// let mut table = Table::new();
/// table.add_within(7, Flags::NONE, Windows::new().ends_from(10).ends_to(15), b"foo.*bar")?;
/// let ends = |log: &[u8]| -> Result<Vec<u64>, watcher::Error> {
///     let mut ends = vec![];
///     Stream::open(&table).scan(NO_LIMIT, log, |report| ends.push(report.end))?;
///     Ok(ends)
/// };
/// assert_eq!(ends(b"foobar")?, []);
/// assert_eq!(ends(b"foo0123bar")?, [10]);
/// assert_eq!(ends(b"foo0123456789bar")?, []);
/// # Ok::<(), watcher::Error>(())
/// ```
#[derive(Clone, Copy, Debug, PartialEq, Eq)]
pub struct Windows {
    /// The smallest end offset.
    pub lowest: u64,
    /// The largest end offset.
    pub highest: u64,
    /// The smallest length of a match.
    pub shortest: u64,
}

impl Default for Windows {
    fn default() -> Windows {
        Windows::NONE
    }
}

impl Windows {
    /// No window: every match counts.
    ///
    /// ```
    /// assert_eq!(watcher::Windows::NONE.shortest, 0);
    /// ```
    pub const NONE: Windows = Windows { lowest: 0, highest: u64::MAX, shortest: 0 };

    /// No window yet: [`Windows::NONE`], to be narrowed.
    ///
    /// ```
    /// assert_eq!(watcher::Windows::new(), watcher::Windows::NONE);
    /// ```
    pub const fn new() -> Windows {
        Windows::NONE
    }

    /// Matches end at this offset or later.
    ///
    /// ```
    /// use watcher::{plain, Flags, Windows};
    ///
    /// let mut ends = vec![];
    /// plain(b"a", Flags::NONE, Windows::new().ends_from(2), b"aaa", |hit| ends.push(hit.end))?;
    /// assert_eq!(ends, [2, 3]);
    /// # Ok::<(), watcher::Error>(())
    /// ```
    pub const fn ends_from(self, lowest: u64) -> Windows {
        Windows { lowest, ..self }
    }

    /// Matches end at this offset or before. A largest end offset below the smallest is refused
    /// with [`Error::BadWindow`] where the windows are used.
    ///
    /// ```
    /// use watcher::{plain, Error, Flags, Windows};
    ///
    /// let mut ends = vec![];
    /// plain(b"a", Flags::NONE, Windows::new().ends_to(2), b"aaa", |hit| ends.push(hit.end))?;
    /// assert_eq!(ends, [1, 2]);
    /// let none = Windows::new().ends_from(15).ends_to(10);
    /// assert_eq!(plain(b"a", Flags::NONE, none, b"a", |_| ()), Err(Error::BadWindow));
    /// # Ok::<(), watcher::Error>(())
    /// ```
    pub const fn ends_to(self, highest: u64) -> Windows {
        Windows { highest, ..self }
    }

    /// Matches are at least so many bytes long. A length is measured from a start, so the streams
    /// of a table in which a rule has a smallest length above 0 keep starts.
    ///
    /// ```
    /// use watcher::{plain, Flags, Windows};
    ///
    /// let mut ends = vec![];
    /// plain(b"a+", Flags::NONE, Windows::new().at_least(2), b"aaa", |hit| ends.push(hit.end))?;
    /// assert_eq!(ends, [2, 3]);
    /// # Ok::<(), watcher::Error>(())
    /// ```
    pub const fn at_least(self, shortest: u64) -> Windows {
        Windows { shortest, ..self }
    }

    /// The three numbers as [`raw`] takes them.
    const fn numbers(self) -> (u64, u64, u64) {
        (self.lowest, self.highest, self.shortest)
    }
}

/// A match that the plain matcher reports: its end offset and, for a rule with
/// `Flags::LEFTMOST_START`, the smallest start known when it is reported, else 0.
///
/// ```
/// use watcher::{plain, Flags, Match, Windows};
///
/// let mut found = Vec::new();
/// plain(b"ab+", Flags::LEFTMOST_START, Windows::NONE, b"xabb", |hit| found.push(hit))?;
/// assert_eq!(found, [Match { start: 1, end: 3 }, Match { start: 1, end: 4 }]);
/// # Ok::<(), watcher::Error>(())
/// ```
#[derive(Clone, Copy, Debug, PartialEq, Eq)]
pub struct Match {
    /// The start, or 0.
    pub start: u64,
    /// The end offset.
    pub end: u64,
}

/// The plain second matcher: what this rule reports on a whole log of at most `PLAIN_LOG` bytes, in
/// its order. It uses no table, so it can be asked where a table's answer is in doubt.
///
/// ```
/// use watcher::{plain, Flags, Match, Windows};
///
/// let mut found = Vec::new();
/// plain(b"ab+", Flags::LEFTMOST_START, Windows::NONE, b"xabb", |hit| found.push(hit))?;
/// assert_eq!(found, [Match { start: 1, end: 3 }, Match { start: 1, end: 4 }]);
/// # Ok::<(), watcher::Error>(())
/// ```
pub fn plain(
    pattern: &[u8],
    flags: Flags,
    windows: Windows,
    log: &[u8],
    mut found: impl FnMut(Match),
) -> Result<(), Error> {
    let (mut offsets, mut starts) = ([0; PLAIN_LOG], [0; PLAIN_LOG]);
    let answer = raw::plain(pattern, flags.0, windows.numbers(), log, &mut offsets, &mut starts);
    Error::check(answer.number, answer.place)?;
    for (&start, &end) in starts.iter().zip(&offsets).take(answer.reports) {
        found(Match { start, end });
    }
    Ok(())
}

/// Rules, ready to be scanned for.
///
/// ```
/// use watcher::{Flags, Table};
///
/// let mut table = Table::new();
/// table.add(1, Flags::NONE, b"state=slack")?;
/// table.add(2, Flags::CASELESS, b"state=slipping")?;
/// # Ok::<(), watcher::Error>(())
/// ```
#[derive(Clone)]
pub struct Table {
    words: [u64; TABLE_WORDS],
}

impl Default for Table {
    fn default() -> Table {
        Table::new()
    }
}

impl Table {
    /// A table without rules.
    ///
    /// ```
    /// let table = watcher::Table::new();
    /// assert_eq!(watcher::Stream::open(&table).busy(), 0);
    /// ```
    pub fn new() -> Table {
        let mut words = [0; TABLE_WORDS];
        raw::empty(&mut words);
        Table { words }
    }

    /// The table in these words, as [`words`](Table::words) once gave them.
    ///
    /// ```
    /// use watcher::{Error, Table, TABLE_WORDS};
    ///
    /// let kept = *Table::new().words();
    /// assert!(Table::from_words(&kept).is_ok());
    /// assert_eq!(Table::from_words(&[0; TABLE_WORDS]).err(), Some(Error::NoTable));
    /// ```
    pub fn from_words(words: &[u64; TABLE_WORDS]) -> Result<Table, Error> {
        Error::check(raw::test(words), 0)?;
        Ok(Table { words: *words })
    }

    /// The table's words, which may be kept in a file.
    ///
    /// ```
    /// let table = watcher::Table::new();
    /// let bytes: Vec<u8> = table.words().iter().flat_map(|word| word.to_le_bytes()).collect();
    /// assert_eq!(bytes.len(), 131_072);
    /// ```
    pub fn words(&self) -> &[u64; TABLE_WORDS] {
        &self.words
    }

    /// Block `number` of the table, from 0 to `BLOCKS - 1`, for a card.
    ///
    /// ```
    /// let block = watcher::Table::new().block(3)?;
    /// assert_eq!(&block[..2], [3, 0]);
    /// # Ok::<(), watcher::Error>(())
    /// ```
    pub fn block(&self, number: usize) -> Result<[u8; BLOCK_BYTES], Error> {
        let mut block = [0; BLOCK_BYTES];
        let (answer, place) = raw::write_block(&self.words, number as u64, &mut block);
        Error::check(answer, place as usize)?;
        Ok(block)
    }

    /// The table whose blocks these are, from the first to the last.
    ///
    /// ```
    /// use watcher::{Table, BLOCKS, BLOCK_BYTES};
    ///
    /// let table = Table::new();
    /// let mut card = [[0; BLOCK_BYTES]; BLOCKS];
    /// for (number, block) in card.iter_mut().enumerate() {
    ///     *block = table.block(number)?;
    /// }
    /// assert!(Table::from_blocks(&card)?.words() == table.words());
    /// # Ok::<(), watcher::Error>(())
    /// ```
    pub fn from_blocks(blocks: &[[u8; BLOCK_BYTES]; BLOCKS]) -> Result<Table, Error> {
        let mut words = [0; TABLE_WORDS];
        for (number, block) in blocks.iter().enumerate() {
            let (answer, place) = raw::read_block(&mut words, number as u64, block);
            Error::check(answer, place as usize)?;
        }
        Table::from_words(&words)
    }

    /// Adds a rule; a refused one leaves the table as it was.
    ///
    /// ```
    /// use watcher::{Error, Flags, Table};
    ///
    /// let mut table = Table::new();
    /// assert_eq!(table.add(7, Flags::NONE, b"foo.*bar"), Ok(()));
    /// assert_eq!(table.add(7, Flags::NONE, b"slack"), Err(Error::IdTaken));
    /// ```
    pub fn add(&mut self, id: u32, flags: Flags, pattern: &[u8]) -> Result<(), Error> {
        let (number, place) = raw::add(&mut self.words, id, flags.0, pattern);
        Error::check(number, place)
    }

    /// Adds a rule with windows; without any of them this is [`add`](Table::add). A refused rule
    /// leaves the table as it was.
    ///
    /// ```
    /// use watcher::{Error, Flags, Stream, Table, Windows, NO_LIMIT};
    ///
    /// let mut table = Table::new();
    /// let windows = Windows::new().ends_from(3).ends_to(6).at_least(3);
    /// table.add_within(7, Flags::NONE, windows, b"b.*b")?;
    /// let mut ends = vec![];
    /// Stream::open(&table).scan(NO_LIMIT, b"bbxbbbb", |report| ends.push(report.end))?;
    /// assert_eq!(ends, [4, 5, 6]);
    /// let none = Windows::new().ends_from(15).ends_to(10);
    /// assert_eq!(table.add_within(8, Flags::NONE, none, b"a"), Err(Error::BadWindow));
    /// # Ok::<(), Error>(())
    /// ```
    pub fn add_within(
        &mut self,
        id: u32,
        flags: Flags,
        windows: Windows,
        pattern: &[u8],
    ) -> Result<(), Error> {
        let (number, place) =
            raw::add_within(&mut self.words, id, flags.0, windows.numbers(), pattern);
        Error::check(number, place)
    }

    /// Whether a rule of the table needs starts, since it reports them or has a smallest length, so
    /// that the table's streams keep them.
    ///
    /// ```
    /// use watcher::{Flags, Table, Windows};
    ///
    /// let mut table = Table::new();
    /// table.add(1, Flags::NONE, b"slack")?;
    /// assert!(!table.needs_starts());
    /// let mut other = table.clone();
    /// table.add(2, Flags::LEFTMOST_START, b"state=.*")?;
    /// assert!(table.needs_starts());
    /// other.add_within(2, Flags::NONE, Windows::new().at_least(9), b"state=.*")?;
    /// assert!(other.needs_starts());
    /// # Ok::<(), watcher::Error>(())
    /// ```
    pub fn needs_starts(&self) -> bool {
        raw::needs_starts(&self.words) != 0
    }
}
