//! A stream on a table. Its state is fifteen words, or 591 with starts where a rule of the table
//! needs them: the table is asked once, when the stream is opened.

use std::iter::repeat;

use crate::raw::{self, Answer, Lists};
use crate::{matched_bytes, Error, Table, REPORT_SLOTS, STATE_WORDS, TRACE_WORDS};

/// A match: the id of its rule, its start and its end offset in the stream. The start is 0 for a
/// rule without [`Flags::LEFTMOST_START`](crate::Flags::LEFTMOST_START).
///
/// ```
/// use watcher::{Flags, Report, Stream, Table, NO_LIMIT};
///
/// let mut table = Table::new();
/// table.add(7, Flags::NONE, b"foo.*bar")?;
/// table.add(8, Flags::LEFTMOST_START, b"bar")?;
/// let mut reports = vec![];
/// Stream::open(&table).scan(NO_LIMIT, b"fooxyzbar", |report| reports.push(report))?;
/// let wanted = [Report { id: 7, start: 0, end: 9 }, Report { id: 8, start: 6, end: 9 }];
/// assert_eq!(reports, wanted);
/// # Ok::<(), watcher::Error>(())
/// ```
#[derive(Clone, Copy, Debug, PartialEq, Eq)]
pub struct Report {
    /// The id that the rule was added with.
    pub id: u32,
    /// The offset of the match's first byte; 0 for a rule that reports no starts.
    pub start: u64,
    /// The offset after the match's last byte, counted from the stream's first.
    pub end: u64,
}

impl Report {
    /// The bytes of the match, from a kept tail of the stream or from the block right after it,
    /// which begins at `offset`, as [`matched_bytes`] finds them. For a rule that reports starts:
    /// of another the start is not known, and these are the bytes from the stream's first on.
    ///
    /// ```
    /// use watcher::{Error, Flags, Stream, Table, NO_LIMIT};
    ///
    /// let mut table = Table::new();
    /// table.add(7, Flags::LEFTMOST_START, b"sla.k")?;
    /// let mut stream = Stream::open(&table);
    /// let (tail, block) = (b"rope ", b"slack");
    /// stream.scan(NO_LIMIT, tail, |_| ())?;
    /// let mut found = vec![];
    /// stream.scan(NO_LIMIT, block, |report| found.push(report))?;
    /// assert_eq!(found[0].matched_bytes(tail, block, 5)?, b"slack");
    /// assert_eq!(found[0].matched_bytes(tail, b"", 5), Err(Error::NotKept));
    /// # Ok::<(), Error>(())
    /// ```
    pub fn matched_bytes<'b>(
        &self,
        tail: &'b [u8],
        block: &'b [u8],
        offset: u64,
    ) -> Result<&'b [u8], Error> {
        matched_bytes(tail, block, offset, self.start, self.end)
    }
}

/// How far a scan went: the bytes that it took, and the units of work that they cost.
///
/// ```
/// use watcher::{Scanned, Stream, Table, NO_LIMIT};
///
/// let table = Table::new();
/// let scanned = Stream::open(&table).scan(NO_LIMIT, b"abc", |_| ())?;
/// assert_eq!(scanned, Scanned { taken: 3, used: 3 });
/// # Ok::<(), watcher::Error>(())
/// ```
#[derive(Clone, Copy, Debug, Default, PartialEq, Eq)]
pub struct Scanned {
    /// The bytes of the block that were taken, from its front.
    pub taken: usize,
    /// The units of work that they cost.
    pub used: u64,
}

/// An open stream on a table.
///
/// ```
/// use watcher::{Flags, Stream, Table, NO_LIMIT};
///
/// let mut table = Table::new();
/// table.add(1, Flags::NONE, b"sl[ai]")?;
/// let mut stream = Stream::open(&table);
/// let mut ends = vec![];
/// stream.scan(NO_LIMIT, b"rope s", |report| ends.push(report.end))?;
/// stream.scan(NO_LIMIT, b"lack", |report| ends.push(report.end))?;
/// stream.close(|report| ends.push(report.end))?;
/// assert_eq!(ends, [8]);
/// # Ok::<(), watcher::Error>(())
/// ```
#[derive(Clone)]
pub struct Stream<'t> {
    table: &'t Table,
    state: State,
}

/// The words of a state, which are of two kinds.
#[derive(Clone)]
enum State {
    Short([u64; STATE_WORDS]),
    Traced(Box<[u64; TRACE_WORDS]>),
}

impl<'t> Stream<'t> {
    /// Opens a stream, at offset 0. It keeps starts if a rule of the table needs them.
    ///
    /// ```
    /// let table = watcher::Table::new();
    /// let stream = watcher::Stream::open(&table);
    /// ```
    pub fn open(table: &'t Table) -> Stream<'t> {
        if table.needs_starts() {
            let mut words = Box::new([0; TRACE_WORDS]);
            raw::trace_open(table.words(), &mut words[..]);
            return Stream { table, state: State::Traced(words) };
        }
        let mut words = [0; STATE_WORDS];
        raw::open(table.words(), &mut words);
        Stream { table, state: State::Short(words) }
    }

    /// The stream with this state, as [`state`](Stream::state) once gave it: [`STATE_WORDS`] words,
    /// or [`TRACE_WORDS`] with starts; any other number of words is [`Error::ShortState`]. The
    /// state is tested at each call. One with starts is good on every table; one without is
    /// refused where a rule of the table needs starts.
    ///
    /// ```
    /// use watcher::{Error, Flags, Stream, Table, NO_LIMIT};
    ///
    /// let mut table = Table::new();
    /// table.add(1, Flags::LEFTMOST_START, b"slack")?;
    /// let mut before = Stream::open(&table);
    /// before.scan(NO_LIMIT, b"rope sla", |_| ())?;
    /// let kept = before.state().to_vec();
    /// let mut found = vec![];
    /// let mut after = Stream::resume(&table, &kept)?;
    /// after.scan(NO_LIMIT, b"ck", |report| found.push((report.start, report.end)))?;
    /// assert_eq!(found, [(5, 10)]);
    /// assert_eq!(Stream::resume(&table, &kept[1..]).err(), Some(Error::ShortState));
    /// # Ok::<(), Error>(())
    /// ```
    pub fn resume(table: &'t Table, state: &[u64]) -> Result<Stream<'t>, Error> {
        if let Ok(words) = state.try_into() {
            return Ok(Stream { table, state: State::Short(words) });
        }
        let words = state.try_into().map_err(|_| Error::ShortState)?;
        Ok(Stream { table, state: State::Traced(Box::new(words)) })
    }

    /// The state's words, which may be kept in a file: [`STATE_WORDS`] of them, or
    /// [`TRACE_WORDS`] with starts.
    ///
    /// ```
    /// let table = watcher::Table::new();
    /// let kept = watcher::Stream::open(&table).state().to_vec();
    /// let stream = watcher::Stream::resume(&table, &kept)?;
    /// # Ok::<(), watcher::Error>(())
    /// ```
    pub fn state(&self) -> &[u64] {
        match &self.state {
            State::Short(words) => words,
            State::Traced(words) => &words[..],
        }
    }

    /// Scans a block as far as the allowance of work goes, with `NO_LIMIT` all of it, and gives
    /// each report in order. With fewer units than [`MAX_BYTE_UNITS`](crate::MAX_BYTE_UNITS) it may
    /// take nothing.
    ///
    /// ```
    /// use watcher::{Flags, Stream, Table, MAX_BYTE_UNITS};
    ///
    /// let mut table = Table::new();
    /// table.add(1, Flags::NONE, b"a+")?;
    /// let (mut stream, mut rest) = (Stream::open(&table), &b"baab"[..]);
    /// let mut ends = vec![];
    /// while !rest.is_empty() {
    ///     let scanned = stream.scan(MAX_BYTE_UNITS, rest, |report| ends.push(report.end))?;
    ///     rest = &rest[scanned.taken..];
    /// }
    /// assert_eq!(ends, [2, 3]);
    /// # Ok::<(), watcher::Error>(())
    /// ```
    pub fn scan(
        &mut self,
        allowance: u64,
        block: &[u8],
        mut found: impl FnMut(Report),
    ) -> Result<Scanned, Error> {
        let table = self.table.words();
        match &mut self.state {
            State::Short(words) => {
                let (mut ids, mut ends) = ([0; REPORT_SLOTS], [0; REPORT_SLOTS]);
                in_calls(allowance, block, |left, rest| {
                    let answer = raw::scan(table, words, left, rest, &mut ids, &mut ends);
                    give(answer, &ids, &ends, repeat(0), &mut found)
                })
            }
            State::Traced(words) => with_starts(&mut found, |slots, found| {
                in_calls(allowance, block, |left, rest| {
                    let lists = slots.lists();
                    let answer = raw::trace_scan(table, &mut words[..], left, rest, lists);
                    slots.give(answer, found)
                })
            }),
        }
    }

    /// One scan into lists of the caller's: it stops before the first byte that the allowance does
    /// not pay for, or whose reports do not all fit. The space is the shortest of the four lists,
    /// and at least twice as many slots as the table has rules. Both starts are 0 for a rule that
    /// reports none.
    ///
    /// ```
    /// use watcher::{Flags, Lists, Stream, Table, NO_LIMIT};
    ///
    /// let mut table = Table::new();
    /// table.add(5, Flags::LEFTMOST_START, b"a+")?;
    /// let (mut ids, mut offsets, mut starts, mut relatives) = ([0; 2], [0; 2], [0; 2], [0; 2]);
    /// let lists = Lists {
    ///     ids: &mut ids,
    ///     offsets: &mut offsets,
    ///     starts: &mut starts,
    ///     relatives: &mut relatives,
    /// };
    /// let answer = Stream::open(&table).scan_into(NO_LIMIT, b"baaa", lists)?;
    /// assert_eq!((answer.taken, ids, offsets), (3, [5, 5], [2, 3]));
    /// assert_eq!((starts, relatives), ([1, 1], [1, 1]));
    /// # Ok::<(), watcher::Error>(())
    /// ```
    pub fn scan_into(
        &mut self,
        allowance: u64,
        block: &[u8],
        lists: Lists,
    ) -> Result<Answer, Error> {
        let table = self.table.words();
        let answer = match &mut self.state {
            State::Short(words) => into_two(lists, |ids, offsets| {
                raw::scan(table, words, allowance, block, ids, offsets)
            }),
            State::Traced(words) => raw::trace_scan(table, &mut words[..], allowance, block, lists),
        };
        checked(answer)
    }

    /// Closes the stream, and gives the reports that needed its end: those before a last newline,
    /// then those at the end.
    ///
    /// ```
    /// use watcher::{Flags, Stream, Table, NO_LIMIT};
    ///
    /// let mut table = Table::new();
    /// table.add(1, Flags::NONE, b"end$")?;
    /// let mut stream = Stream::open(&table);
    /// let mut ends = vec![];
    /// stream.scan(NO_LIMIT, b"the end\n", |report| ends.push(report.end))?;
    /// assert_eq!(ends, []);
    /// stream.close(|report| ends.push(report.end))?;
    /// assert_eq!(ends, [7]);
    /// # Ok::<(), watcher::Error>(())
    /// ```
    pub fn close(mut self, mut found: impl FnMut(Report)) -> Result<(), Error> {
        let table = self.table.words();
        let answer = match &mut self.state {
            State::Short(words) => {
                let (mut ids, mut ends) = ([0; REPORT_SLOTS], [0; REPORT_SLOTS]);
                let answer = raw::close(table, words, &mut ids, &mut ends);
                give(answer, &ids, &ends, repeat(0), &mut found)
            }
            State::Traced(words) => with_starts(&mut found, |slots, found| {
                let answer = raw::trace_close(table, &mut words[..], slots.lists());
                slots.give(answer, found)
            }),
        };
        checked(answer).map(|_| ())
    }

    /// Closes the stream into lists of the caller's, with space as for
    /// [`scan_into`](Stream::scan_into). Relative starts are measured from the stream's end. A
    /// refused closing leaves the stream open.
    ///
    /// ```
    /// use watcher::{Error, Flags, Lists, Stream, Table, NO_LIMIT};
    ///
    /// let mut table = Table::new();
    /// table.add(5, Flags::LEFTMOST_START, b"end$")?;
    /// let mut stream = Stream::open(&table);
    /// stream.scan(NO_LIMIT, b"the end", |_| ())?;
    /// let (mut ids, mut offsets, mut starts, mut relatives) = ([0; 2], [0; 2], [0; 2], [0; 2]);
    /// let mut close = |space: usize| {
    ///     stream.close_into(Lists {
    ///         ids: &mut ids[..space],
    ///         offsets: &mut offsets,
    ///         starts: &mut starts,
    ///         relatives: &mut relatives,
    ///     })
    /// };
    /// assert_eq!(close(1), Err(Error::SmallSpace));
    /// assert_eq!(close(2)?.reports, 1);
    /// assert_eq!(close(2), Err(Error::Closed));
    /// assert_eq!((ids[0], offsets[0], starts[0], relatives[0]), (5, 7, 4, -3));
    /// # Ok::<(), Error>(())
    /// ```
    pub fn close_into(&mut self, lists: Lists) -> Result<Answer, Error> {
        let table = self.table.words();
        let answer = match &mut self.state {
            State::Short(words) => {
                into_two(lists, |ids, offsets| raw::close(table, words, ids, offsets))
            }
            State::Traced(words) => raw::trace_close(table, &mut words[..], lists),
        };
        checked(answer)
    }

    /// How many positions are live; those that wait for the end are none. The next byte costs one
    /// unit more than this.
    ///
    /// ```
    /// use watcher::{Flags, Stream, Table, NO_LIMIT};
    ///
    /// let mut table = Table::new();
    /// table.add(1, Flags::NONE, b"slack")?;
    /// let mut stream = Stream::open(&table);
    /// stream.scan(NO_LIMIT, b"rope sla", |_| ())?;
    /// assert_eq!(stream.busy(), 1);
    /// # Ok::<(), watcher::Error>(())
    /// ```
    pub fn busy(&self) -> u32 {
        match &self.state {
            State::Short(words) => raw::busy(words),
            State::Traced(words) => raw::trace_busy(&words[..]),
        }
    }
}

/// The answer, or why it is a refusal. Inlined, since each call of a scan comes by here.
#[inline]
fn checked(answer: Answer) -> Result<Answer, Error> {
    if answer.number != 0 {
        Error::check(answer.number, 0)?;
    }
    Ok(answer)
}

/// Scans until all of the block is taken, or a call takes nothing of it.
fn in_calls(
    allowance: u64,
    block: &[u8],
    mut call: impl FnMut(u64, &[u8]) -> Answer,
) -> Result<Scanned, Error> {
    let mut done = Scanned::default();
    loop {
        let answer = checked(call(allowance - done.used, &block[done.taken..]))?;
        done.taken += answer.taken;
        done.used += answer.used;
        if answer.taken == 0 || done.taken == block.len() {
            return Ok(done);
        }
    }
}

/// A call with two of four lists; the slots that it wrote have the starts 0.
fn into_two(lists: Lists, call: impl FnOnce(&mut [u32], &mut [u64]) -> Answer) -> Answer {
    let space = lists.space();
    let answer = call(&mut lists.ids[..space], &mut lists.offsets[..space]);
    lists.starts[..answer.reports].fill(0);
    lists.relatives[..answer.reports].fill(0);
    answer
}

/// Room for the reports of one call with starts.
struct Slots {
    ids: [u32; REPORT_SLOTS],
    ends: [u64; REPORT_SLOTS],
    starts: [u64; REPORT_SLOTS],
    relatives: [i64; REPORT_SLOTS],
}

impl Slots {
    fn new() -> Slots {
        let none = [0; REPORT_SLOTS];
        Slots { ids: [0; REPORT_SLOTS], ends: none, starts: none, relatives: [0; REPORT_SLOTS] }
    }

    fn lists(&mut self) -> Lists<'_> {
        let Slots { ids, ends, starts, relatives } = self;
        Lists { ids, offsets: ends, starts, relatives }
    }

    fn give(&self, answer: Answer, found: &mut impl FnMut(Report)) -> Answer {
        give(answer, &self.ids, &self.ends, self.starts.iter().copied(), found)
    }
}

/// Calls with room for reports with starts. Apart, so that a stream without starts does not pay for
/// the room.
#[inline(never)]
fn with_starts<F, T>(found: &mut F, call: impl FnOnce(&mut Slots, &mut F) -> T) -> T {
    call(&mut Slots::new(), found)
}

/// Gives the reports that a call wrote.
fn give(
    answer: Answer,
    ids: &[u32],
    ends: &[u64],
    starts: impl Iterator<Item = u64>,
    found: &mut impl FnMut(Report),
) -> Answer {
    for ((&id, &end), start) in ids.iter().zip(ends).zip(starts).take(answer.reports) {
        found(Report { id, start, end });
    }
    answer
}
