//! The library's functions over slices: safe, for any content of the words. Everything `unsafe` of
//! this crate is here. It is sound because a Rust slice is a valid, aligned pointer, not null, for
//! as many elements as it says, and two `&mut` never overlap.

use crate::sys;

/// What a scan or a closing answers: its number, the bytes taken, the reports written, the units of
/// work used. A closing takes no bytes and no allowance.
///
/// ```
/// use watcher::raw::{self, Answer};
///
/// let answer = raw::scan(&[], &mut [0; 15], 0, b"", &mut [], &mut []);
/// assert_eq!(answer, Answer { number: 1, taken: 0, reports: 0, used: 0 });
/// ```
#[derive(Clone, Copy, Debug, PartialEq, Eq)]
pub struct Answer {
    /// 0, or why the call was refused.
    pub number: u32,
    /// The bytes of the block that were taken.
    pub taken: usize,
    /// The slots that were written, from the front of each list.
    pub reports: usize,
    /// The units of work that the bytes cost.
    pub used: u64,
}

/// Makes the words an empty table. The number, 0 or 1.
///
/// ```
/// let mut table = vec![9; watcher::TABLE_WORDS];
/// assert_eq!(watcher::raw::empty(&mut table), 0);
/// assert_eq!(watcher::raw::empty(&mut table[1..]), 1);
/// ```
pub fn empty(table: &mut [u64]) -> u32 {
    unsafe { sys::watcher_empty(table.as_mut_ptr(), table.len()) }
}

/// 0 if the words are a table, else 1.
///
/// ```
/// assert_eq!(watcher::raw::test(watcher::Table::new().words()), 0);
/// assert_eq!(watcher::raw::test(&[0; watcher::TABLE_WORDS]), 1);
/// ```
pub fn test(table: &[u64]) -> u32 {
    unsafe { sys::watcher_test(table.as_ptr(), table.len()) }
}

/// Adds a rule. The number and the place.
///
/// ```
/// let mut table = *watcher::Table::new().words();
/// assert_eq!(watcher::raw::add(&mut table, 7, 0, b"foo.*bar"), (0, 0));
/// assert_eq!(watcher::raw::add(&mut table, 8, 0, b"a**"), (10, 2));
/// ```
pub fn add(table: &mut [u64], id: u32, flags: u32, pattern: &[u8]) -> (u32, usize) {
    let mut place = 0;
    let number = unsafe {
        sys::watcher_add(
            table.as_mut_ptr(),
            table.len(),
            id,
            flags,
            pattern.as_ptr(),
            pattern.len(),
            &mut place,
        )
    };
    (number, place)
}

/// Adds a rule with windows: the smallest and the largest end offset and the smallest length. The
/// number and the place.
///
/// ```
/// let mut table = *watcher::Table::new().words();
/// assert_eq!(watcher::raw::add_within(&mut table, 7, 0, (10, 15, 0), b"foo.*bar"), (0, 0));
/// assert_eq!(watcher::raw::add_within(&mut table, 8, 0, (15, 10, 0), b"a**"), (26, 0));
/// ```
pub fn add_within(
    table: &mut [u64],
    id: u32,
    flags: u32,
    (lowest, highest, shortest): (u64, u64, u64),
    pattern: &[u8],
) -> (u32, usize) {
    let mut place = 0;
    let number = unsafe {
        sys::watcher_add_within(
            table.as_mut_ptr(),
            table.len(),
            id,
            flags,
            lowest,
            highest,
            shortest,
            pattern.as_ptr(),
            pattern.len(),
            &mut place,
        )
    };
    (number, place)
}

/// Opens a stream. The number.
///
/// ```
/// let mut state = [0; watcher::STATE_WORDS];
/// assert_eq!(watcher::raw::open(watcher::Table::new().words(), &mut state), 0);
/// ```
pub fn open(table: &[u64], state: &mut [u64]) -> u32 {
    unsafe { sys::watcher_open(table.as_ptr(), table.len(), state.as_mut_ptr(), state.len()) }
}

/// Scans a block into the lists.
///
/// ```
/// use watcher::{raw, Flags, Table, NO_LIMIT};
///
/// let mut table = Table::new();
/// table.add(7, Flags::NONE, b"ab")?;
/// let (mut state, mut ids, mut offsets) = ([0; watcher::STATE_WORDS], [0; 2], [0; 2]);
/// raw::open(table.words(), &mut state);
/// let answer = raw::scan(table.words(), &mut state, NO_LIMIT, b"cab", &mut ids, &mut offsets);
/// assert_eq!((answer.taken, answer.reports, ids[0], offsets[0]), (3, 1, 7, 3));
/// # Ok::<(), watcher::Error>(())
/// ```
pub fn scan(
    table: &[u64],
    state: &mut [u64],
    allowance: u64,
    block: &[u8],
    ids: &mut [u32],
    offsets: &mut [u64],
) -> Answer {
    let (mut taken, mut reports, mut used) = (0, 0, 0);
    let number = unsafe {
        sys::watcher_scan(
            table.as_ptr(),
            table.len(),
            state.as_mut_ptr(),
            state.len(),
            allowance,
            block.as_ptr(),
            block.len(),
            ids.as_mut_ptr(),
            ids.len(),
            offsets.as_mut_ptr(),
            offsets.len(),
            &mut taken,
            &mut reports,
            &mut used,
        )
    };
    Answer { number, taken, reports, used }
}

/// Closes the stream, with the reports that needed its end.
///
/// ```
/// use watcher::{raw, Flags, Table, NO_LIMIT};
///
/// let mut table = Table::new();
/// table.add(7, Flags::NONE, b"ab$")?;
/// let (mut state, mut ids, mut offsets) = ([0; watcher::STATE_WORDS], [0; 2], [0; 2]);
/// raw::open(table.words(), &mut state);
/// raw::scan(table.words(), &mut state, NO_LIMIT, b"cab", &mut ids, &mut offsets);
/// let answer = raw::close(table.words(), &mut state, &mut ids, &mut offsets);
/// assert_eq!((answer.reports, ids[0], offsets[0]), (1, 7, 3));
/// # Ok::<(), watcher::Error>(())
/// ```
pub fn close(table: &[u64], state: &mut [u64], ids: &mut [u32], offsets: &mut [u64]) -> Answer {
    let mut reports = 0;
    let number = unsafe {
        sys::watcher_close(
            table.as_ptr(),
            table.len(),
            state.as_mut_ptr(),
            state.len(),
            ids.as_mut_ptr(),
            ids.len(),
            offsets.as_mut_ptr(),
            offsets.len(),
            &mut reports,
        )
    };
    Answer { number, taken: 0, reports, used: 0 }
}

/// How many positions are live; 0 for too few words.
///
/// ```
/// assert_eq!(watcher::raw::busy(&[]), 0);
/// ```
pub fn busy(state: &[u64]) -> u32 {
    unsafe { sys::watcher_busy(state.as_ptr(), state.len()) }
}

/// 1 if a rule of the table reports starts or has a smallest length, so that its streams are those
/// with starts; else 0, also for words that are no table.
///
/// ```
/// use watcher::{raw, Flags, Table};
///
/// let mut table = Table::new();
/// assert_eq!(raw::needs_starts(table.words()), 0);
/// table.add(7, Flags::LEFTMOST_START, b"ab")?;
/// assert_eq!(raw::needs_starts(table.words()), 1);
/// assert_eq!(raw::needs_starts(&[]), 0);
/// # Ok::<(), watcher::Error>(())
/// ```
pub fn needs_starts(table: &[u64]) -> u32 {
    unsafe { sys::watcher_needs_starts(table.as_ptr(), table.len()) }
}

/// Four lists that the reports of a stream with starts are written into, a slot of each for a
/// report; the space is the shortest of them.
///
/// ```
/// use watcher::Lists;
///
/// let (mut ids, mut offsets, mut starts, mut relatives) = ([0; 4], [0; 5], [0; 6], [0; 3]);
/// let lists = Lists {
///     ids: &mut ids,
///     offsets: &mut offsets,
///     starts: &mut starts,
///     relatives: &mut relatives,
/// };
/// assert_eq!(lists.space(), 3);
/// ```
#[derive(Debug)]
pub struct Lists<'l> {
    /// The ids of the rules.
    pub ids: &'l mut [u32],
    /// The end offsets in the stream.
    pub offsets: &'l mut [u64],
    /// The starts in the stream; 0 for a rule without the flag.
    pub starts: &'l mut [u64],
    /// The starts measured from the first byte of the block, at closing from the stream's end:
    /// below zero when the match began in an earlier block. 0 for a rule without the flag.
    pub relatives: &'l mut [i64],
}

impl Lists<'_> {
    /// How many reports fit: the slots of the shortest list.
    ///
    /// ```
    /// use watcher::Lists;
    ///
    /// let (mut ids, mut offsets, mut starts, mut relatives) = ([0; 4], [0; 4], [0; 4], [0; 4]);
    /// let lists = Lists {
    ///     ids: &mut ids[..2],
    ///     offsets: &mut offsets,
    ///     starts: &mut starts,
    ///     relatives: &mut relatives,
    /// };
    /// assert_eq!(lists.space(), 2);
    /// ```
    pub fn space(&self) -> usize {
        let lengths = [self.offsets.len(), self.starts.len(), self.relatives.len()];
        lengths.into_iter().fold(self.ids.len(), usize::min)
    }
}

/// Opens a stream with starts. The number.
///
/// ```
/// let mut state = [9; watcher::TRACE_WORDS];
/// assert_eq!(watcher::raw::trace_open(watcher::Table::new().words(), &mut state), 0);
/// assert_eq!(state, [0; watcher::TRACE_WORDS]);
/// ```
pub fn trace_open(table: &[u64], state: &mut [u64]) -> u32 {
    let (words, count) = (state.as_mut_ptr(), state.len());
    unsafe { sys::watcher_trace_open(table.as_ptr(), table.len(), words, count) }
}

/// Scans a block of a stream with starts into the lists.
///
/// ```
/// use watcher::{raw, Flags, Lists, Table, NO_LIMIT};
///
/// let mut table = Table::new();
/// table.add(7, Flags::LEFTMOST_START, b"abc")?;
/// let mut state = [0; watcher::TRACE_WORDS];
/// raw::trace_open(table.words(), &mut state);
/// let (mut ids, mut offsets, mut starts, mut relatives) = ([0; 2], [0; 2], [0; 2], [0; 2]);
/// let mut reports = 0;
/// for block in [&b"xa"[..], b"b", b"c"] {
///     let lists = Lists {
///         ids: &mut ids,
///         offsets: &mut offsets,
///         starts: &mut starts,
///         relatives: &mut relatives,
///     };
///     reports += raw::trace_scan(table.words(), &mut state, NO_LIMIT, block, lists).reports;
/// }
/// assert_eq!((reports, ids[0], offsets[0], starts[0], relatives[0]), (1, 7, 4, 1, -2));
/// # Ok::<(), watcher::Error>(())
/// ```
pub fn trace_scan(
    table: &[u64],
    state: &mut [u64],
    allowance: u64,
    block: &[u8],
    lists: Lists,
) -> Answer {
    let (mut taken, mut reports, mut used) = (0, 0, 0);
    let number = unsafe {
        sys::watcher_trace_scan(
            table.as_ptr(),
            table.len(),
            state.as_mut_ptr(),
            state.len(),
            allowance,
            block.as_ptr(),
            block.len(),
            lists.ids.as_mut_ptr(),
            lists.ids.len(),
            lists.offsets.as_mut_ptr(),
            lists.offsets.len(),
            lists.starts.as_mut_ptr(),
            lists.starts.len(),
            lists.relatives.as_mut_ptr(),
            lists.relatives.len(),
            &mut taken,
            &mut reports,
            &mut used,
        )
    };
    Answer { number, taken, reports, used }
}

/// Closes a stream with starts, with the reports that needed its end.
///
/// ```
/// use watcher::{raw, Flags, Lists, Stream, Table, NO_LIMIT};
///
/// let mut table = Table::new();
/// table.add(7, Flags::LEFTMOST_START, b"ab$")?;
/// let mut stream = Stream::open(&table);
/// stream.scan(NO_LIMIT, b"cab", |_| ())?;
/// let mut state = stream.state().to_vec();
/// let (mut ids, mut offsets, mut starts, mut relatives) = ([0; 2], [0; 2], [0; 2], [0; 2]);
/// let lists = Lists {
///     ids: &mut ids,
///     offsets: &mut offsets,
///     starts: &mut starts,
///     relatives: &mut relatives,
/// };
/// assert_eq!(raw::trace_close(table.words(), &mut state, lists).reports, 1);
/// assert_eq!((ids[0], offsets[0], starts[0], relatives[0]), (7, 3, 1, -2));
/// # Ok::<(), watcher::Error>(())
/// ```
pub fn trace_close(table: &[u64], state: &mut [u64], lists: Lists) -> Answer {
    let mut reports = 0;
    let number = unsafe {
        sys::watcher_trace_close(
            table.as_ptr(),
            table.len(),
            state.as_mut_ptr(),
            state.len(),
            lists.ids.as_mut_ptr(),
            lists.ids.len(),
            lists.offsets.as_mut_ptr(),
            lists.offsets.len(),
            lists.starts.as_mut_ptr(),
            lists.starts.len(),
            lists.relatives.as_mut_ptr(),
            lists.relatives.len(),
            &mut reports,
        )
    };
    Answer { number, taken: 0, reports, used: 0 }
}

/// How many positions of a state with starts are live; 0 for too few words.
///
/// ```
/// let mut state = [0; watcher::TRACE_WORDS];
/// state[0] = 0b101;
/// assert_eq!(watcher::raw::trace_busy(&state), 2);
/// assert_eq!(watcher::raw::trace_busy(&state[1..]), 0);
/// ```
pub fn trace_busy(state: &[u64]) -> u32 {
    unsafe { sys::watcher_trace_busy(state.as_ptr(), state.len()) }
}

/// Writes a block of the table. The number and the place.
///
/// ```
/// let mut block = [0; watcher::BLOCK_BYTES];
/// let table = watcher::Table::new();
/// assert_eq!(watcher::raw::write_block(table.words(), 0, &mut block), (0, 0));
/// assert_eq!(watcher::raw::write_block(table.words(), 261, &mut block), (27, 261));
/// ```
pub fn write_block(table: &[u64], number: u64, block: &mut [u8]) -> (u32, u64) {
    let mut place = 0;
    let answer = unsafe {
        sys::watcher_write_block(
            table.as_ptr(),
            table.len(),
            number,
            block.as_mut_ptr(),
            block.len(),
            &mut place,
        )
    };
    (answer, place)
}

/// Reads a block into the table's words. The number and the place.
///
/// ```
/// let block = watcher::Table::new().block(5)?;
/// let mut words = [0; watcher::TABLE_WORDS];
/// assert_eq!(watcher::raw::read_block(&mut words, 5, &block), (0, 0));
/// assert_eq!(watcher::raw::read_block(&mut words, 6, &block), (27, 6));
/// # Ok::<(), watcher::Error>(())
/// ```
pub fn read_block(table: &mut [u64], number: u64, block: &[u8]) -> (u32, u64) {
    let mut place = 0;
    let answer = unsafe {
        sys::watcher_read_block(
            table.as_mut_ptr(),
            table.len(),
            number,
            block.as_ptr(),
            block.len(),
            &mut place,
        )
    };
    (answer, place)
}

/// Where the bytes of a match stand.
///
/// ```
/// let part = watcher::raw::matched_bytes(b"ab", b"cd", 2, 0, 1);
/// assert_eq!(part, watcher::raw::Part { tail: true, place: 0, size: 1 });
/// ```
#[derive(Clone, Copy, Debug, PartialEq, Eq)]
pub struct Part {
    /// In the tail, or in the block?
    pub tail: bool,
    /// The first of them there.
    pub place: usize,
    /// How many.
    pub size: usize,
}

/// Where the bytes from `start` up to `end` stand, in the tail or in the block, which begins at
/// `offset`; none of the block if neither holds them all.
///
/// ```
/// let part = watcher::raw::matched_bytes(b"ab", b"cd", 2, 3, 4);
/// assert_eq!(part, watcher::raw::Part { tail: false, place: 1, size: 1 });
/// ```
pub fn matched_bytes(tail: &[u8], block: &[u8], offset: u64, start: u64, end: u64) -> Part {
    let (mut place, mut size) = (0, 0);
    let source = unsafe {
        sys::watcher_matched_bytes(
            tail.as_ptr(),
            tail.len(),
            block.as_ptr(),
            block.len(),
            offset,
            start,
            end,
            &mut place,
            &mut size,
        )
    };
    Part { tail: source != 0, place, size }
}

/// The number of the same question.
///
/// ```
/// assert_eq!(watcher::raw::matched_number(b"ab", b"cd", 2, 1, 2), 0);
/// assert_eq!(watcher::raw::matched_number(b"ab", b"cd", 2, 1, 3), 25);
/// ```
pub fn matched_number(tail: &[u8], block: &[u8], offset: u64, start: u64, end: u64) -> u32 {
    unsafe {
        sys::watcher_matched_number(
            tail.as_ptr(),
            tail.len(),
            block.as_ptr(),
            block.len(),
            offset,
            start,
            end,
        )
    }
}

/// What the plain matcher answers: its number, the place of a fault, the reports written.
///
/// ```
/// let (mut offsets, mut starts) = ([0; 1024], [0; 1024]);
/// let windows = (0, u64::MAX, 0);
/// let answer = watcher::raw::plain(b"ab+", 0, windows, b"abb", &mut offsets, &mut starts);
/// assert_eq!(answer, watcher::raw::Plain { number: 0, place: 0, reports: 2 });
/// assert_eq!(offsets[..2], [2, 3]);
/// ```
#[derive(Clone, Copy, Debug, PartialEq, Eq)]
pub struct Plain {
    /// 0, or why it was refused.
    pub number: u32,
    /// Where the fault of a refused pattern lies.
    pub place: usize,
    /// How many reports were written.
    pub reports: usize,
}

/// What one rule reports on a whole log, by the plain matcher: the windows are the smallest and the
/// largest end offset and the smallest length.
///
/// ```
/// let (mut offsets, mut starts) = ([0; 1024], [0; 1024]);
/// let windows = (0, u64::MAX, 0);
/// let answer = watcher::raw::plain(b"ab+", 0, windows, b"abb", &mut offsets, &mut starts);
/// assert_eq!(answer, watcher::raw::Plain { number: 0, place: 0, reports: 2 });
/// assert_eq!(offsets[..2], [2, 3]);
/// ```
pub fn plain(
    pattern: &[u8],
    flags: u32,
    (lowest, highest, shortest): (u64, u64, u64),
    log: &[u8],
    offsets: &mut [u64],
    starts: &mut [u64],
) -> Plain {
    let (mut place, mut reports) = (0, 0);
    let number = unsafe {
        sys::watcher_plain(
            pattern.as_ptr(),
            pattern.len(),
            flags,
            lowest,
            highest,
            shortest,
            log.as_ptr(),
            log.len(),
            offsets.as_mut_ptr(),
            offsets.len(),
            starts.as_mut_ptr(),
            starts.len(),
            &mut place,
            &mut reports,
        )
    };
    Plain { number, place, reports }
}
