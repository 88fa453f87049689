//! The library's functions as they are, in the order of `include/watcher.h`, which says what each
//! does. A Rattle slice is a pointer and a length; the pointer is never null.

extern "C" {
    /// Makes the words an empty table.
    ///
    /// ```
    /// let mut t = [0; watcher::TABLE_WORDS];
    /// let number = unsafe { watcher::sys::watcher_empty(t.as_mut_ptr(), t.len()) };
    /// assert_eq!(number, 0);
    /// ```
    pub fn watcher_empty(table: *mut u64, table_words: usize) -> u32;

    /// Whether the words are a table.
    ///
    /// ```
    /// let table = watcher::Table::new();
    /// let (t, n) = (table.words().as_ptr(), table.words().len());
    /// assert_eq!(unsafe { watcher::sys::watcher_test(t, n) }, 0);
    /// ```
    pub fn watcher_test(table: *const u64, table_words: usize) -> u32;

    /// Adds a rule.
    ///
    /// ```
    /// let (mut t, pattern, mut place) = (*watcher::Table::new().words(), b"a**", 0);
    /// let number = unsafe {
    ///     let (t, n, p) = (t.as_mut_ptr(), t.len(), pattern.as_ptr());
    ///     watcher::sys::watcher_add(t, n, 7, 0, p, pattern.len(), &mut place)
    /// };
    /// assert_eq!((number, place), (10, 2));
    /// ```
    pub fn watcher_add(
        table: *mut u64,
        table_words: usize,
        id: u32,
        flags: u32,
        pattern: *const u8,
        pattern_length: usize,
        place: *mut usize,
    ) -> u32;

    /// Adds a rule with windows.
    ///
    /// ```
    /// let (mut t, pattern, mut place) = (*watcher::Table::new().words(), b"ab+", 9);
    /// let number = unsafe {
    ///     let (t, n, p) = (t.as_mut_ptr(), t.len(), pattern.as_ptr());
    ///     watcher::sys::watcher_add_within(t, n, 7, 0, 10, 15, 3, p, pattern.len(), &mut place)
    /// };
    /// assert_eq!((number, place), (0, 0));
    /// ```
    pub fn watcher_add_within(
        table: *mut u64,
        table_words: usize,
        id: u32,
        flags: u32,
        lowest: u64,
        highest: u64,
        shortest: u64,
        pattern: *const u8,
        pattern_length: usize,
        place: *mut usize,
    ) -> u32;

    /// Opens a stream.
    ///
    /// ```
    /// let table = watcher::Table::new();
    /// let (t, n) = (table.words().as_ptr(), table.words().len());
    /// let mut state = [0; watcher::STATE_WORDS];
    /// let number = unsafe { watcher::sys::watcher_open(t, n, state.as_mut_ptr(), state.len()) };
    /// assert_eq!(number, 0);
    /// ```
    pub fn watcher_open(
        table: *const u64,
        table_words: usize,
        state: *mut u64,
        state_words: usize,
    ) -> u32;

    /// Scans a block.
    ///
    /// ```
    /// let table = watcher::Table::new();
    /// let (t, n) = (table.words().as_ptr(), table.words().len());
    /// let mut state = watcher::Stream::open(&table).state().to_vec();
    /// let (mut ids, mut offsets, block) = ([0; 2], [0; 2], b"abc");
    /// let (mut taken, mut reports, mut used) = (0, 0, 0);
    /// let number = unsafe {
    ///     watcher::sys::watcher_scan(
    ///         t, n, state.as_mut_ptr(), state.len(), watcher::NO_LIMIT,
    ///         block.as_ptr(), block.len(),
    ///         ids.as_mut_ptr(), ids.len(), offsets.as_mut_ptr(), offsets.len(),
    ///         &mut taken, &mut reports, &mut used,
    ///     )
    /// };
    /// assert_eq!((number, taken, reports, used), (0, 3, 0, 3));
    /// ```
    pub fn watcher_scan(
        table: *const u64,
        table_words: usize,
        state: *mut u64,
        state_words: usize,
        allowance: u64,
        block: *const u8,
        block_length: usize,
        ids: *mut u32,
        ids_length: usize,
        offsets: *mut u64,
        offsets_length: usize,
        taken: *mut usize,
        reports: *mut usize,
        used: *mut u64,
    ) -> u32;

    /// Closes the stream.
    ///
    /// ```
    /// let table = watcher::Table::new();
    /// let (t, n) = (table.words().as_ptr(), table.words().len());
    /// let mut state = watcher::Stream::open(&table).state().to_vec();
    /// let (mut ids, mut offsets, mut reports) = ([0; 2], [0; 2], 0);
    /// let number = unsafe {
    ///     watcher::sys::watcher_close(
    ///         t, n, state.as_mut_ptr(), state.len(),
    ///         ids.as_mut_ptr(), ids.len(), offsets.as_mut_ptr(), offsets.len(), &mut reports,
    ///     )
    /// };
    /// assert_eq!((number, reports), (0, 0));
    /// ```
    pub fn watcher_close(
        table: *const u64,
        table_words: usize,
        state: *mut u64,
        state_words: usize,
        ids: *mut u32,
        ids_length: usize,
        offsets: *mut u64,
        offsets_length: usize,
        reports: *mut usize,
    ) -> u32;

    /// The busy figure.
    ///
    /// ```
    /// let table = watcher::Table::new();
    /// let stream = watcher::Stream::open(&table);
    /// let state = stream.state();
    /// assert_eq!(unsafe { watcher::sys::watcher_busy(state.as_ptr(), state.len()) }, 0);
    /// ```
    pub fn watcher_busy(state: *const u64, state_words: usize) -> u32;

    /// Whether a rule of the table reports starts or has a smallest length.
    ///
    /// ```
    /// let table = watcher::Table::new();
    /// let (t, n) = (table.words().as_ptr(), table.words().len());
    /// assert_eq!(unsafe { watcher::sys::watcher_needs_starts(t, n) }, 0);
    /// ```
    pub fn watcher_needs_starts(table: *const u64, table_words: usize) -> u32;

    /// Opens a stream with starts.
    ///
    /// ```
    /// let table = watcher::Table::new();
    /// let (t, n) = (table.words().as_ptr(), table.words().len());
    /// let mut state = [9; watcher::TRACE_WORDS];
    /// let (s, size) = (state.as_mut_ptr(), state.len());
    /// assert_eq!(unsafe { watcher::sys::watcher_trace_open(t, n, s, size) }, 0);
    /// assert_eq!(unsafe { watcher::sys::watcher_trace_open(t, n, s, size - 1) }, 100);
    /// ```
    pub fn watcher_trace_open(
        table: *const u64,
        table_words: usize,
        state: *mut u64,
        state_words: usize,
    ) -> u32;

    /// Scans a block of a stream with starts.
    ///
    /// ```
    /// let mut table = watcher::Table::new();
    /// table.add(7, watcher::Flags::LEFTMOST_START, b"bc")?;
    /// let (t, n) = (table.words().as_ptr(), table.words().len());
    /// let mut state = watcher::Stream::open(&table).state().to_vec();
    /// let (mut ids, mut offsets, block) = ([0; 2], [0; 2], b"abc");
    /// let (mut starts, mut relatives) = ([0; 2], [0; 2]);
    /// let (mut taken, mut reports, mut used) = (0, 0, 0);
    /// let number = unsafe {
    ///     watcher::sys::watcher_trace_scan(
    ///         t, n, state.as_mut_ptr(), state.len(), watcher::NO_LIMIT,
    ///         block.as_ptr(), block.len(),
    ///         ids.as_mut_ptr(), ids.len(), offsets.as_mut_ptr(), offsets.len(),
    ///         starts.as_mut_ptr(), starts.len(), relatives.as_mut_ptr(), relatives.len(),
    ///         &mut taken, &mut reports, &mut used,
    ///     )
    /// };
    /// assert_eq!((number, taken, reports, used), (0, 3, 1, 4));
    /// assert_eq!((ids[0], offsets[0], starts[0], relatives[0]), (7, 3, 1, 1));
    /// # Ok::<(), watcher::Error>(())
    /// ```
    pub fn watcher_trace_scan(
        table: *const u64,
        table_words: usize,
        state: *mut u64,
        state_words: usize,
        allowance: u64,
        block: *const u8,
        block_length: usize,
        ids: *mut u32,
        ids_length: usize,
        offsets: *mut u64,
        offsets_length: usize,
        starts: *mut u64,
        starts_length: usize,
        relatives: *mut i64,
        relatives_length: usize,
        taken: *mut usize,
        reports: *mut usize,
        used: *mut u64,
    ) -> u32;

    /// Closes a stream with starts.
    ///
    /// ```
    /// let table = watcher::Table::new();
    /// let (t, n) = (table.words().as_ptr(), table.words().len());
    /// let mut state = [0; watcher::TRACE_WORDS];
    /// let (mut ids, mut offsets, mut reports) = ([0; 2], [0; 2], 0);
    /// let (mut starts, mut relatives) = ([0; 2], [0; 2]);
    /// let number = unsafe {
    ///     watcher::sys::watcher_trace_close(
    ///         t, n, state.as_mut_ptr(), state.len(),
    ///         ids.as_mut_ptr(), ids.len(), offsets.as_mut_ptr(), offsets.len(),
    ///         starts.as_mut_ptr(), starts.len(), relatives.as_mut_ptr(), relatives.len(),
    ///         &mut reports,
    ///     )
    /// };
    /// assert_eq!((number, reports), (0, 0));
    /// ```
    pub fn watcher_trace_close(
        table: *const u64,
        table_words: usize,
        state: *mut u64,
        state_words: usize,
        ids: *mut u32,
        ids_length: usize,
        offsets: *mut u64,
        offsets_length: usize,
        starts: *mut u64,
        starts_length: usize,
        relatives: *mut i64,
        relatives_length: usize,
        reports: *mut usize,
    ) -> u32;

    /// The busy figure of a state with starts.
    ///
    /// ```
    /// let state = [0; watcher::TRACE_WORDS];
    /// assert_eq!(unsafe { watcher::sys::watcher_trace_busy(state.as_ptr(), state.len()) }, 0);
    /// ```
    pub fn watcher_trace_busy(state: *const u64, state_words: usize) -> u32;

    /// Writes a block of the table.
    ///
    /// ```
    /// let table = watcher::Table::new();
    /// let (t, n) = (table.words().as_ptr(), table.words().len());
    /// let (mut block, mut place) = ([0; watcher::BLOCK_BYTES], 9);
    /// let number = unsafe {
    ///     watcher::sys::watcher_write_block(t, n, 0, block.as_mut_ptr(), block.len(), &mut place)
    /// };
    /// assert_eq!((number, place), (0, 0));
    /// ```
    pub fn watcher_write_block(
        table: *const u64,
        table_words: usize,
        number: u64,
        block: *mut u8,
        block_length: usize,
        place: *mut u64,
    ) -> u32;

    /// Reads a block into the table's words.
    ///
    /// ```
    /// let (mut t, block, mut place) = ([0; watcher::TABLE_WORDS], [0; watcher::BLOCK_BYTES], 0);
    /// let number = unsafe {
    ///     let (t, n, b) = (t.as_mut_ptr(), t.len(), block.as_ptr());
    ///     watcher::sys::watcher_read_block(t, n, 3, b, block.len(), &mut place)
    /// };
    /// assert_eq!((number, place), (27, 3));
    /// ```
    pub fn watcher_read_block(
        table: *mut u64,
        table_words: usize,
        number: u64,
        block: *const u8,
        block_length: usize,
        place: *mut u64,
    ) -> u32;

    /// Where the bytes of a match stand: 0 in the block, 1 in the tail.
    ///
    /// ```
    /// let (tail, block, mut place, mut size) = (b"ab", b"cd", 0, 0);
    /// let source = unsafe {
    ///     let (t, b) = (tail.as_ptr(), block.as_ptr());
    ///     watcher::sys::watcher_matched_bytes(t, 2, b, 2, 2, 1, 2, &mut place, &mut size)
    /// };
    /// assert_eq!((source, place, size), (1, 1, 1));
    /// ```
    pub fn watcher_matched_bytes(
        tail: *const u8,
        tail_length: usize,
        block: *const u8,
        block_length: usize,
        offset: u64,
        start: u64,
        end: u64,
        place: *mut usize,
        size: *mut usize,
    ) -> u32;

    /// The number of the same question.
    ///
    /// ```
    /// let (tail, block) = (b"ab", b"cd");
    /// let number = unsafe {
    ///     let (t, b) = (tail.as_ptr(), block.as_ptr());
    ///     watcher::sys::watcher_matched_number(t, 2, b, 2, 2, 1, 3)
    /// };
    /// assert_eq!(number, 25);
    /// ```
    pub fn watcher_matched_number(
        tail: *const u8,
        tail_length: usize,
        block: *const u8,
        block_length: usize,
        offset: u64,
        start: u64,
        end: u64,
    ) -> u32;

    /// What one rule reports on a whole log, by the plain matcher.
    ///
    /// ```
    /// let (pattern, log) = (b"ab", b"ab");
    /// let (mut offsets, mut starts) = ([0; 1024], [0; 1024]);
    /// let (mut place, mut reports) = (0, 0);
    /// let number = unsafe {
    ///     let (p, l) = (pattern.as_ptr(), log.as_ptr());
    ///     let (o, s) = (offsets.as_mut_ptr(), starts.as_mut_ptr());
    ///     let (most, all) = (u64::MAX, 1024);
    ///     watcher::sys::watcher_plain(
    ///         p, 2, 0, 0, most, 0, l, 2, o, all, s, all, &mut place, &mut reports,
    ///     )
    /// };
    /// assert_eq!((number, place, reports, offsets[0]), (0, 0, 1, 2));
    /// ```
    pub fn watcher_plain(
        pattern: *const u8,
        pattern_length: usize,
        flags: u32,
        lowest: u64,
        highest: u64,
        shortest: u64,
        log: *const u8,
        log_length: usize,
        offsets: *mut u64,
        offsets_length: usize,
        starts: *mut u64,
        starts_length: usize,
        place: *mut usize,
        reports: *mut usize,
    ) -> u32;
}
