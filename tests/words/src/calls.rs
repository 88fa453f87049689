//! The calls over lent words, as the library has them: a state is fifteen words that the caller
//! owns, or 591 where it keeps starts.

use reference::calls::Columns;
use reference::windows::Windows;

/// The allowance of a caller who sets no limit to a scan's work.
pub const NO_LIMIT: u64 = u64::MAX;

/// What a scan or a closing answers besides the words it leaves; a closing takes no bytes and no
/// allowance.
#[derive(Clone, Copy, Debug, PartialEq, Eq)]
pub struct Answer {
    pub number: u32,
    pub taken: usize,
    pub count: usize,
    /// Units of work.
    pub used: u64,
}

pub trait Calls {
    fn empty(&self, table: &mut [u64]) -> u32;

    /// 0 for words that are a table, else 1.
    fn test(&self, table: &[u64]) -> u32;

    /// 1 for a table in which a rule reports starts, or a position keeps one; else 0, also for
    /// words that are no table.
    fn needs_starts(&self, table: &[u64]) -> u32;

    /// The number and the place.
    fn add(&self, table: &mut [u64], id: u32, flags: u32, pattern: &[u8]) -> (u32, usize);

    /// The same for a rule with windows.
    fn add_within(
        &self,
        table: &mut [u64],
        id: u32,
        flags: u32,
        windows: Windows,
        pattern: &[u8],
    ) -> (u32, usize);

    fn open(&self, table: &[u64], state: &mut [u64]) -> u32;

    fn scan(
        &self,
        table: &[u64],
        state: &mut [u64],
        allowance: u64,
        block: &[u8],
        ids: &mut [u32],
        offsets: &mut [u64],
    ) -> Answer;

    fn close(
        &self,
        table: &[u64],
        state: &mut [u64],
        ids: &mut [u32],
        offsets: &mut [u64],
    ) -> Answer;

    fn busy(&self, state: &[u64]) -> u32;
}

/// The calls on a state that keeps starts: they have four lists.
pub trait Traces {
    fn trace_open(&self, table: &[u64], state: &mut [u64]) -> u32;

    fn trace_scan(
        &self,
        table: &[u64],
        state: &mut [u64],
        allowance: u64,
        block: &[u8],
        lists: Columns,
    ) -> Answer;

    fn trace_close(&self, table: &[u64], state: &mut [u64], lists: Columns) -> Answer;

    fn trace_busy(&self, state: &[u64]) -> u32;
}
