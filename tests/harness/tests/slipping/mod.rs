//! Calls over words that slip somewhere: each is the interpreter's, but for those that a slip says.

use std::borrow::Cow;

use reference::calls::Columns;
use reference::windows::Windows;
use words::calls::{Answer, Calls, Traces};
use words::interpreter::Interpreter;

pub trait Slipping {
    /// The words that a scan of this block, or a closing, takes for the table.
    fn read<'t>(&self, table: &'t [u64], _state: &[u64], _block: &[u8]) -> Cow<'t, [u64]> {
        Cow::Borrowed(table)
    }

    fn test(&self, table: &[u64]) -> u32 {
        Interpreter.test(table)
    }

    fn needs_starts(&self, table: &[u64]) -> u32 {
        Interpreter.needs_starts(table)
    }

    /// An addition, also of a rule without windows.
    fn add(
        &self,
        table: &mut [u64],
        id: u32,
        flags: u32,
        windows: Windows,
        pattern: &[u8],
    ) -> (u32, usize) {
        Interpreter.add_within(table, id, flags, windows, pattern)
    }

    fn open(&self, table: &[u64], state: &mut [u64]) -> u32 {
        Interpreter.open(table, state)
    }

    fn scan(
        &self,
        table: &[u64],
        state: &mut [u64],
        allowance: u64,
        block: &[u8],
        ids: &mut [u32],
        offsets: &mut [u64],
    ) -> Answer {
        let table = self.read(table, state, block);
        Interpreter.scan(&table, state, allowance, block, ids, offsets)
    }

    fn close(
        &self,
        table: &[u64],
        state: &mut [u64],
        ids: &mut [u32],
        offsets: &mut [u64],
    ) -> Answer {
        let table = self.read(table, state, b"");
        Interpreter.close(&table, state, ids, offsets)
    }

    fn busy(&self, state: &[u64]) -> u32 {
        Interpreter.busy(state)
    }

    fn trace_open(&self, table: &[u64], state: &mut [u64]) -> u32 {
        Interpreter.trace_open(table, state)
    }

    /// A scan of a block with an allowance, or a closing, on a state that keeps starts.
    fn trace(
        &self,
        table: &[u64],
        state: &mut [u64],
        scan: Option<(&[u8], u64)>,
        lists: Columns,
    ) -> Answer {
        traced(table, state, scan, lists)
    }

    fn trace_busy(&self, state: &[u64]) -> u32 {
        Interpreter.trace_busy(state)
    }
}

/// The interpreter's scan or closing on a state that keeps starts.
pub fn traced(
    table: &[u64],
    state: &mut [u64],
    scan: Option<(&[u8], u64)>,
    lists: Columns,
) -> Answer {
    match scan {
        Some((block, allowance)) => Interpreter.trace_scan(table, state, allowance, block, lists),
        None => Interpreter.trace_close(table, state, lists),
    }
}

/// The calls with a slip.
#[derive(Clone, Copy, Debug)]
pub struct With<S>(pub S);

impl<S: Slipping> Calls for With<S> {
    fn empty(&self, table: &mut [u64]) -> u32 {
        Interpreter.empty(table)
    }

    fn test(&self, table: &[u64]) -> u32 {
        self.0.test(table)
    }

    fn needs_starts(&self, table: &[u64]) -> u32 {
        self.0.needs_starts(table)
    }

    fn add(&self, table: &mut [u64], id: u32, flags: u32, pattern: &[u8]) -> (u32, usize) {
        self.0.add(table, id, flags, Windows::NONE, pattern)
    }

    fn add_within(
        &self,
        table: &mut [u64],
        id: u32,
        flags: u32,
        windows: Windows,
        pattern: &[u8],
    ) -> (u32, usize) {
        self.0.add(table, id, flags, windows, pattern)
    }

    fn open(&self, table: &[u64], state: &mut [u64]) -> u32 {
        self.0.open(table, state)
    }

    fn scan(
        &self,
        table: &[u64],
        state: &mut [u64],
        allowance: u64,
        block: &[u8],
        ids: &mut [u32],
        offsets: &mut [u64],
    ) -> Answer {
        self.0.scan(table, state, allowance, block, ids, offsets)
    }

    fn close(
        &self,
        table: &[u64],
        state: &mut [u64],
        ids: &mut [u32],
        offsets: &mut [u64],
    ) -> Answer {
        self.0.close(table, state, ids, offsets)
    }

    fn busy(&self, state: &[u64]) -> u32 {
        self.0.busy(state)
    }
}

impl<S: Slipping> Traces for With<S> {
    fn trace_open(&self, table: &[u64], state: &mut [u64]) -> u32 {
        self.0.trace_open(table, state)
    }

    fn trace_scan(
        &self,
        table: &[u64],
        state: &mut [u64],
        allowance: u64,
        block: &[u8],
        lists: Columns,
    ) -> Answer {
        self.0.trace(table, state, Some((block, allowance)), lists)
    }

    fn trace_close(&self, table: &[u64], state: &mut [u64], lists: Columns) -> Answer {
        self.0.trace(table, state, None, lists)
    }

    fn trace_busy(&self, state: &[u64]) -> u32 {
        self.0.trace_busy(state)
    }
}
