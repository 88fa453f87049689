//! The watchers whose streams keep starts. What such a watcher has besides its tables is `Tracing`;
//! `Traced` makes a watcher of it, whose calls are lent four lists.

use corpus::{Lists, Starts};
use reference::calls::Columns;
use reference::windows::Windows;

use crate::watcher::{Answer, Change, PatternReader, Reading, Watcher};

/// A watcher with another form of streams, which keeps starts.
pub trait Tracing: Watcher {
    type Traced: Clone + PartialEq;

    fn trace(&self, table: &Self::Table) -> (u32, Self::Traced);

    fn trace_scan(
        &self,
        table: &Self::Table,
        stream: Self::Traced,
        allowance: u64,
        block: &[u8],
        lists: Columns,
    ) -> Answer<Self::Traced>;

    fn trace_close(
        &self,
        table: &Self::Table,
        stream: Self::Traced,
        lists: Columns,
    ) -> Answer<Self::Traced>;

    fn trace_busy(&self, stream: &Self::Traced) -> usize;

    fn trace_changed(&self, stream: &Self::Traced, change: Change) -> Option<Self::Traced>;
}

/// That watcher with these streams.
#[derive(Clone, Copy, Debug)]
pub struct Traced<W>(pub W);

/// The four lists as calls take them.
pub fn columns<'l>(
    ids: &'l mut [u32],
    offsets: &'l mut [u64],
    starts: &'l mut Starts,
) -> Columns<'l> {
    Columns { ids, offsets, starts: &mut starts.starts, relatives: &mut starts.relatives }
}

/// Two more lists, long enough for a call with so many slots.
pub fn ample(slots: usize) -> Starts {
    Starts { starts: vec![0; slots], relatives: vec![0; slots] }
}

impl<W: Tracing> Watcher for Traced<W> {
    type Table = W::Table;
    type Stream = W::Traced;

    fn words(&self, count: usize) -> W::Table {
        self.0.words(count)
    }

    fn resized(&self, table: &W::Table, count: usize) -> W::Table {
        self.0.resized(table, count)
    }

    fn empty(&self, table: &mut W::Table) -> u32 {
        self.0.empty(table)
    }

    fn add(&self, table: &mut W::Table, id: u32, flags: u32, pattern: &[u8]) -> (u32, usize) {
        self.0.add(table, id, flags, pattern)
    }

    fn add_within(
        &self,
        table: &mut W::Table,
        id: u32,
        flags: u32,
        windows: Windows,
        pattern: &[u8],
    ) -> Option<(u32, usize)> {
        self.0.add_within(table, id, flags, windows, pattern)
    }

    fn has_windows(&self) -> bool {
        self.0.has_windows()
    }

    fn traces(&self) -> bool {
        true
    }

    fn open(&self, table: &W::Table) -> (u32, W::Traced) {
        self.0.trace(table)
    }

    fn scan(
        &self,
        table: &W::Table,
        stream: W::Traced,
        allowance: u64,
        block: &[u8],
        ids: &mut [u32],
        offsets: &mut [u64],
    ) -> Answer<W::Traced> {
        let mut starts = ample(ids.len().min(offsets.len()));
        self.0.trace_scan(table, stream, allowance, block, columns(ids, offsets, &mut starts))
    }

    fn close(
        &self,
        table: &W::Table,
        stream: W::Traced,
        ids: &mut [u32],
        offsets: &mut [u64],
    ) -> Answer<W::Traced> {
        let mut starts = ample(ids.len().min(offsets.len()));
        self.0.trace_close(table, stream, columns(ids, offsets, &mut starts))
    }

    fn scan_into(
        &self,
        table: &W::Table,
        stream: W::Traced,
        allowance: u64,
        block: &[u8],
        lists: &mut Lists,
    ) -> Answer<W::Traced> {
        let Lists { ids, offsets, starts } = lists;
        let Some(starts) = starts else {
            return self.scan(table, stream, allowance, block, ids, offsets);
        };
        self.0.trace_scan(table, stream, allowance, block, columns(ids, offsets, starts))
    }

    fn close_into(
        &self,
        table: &W::Table,
        stream: W::Traced,
        lists: &mut Lists,
    ) -> Answer<W::Traced> {
        let Lists { ids, offsets, starts } = lists;
        let Some(starts) = starts else {
            return self.close(table, stream, ids, offsets);
        };
        self.0.trace_close(table, stream, columns(ids, offsets, starts))
    }

    fn busy(&self, stream: &W::Traced) -> usize {
        self.0.trace_busy(stream)
    }

    fn changed(&self, stream: &W::Traced, change: Change) -> Option<W::Traced> {
        self.0.trace_changed(stream, change)
    }
}

impl<W: PatternReader> PatternReader for Traced<W> {
    fn read(&self, flags: u32, pattern: &[u8]) -> Reading {
        self.0.read(flags, pattern)
    }
}
