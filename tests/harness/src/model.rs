//! The reference behind the interface: the model of the calls, with both forms of streams, the
//! reader, and the program.

use corpus::Kept;
use reference::calls::{self, Columns, Stream, Table};
use reference::windows::Windows;
use reference::{program, rule};

use crate::traced::Tracing;
use crate::watcher::{Answer, Change, PatternReader, Program, Reading, Watcher};

#[derive(Clone, Copy, Debug)]
pub struct Model;

impl Watcher for Model {
    type Table = Table;
    type Stream = Stream;

    fn words(&self, count: usize) -> Table {
        Table::lent(count)
    }

    fn resized(&self, table: &Table, count: usize) -> Table {
        table.resized(count)
    }

    fn empty(&self, table: &mut Table) -> u32 {
        table.empty()
    }

    fn add(&self, table: &mut Table, id: u32, flags: u32, pattern: &[u8]) -> (u32, usize) {
        match table.add(id, flags, pattern) {
            Ok(()) => (0, 0),
            Err(refusal) => (refusal.number, refusal.place),
        }
    }

    fn add_within(
        &self,
        table: &mut Table,
        id: u32,
        flags: u32,
        windows: Windows,
        pattern: &[u8],
    ) -> Option<(u32, usize)> {
        Some(match table.add_within(id, flags, windows, pattern) {
            Ok(()) => (0, 0),
            Err(refusal) => (refusal.number, refusal.place),
        })
    }

    fn has_windows(&self) -> bool {
        true
    }

    fn open(&self, table: &Table) -> (u32, Stream) {
        table.open()
    }

    fn scan(
        &self,
        table: &Table,
        stream: Stream,
        allowance: u64,
        block: &[u8],
        ids: &mut [u32],
        offsets: &mut [u64],
    ) -> Answer<Stream> {
        answer(stream.scan(table, allowance, block, ids, offsets))
    }

    fn close(
        &self,
        table: &Table,
        stream: Stream,
        ids: &mut [u32],
        offsets: &mut [u64],
    ) -> Answer<Stream> {
        answer(stream.close(table, ids, offsets))
    }

    fn busy(&self, stream: &Stream) -> usize {
        stream.busy()
    }

    fn changed(&self, stream: &Stream, change: Change) -> Option<Stream> {
        match change {
            Change::Total(total) => stream.with_total(total),
            Change::Live(position) => stream.with_stray_live(position),
            Change::Mark(rule) => stream.with_mark(rule),
            Change::Held(position) => stream.with_stray_held(position),
            Change::Pair(rule) => stream.with_held_pair(rule),
            Change::Last(last) => stream.with_last(last),
            Change::Start(..) => None,
        }
    }
}

impl Tracing for Model {
    type Traced = calls::Traced;

    fn trace(&self, table: &Table) -> (u32, calls::Traced) {
        table.trace()
    }

    fn trace_scan(
        &self,
        table: &Table,
        stream: calls::Traced,
        allowance: u64,
        block: &[u8],
        lists: Columns,
    ) -> Answer<calls::Traced> {
        answer(stream.scan(table, allowance, block, lists))
    }

    fn trace_close(
        &self,
        table: &Table,
        stream: calls::Traced,
        lists: Columns,
    ) -> Answer<calls::Traced> {
        answer(stream.close(table, lists))
    }

    fn trace_busy(&self, stream: &calls::Traced) -> usize {
        stream.busy()
    }

    fn trace_changed(&self, stream: &calls::Traced, change: Change) -> Option<calls::Traced> {
        let Change::Start(kept, index, start) = change else {
            return stream.changed(|inner: &Stream| self.changed(inner, change));
        };
        let kept = match kept {
            Kept::Live => calls::Kept::Live,
            Kept::Held => calls::Kept::Held,
            Kept::Pair => calls::Kept::Pair,
        };
        stream.with_start(kept, index, start)
    }
}

fn answer<S>(answer: calls::Answer<S>) -> Answer<S> {
    Answer {
        number: answer.number,
        taken: answer.taken,
        count: answer.count,
        used: answer.used,
        stream: answer.stream,
    }
}

impl PatternReader for Model {
    fn read(&self, flags: u32, pattern: &[u8]) -> Reading {
        match rule::check(&[], 0, flags, pattern) {
            Ok(rule) => Reading { number: 0, place: 0, positions: rule.positions },
            Err(refusal) => Reading { number: refusal.number, place: refusal.place, positions: 0 },
        }
    }
}

impl Program for Model {
    /// Its time grows with the square of the input.
    fn longest(&self) -> usize {
        10_000
    }

    fn run(&self, rules: Option<&[u8]>, input: &[u8]) -> Vec<u8> {
        program::run(rules.unwrap_or_default(), input)
    }
}
