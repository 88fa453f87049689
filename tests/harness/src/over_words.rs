//! A watcher made of calls over lent words, with both forms of streams.

use corpus::Kept;
use reference::calls::Columns;
use reference::windows::Windows;
use words::calls::{self, Calls, Traces};
use words::layout::*;

use crate::traced::Tracing;
use crate::watcher::{Answer, Change, PatternReader, Reading, Watcher};

#[derive(Clone, Copy, Debug)]
pub struct OverWords<C>(pub C);

impl<C: Calls> Watcher for OverWords<C> {
    type Table = Vec<u64>;
    type Stream = [u64; STATE_WORDS];

    fn words(&self, count: usize) -> Vec<u64> {
        (0..count as u64).map(|index| !FORMAT ^ index).collect()
    }

    fn resized(&self, table: &Vec<u64>, count: usize) -> Vec<u64> {
        let mut words = self.words(count.max(table.len()));
        words[..table.len()].copy_from_slice(table);
        words.truncate(count);
        words
    }

    fn empty(&self, table: &mut Vec<u64>) -> u32 {
        self.0.empty(table)
    }

    fn add(&self, table: &mut Vec<u64>, id: u32, flags: u32, pattern: &[u8]) -> (u32, usize) {
        self.0.add(table, id, flags, pattern)
    }

    /// A rule without windows is added by the call that has none.
    fn add_within(
        &self,
        table: &mut Vec<u64>,
        id: u32,
        flags: u32,
        windows: Windows,
        pattern: &[u8],
    ) -> Option<(u32, usize)> {
        if windows == Windows::NONE {
            return Some(self.add(table, id, flags, pattern));
        }
        Some(self.0.add_within(table, id, flags, windows, pattern))
    }

    fn has_windows(&self) -> bool {
        true
    }

    fn open(&self, table: &Vec<u64>) -> (u32, Self::Stream) {
        let mut state = [0xdead_beef; STATE_WORDS];
        (self.0.open(table, &mut state), state)
    }

    fn scan(
        &self,
        table: &Vec<u64>,
        mut stream: Self::Stream,
        allowance: u64,
        block: &[u8],
        ids: &mut [u32],
        offsets: &mut [u64],
    ) -> Answer<Self::Stream> {
        answer(self.0.scan(table, &mut stream, allowance, block, ids, offsets), stream)
    }

    fn close(
        &self,
        table: &Vec<u64>,
        mut stream: Self::Stream,
        ids: &mut [u32],
        offsets: &mut [u64],
    ) -> Answer<Self::Stream> {
        answer(self.0.close(table, &mut stream, ids, offsets), stream)
    }

    fn busy(&self, stream: &Self::Stream) -> usize {
        self.0.busy(stream) as usize
    }

    fn changed(&self, stream: &Self::Stream, change: Change) -> Option<Self::Stream> {
        let mut state = *stream;
        let bit = |index: usize| 1u64.checked_shl(index as u32);
        match change {
            Change::Total(total) => state[TAKEN] = total,
            Change::Live(position) => *state[..4].get_mut(position / 64)? |= bit(position % 64)?,
            Change::Mark(rule) => state[MARKS] |= bit(rule)?,
            Change::Held(position) => {
                *state[HELD..HELD + 4].get_mut(position / 64)? |= bit(position % 64)?
            }
            Change::Pair(rule) => state[PENDING] |= bit(rule)?,
            Change::Last(last) => state[SIDE] = last,
            Change::Start(..) => return None,
        }
        Some(state)
    }
}

impl<C: Calls + Traces> Tracing for OverWords<C> {
    type Traced = Vec<u64>;

    fn trace(&self, table: &Vec<u64>) -> (u32, Vec<u64>) {
        let mut state = vec![0xdead_beef; TRACED_WORDS];
        (self.0.trace_open(table, &mut state), state)
    }

    fn trace_scan(
        &self,
        table: &Vec<u64>,
        mut stream: Vec<u64>,
        allowance: u64,
        block: &[u8],
        lists: Columns,
    ) -> Answer<Vec<u64>> {
        answer(self.0.trace_scan(table, &mut stream, allowance, block, lists), stream)
    }

    fn trace_close(
        &self,
        table: &Vec<u64>,
        mut stream: Vec<u64>,
        lists: Columns,
    ) -> Answer<Vec<u64>> {
        answer(self.0.trace_close(table, &mut stream, lists), stream)
    }

    fn trace_busy(&self, stream: &Vec<u64>) -> usize {
        self.0.trace_busy(stream) as usize
    }

    fn trace_changed(&self, stream: &Vec<u64>, change: Change) -> Option<Vec<u64>> {
        let mut state = stream.clone();
        let Change::Start(kept, index, start) = change else {
            let first: [u64; STATE_WORDS] = stream[..STATE_WORDS].try_into().ok()?;
            state[..STATE_WORDS].copy_from_slice(&self.changed(&first, change)?);
            return Some(state);
        };
        let (from, many) = match kept {
            Kept::Live => (LIVE_STARTS, MAX_POSITIONS),
            Kept::Held => (HELD_STARTS, MAX_POSITIONS),
            Kept::Pair => (PAIR_STARTS, MAX_RULES),
        };
        *state[from..from + many].get_mut(index)? = start;
        Some(state)
    }
}

fn answer<S>(answer: calls::Answer, stream: S) -> Answer<S> {
    let calls::Answer { number, taken, count, used } = answer;
    Answer { number, taken, count, used, stream }
}

impl<C: Calls> PatternReader for OverWords<C> {
    fn read(&self, flags: u32, pattern: &[u8]) -> Reading {
        let mut table = vec![0; TABLE_WORDS];
        self.0.empty(&mut table);
        let (number, place) = self.0.add(&mut table, 0, flags, pattern);
        Reading { number, place, positions: table[POSITIONS] as usize }
    }
}
