//! The library behind the calls over words, through the functions that its static library exports.

use reference::calls::Columns;
use reference::windows::Windows;
use watcher::{raw, Lists};
use words::calls::{Answer, Calls, Traces};
use words::card::Card;

use crate::matched::Matched;

#[derive(Clone, Copy, Debug)]
pub struct Library;

impl Calls for Library {
    fn empty(&self, table: &mut [u64]) -> u32 {
        raw::empty(table)
    }

    fn test(&self, table: &[u64]) -> u32 {
        raw::test(table)
    }

    fn needs_starts(&self, table: &[u64]) -> u32 {
        raw::needs_starts(table)
    }

    fn add(&self, table: &mut [u64], id: u32, flags: u32, pattern: &[u8]) -> (u32, usize) {
        raw::add(table, id, flags, pattern)
    }

    fn add_within(
        &self,
        table: &mut [u64],
        id: u32,
        flags: u32,
        windows: Windows,
        pattern: &[u8],
    ) -> (u32, usize) {
        let Windows { smallest_end, largest_end, smallest_length } = windows;
        raw::add_within(table, id, flags, (smallest_end, largest_end, smallest_length), pattern)
    }

    fn open(&self, table: &[u64], state: &mut [u64]) -> u32 {
        raw::open(table, state)
    }

    fn scan(
        &self,
        table: &[u64],
        state: &mut [u64],
        allowance: u64,
        block: &[u8],
        ids: &mut [u32],
        offsets: &mut [u64],
    ) -> Answer {
        answer(raw::scan(table, state, allowance, block, ids, offsets))
    }

    fn close(
        &self,
        table: &[u64],
        state: &mut [u64],
        ids: &mut [u32],
        offsets: &mut [u64],
    ) -> Answer {
        answer(raw::close(table, state, ids, offsets))
    }

    fn busy(&self, state: &[u64]) -> u32 {
        raw::busy(state)
    }
}

impl Traces for Library {
    fn trace_open(&self, table: &[u64], state: &mut [u64]) -> u32 {
        raw::trace_open(table, state)
    }

    fn trace_scan(
        &self,
        table: &[u64],
        state: &mut [u64],
        allowance: u64,
        block: &[u8],
        lists: Columns,
    ) -> Answer {
        answer(raw::trace_scan(table, state, allowance, block, lent(lists)))
    }

    fn trace_close(&self, table: &[u64], state: &mut [u64], lists: Columns) -> Answer {
        answer(raw::trace_close(table, state, lent(lists)))
    }

    fn trace_busy(&self, state: &[u64]) -> u32 {
        raw::trace_busy(state)
    }
}

fn lent(lists: Columns) -> Lists {
    let Columns { ids, offsets, starts, relatives } = lists;
    Lists { ids, offsets, starts, relatives }
}

impl Card for Library {
    fn write_block(&self, table: &[u64], number: u64, block: &mut [u8]) -> (u32, u64) {
        raw::write_block(table, number, block)
    }

    fn read_block(&self, table: &mut [u64], number: u64, block: &[u8]) -> (u32, u64) {
        raw::read_block(table, number, block)
    }
}

impl Matched for Library {
    fn number(&self, tail: &[u8], block: &[u8], offset: u64, start: u64, end: u64) -> u32 {
        raw::matched_number(tail, block, offset, start, end)
    }

    fn part(
        &self,
        tail: &[u8],
        block: &[u8],
        offset: u64,
        start: u64,
        end: u64,
    ) -> (bool, usize, usize) {
        let part = raw::matched_bytes(tail, block, offset, start, end);
        (part.tail, part.place, part.size)
    }
}

fn answer(answer: raw::Answer) -> Answer {
    Answer { number: answer.number, taken: answer.taken, count: answer.reports, used: answer.used }
}
