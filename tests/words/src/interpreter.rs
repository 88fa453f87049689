//! What table words mean to the calls. Every question is asked of one position, one rule or one
//! byte at a time; nothing is computed for a whole set, and nothing is skipped.

use reference::windows::Windows;

use crate::calls::{Answer, Calls, NO_LIMIT};
use crate::compiler;
use crate::gaps::*;
use crate::layout::*;

#[derive(Clone, Copy, Debug)]
pub struct Interpreter;

/// The words that a call is lent, once they are known to be a table.
pub(crate) struct Table<'w>(pub(crate) &'w [u64]);

impl Table<'_> {
    pub(crate) fn rules(&self) -> usize {
        self.0[RULES] as usize
    }

    pub(crate) fn positions(&self) -> usize {
        self.0[POSITIONS] as usize
    }

    fn single(&self, place: usize) -> bool {
        self.0[SINGLES] >> place & 1 == 1
    }

    pub(crate) fn ends(&self, positions: &[u64], place: usize, gap: usize) -> bool {
        ends(self.0, positions, place, gap)
    }

    /// Can the position take the byte as the first of a match after this gap? Inside a stream only if
    /// a match can begin with the byte.
    fn starts(&self, gap: usize, byte: u8, q: usize) -> bool {
        has(self.0, first(gap), q) && (gap >= INNER_GAPS || self.0[opener(byte)] != 0)
    }

    /// The rules, as a word, that pass a test.
    pub(crate) fn rules_where(&self, test: impl Fn(usize) -> bool) -> u64 {
        (0..self.rules()).filter(|&a| test(a)).fold(0, |word, a| word | 1 << a)
    }

    /// The rules, as a word, that end at a gap with one of these positions, and did not with one of
    /// the live ones where less was known.
    fn newly(&self, gap: usize, positions: &[u64], less: usize, live: &[u64]) -> u64 {
        self.rules_where(|a| self.ends(positions, a, gap) && !self.ends(live, a, less))
    }

    /// The positions that one more byte leads to, over a gap that has these numbers for those that
    /// start there and for those that follow another.
    fn reached(&self, live: &[u64], byte: u8, start: usize, inside: usize) -> [u64; 4] {
        let follows = |p, q| has(live, 0, p) && has(self.0, follow(inside, p), q);
        let reached = |q| self.starts(start, byte, q) || (0..MAX_POSITIONS).any(|p| follows(p, q));
        set_of(|q| q < self.positions() && has(self.0, takers(byte), q) && reached(q))
    }

    /// The live positions after one more byte.
    pub(crate) fn next_live(&self, state: &[u64], byte: u8) -> [u64; 4] {
        let inside = between(Side::in_state(state[SIDE]), Side::of(byte));
        let start = if state[TAKEN] == 0 { at_start(Side::of(byte)) } else { inside };
        self.reached(&state[..4], byte, start, inside)
    }

    /// What is held after one more byte, which may be the last: positions, and pairs at the offset
    /// before it, of the live positions that count there.
    pub(crate) fn held(&self, state: &[u64], byte: u8, counted: &[u64]) -> ([u64; 4], u64) {
        if byte != b'\n' {
            return ([0; 4], 0);
        }
        let (live, side) = (&state[..4], Side::in_state(state[SIDE]));
        let inside = before_last(side);
        if state[TAKEN] == 0 {
            return (self.reached(live, byte, START_OF_LAST, inside), 0);
        }
        let pairs = self.newly(inside, counted, between(side, Side::Newline), counted);
        (self.reached(live, byte, inside, inside), pairs)
    }

    /// The rules, as a word, with a pair before one more byte that needs it, of the live positions
    /// that count there.
    pub(crate) fn late(&self, state: &[u64], byte: u8, counted: &[u64]) -> u64 {
        let gap = between(Side::in_state(state[SIDE]), Side::of(byte));
        let waiting = set_of(|p| has(counted, 0, p) && has(self.0, LATES, p));
        self.newly(gap, &waiting, UNSETTLED, counted)
    }

    /// The rules, as a word, with a pair at the stream's end that needs it, of these live and these
    /// held positions.
    pub(crate) fn ends_at_end(&self, state: &[u64], live: &[u64], held: &[u64]) -> u64 {
        let positions = set_of(|p| has(live, 0, p) || has(held, 0, p));
        self.newly(at_end(Side::in_state(state[SIDE])), &positions, UNSETTLED, live)
    }

    /// Does a position of the table keep a start, or a rule report one?
    fn needs_starts(&self) -> bool {
        (0..self.positions()).any(|p| has(self.0, KEEPERS, p))
            || (0..self.rules()).any(|a| self.leftmost(a))
    }

    /// Does the rule in this place report the leftmost start?
    pub(crate) fn leftmost(&self, place: usize) -> bool {
        self.0[LEFTMOSTS] >> place & 1 == 1
    }

    /// May the rule in this place report at this end offset?
    fn inside(&self, place: usize, end: u64) -> bool {
        let window = self.0[lowest(place)]..=self.0[highest(place)];
        self.0[WINDOWED] >> place & 1 == 0 || window.contains(&end)
    }

    /// Is the state valid for this table, but for starts?
    pub(crate) fn sound(&self, state: &[u64]) -> bool {
        state[STATE_RULES] == self.0[RULES]
            && state[STATE_POSITIONS] == self.0[POSITIONS]
            && (self.positions()..MAX_POSITIONS).all(|p| !has(state, 0, p) && !has(state, HELD, p))
            && (0..64).all(|a| state[PENDING] >> a & 1 == 0 || a < self.rules())
            && (state[PENDING] == 0 || state[TAKEN] >= 2)
            && (0..64).all(|a| state[MARKS] >> a & 1 == 0 || (a < self.rules() && self.single(a)))
            && state[TAKEN] <= MAX_STREAM
            && (state[TAKEN] > 0 || (0..2 * 4).all(|word| state[word] == 0))
    }

    /// The reports of two runs, each of some rules at an end, and the marks after them: a report for
    /// each rule that has no mark, and its mark if it is single-match.
    fn reports(&self, runs: [(u64, u64); 2], marks: u64) -> (Vec<(u32, u64)>, u64) {
        let (places, marks) = self.places(runs, marks);
        let report = |&(_, place, end): &(usize, usize, u64)| (self.0[id(place)] as u32, end);
        (places.iter().map(report).collect(), marks)
    }

    /// The same by the run, 0 or 1, and the place of each report.
    pub(crate) fn places(
        &self,
        runs: [(u64, u64); 2],
        mut marks: u64,
    ) -> (Vec<(usize, usize, u64)>, u64) {
        let mut places = Vec::new();
        for (run, (found, end)) in runs.into_iter().enumerate() {
            for place in (0..self.rules()).filter(|a| found >> a & 1 == 1) {
                if marks >> place & 1 == 1 || !self.inside(place, end) {
                    continue;
                }
                places.push((run, place, end));
                if self.single(place) {
                    marks |= 1 << place;
                }
            }
        }
        (places, marks)
    }
}

/// Can a match of the rule in this place end before a gap with one of these positions? Each position
/// is one rule's; where its owner is no place of a rule, it ends no match.
pub fn ends(words: &[u64], positions: &[u64], place: usize, gap: usize) -> bool {
    let its = |p| has(words, last(gap), p) && words[owner(p)] == place as u64;
    (0..MAX_POSITIONS).any(|p| has(positions, 0, p) && its(p))
}

/// The positions that pass a test.
pub(crate) fn set_of(test: impl Fn(usize) -> bool) -> [u64; 4] {
    let mut set = [0; 4];
    (0..MAX_POSITIONS).filter(|&p| test(p)).for_each(|p| put(&mut set, 0, p));
    set
}

/// Writes reports at the front of the free slots, from `count` on; nothing if they do not all fit.
fn write(reports: &[(u32, u64)], ids: &mut [u32], offsets: &mut [u64], count: &mut usize) -> bool {
    if *count + reports.len() > ids.len().min(offsets.len()) {
        return false;
    }
    for &(id, end) in reports {
        ids[*count] = id;
        offsets[*count] = end;
        *count += 1;
    }
    true
}

/// The test of docs/TABLE.md.
pub(crate) fn table(words: &[u64]) -> Option<Table<'_>> {
    if words.len() < TABLE_WORDS || words[0] != FORMAT {
        return None;
    }
    if words[RULES] > MAX_RULES as u64 || words[POSITIONS] > MAX_POSITIONS as u64 {
        return None;
    }
    let ids = &words[id(0)..id(words[RULES] as usize)];
    if ids.iter().any(|&id| id >> 32 != 0) || ids.windows(2).any(|two| two[0] >= two[1]) {
        return None;
    }
    Some(Table(words))
}

/// The checks of a scan of a state without starts in their order; a closing is checked as a scan of no
/// bytes.
fn checked<'w>(
    words: &'w [u64],
    state: &[u64],
    block: usize,
    space: usize,
) -> Result<Table<'w>, u32> {
    if state.len() < STATE_WORDS {
        return Err(SHORT_STATE);
    }
    checked_with(words, state, block, space, |table| !table.needs_starts())
}

/// The same of a state of enough words, with what is asked of its starts.
pub(crate) fn checked_with<'w>(
    words: &'w [u64],
    state: &[u64],
    block: usize,
    space: usize,
    starts: impl Fn(&Table) -> bool,
) -> Result<Table<'w>, u32> {
    let table = table(words).ok_or(1u32)?;
    if !table.sound(state) || !starts(&table) {
        return Err(18);
    }
    if state[CLOSED] != 0 {
        return Err(19);
    }
    if block as u64 > MAX_STREAM - state[TAKEN] {
        return Err(21);
    }
    if space < 2 * table.rules() {
        return Err(20);
    }
    Ok(table)
}

pub(crate) fn refused(number: u32) -> Answer {
    Answer { number, taken: 0, count: 0, used: 0 }
}

/// The reports of these bytes, which the state is left after, whatever the space.
pub fn scanned(table: &[u64], state: &mut [u64], bytes: &[u8]) -> Vec<(u32, u64)> {
    let space = 2 * MAX_RULES * (bytes.len() + 1);
    let (mut ids, mut offsets) = (vec![0; space], vec![0; space]);
    let answer = Interpreter.scan(table, state, NO_LIMIT, bytes, &mut ids, &mut offsets);
    ids.into_iter().zip(offsets).take(answer.count).collect()
}

impl Calls for Interpreter {
    fn empty(&self, words: &mut [u64]) -> u32 {
        if words.len() < TABLE_WORDS {
            return 1;
        }
        words[..TABLE_WORDS].fill(0);
        words[0] = FORMAT;
        0
    }

    fn test(&self, words: &[u64]) -> u32 {
        u32::from(table(words).is_none())
    }

    fn needs_starts(&self, words: &[u64]) -> u32 {
        u32::from(table(words).is_some_and(|table| table.needs_starts()))
    }

    fn add(&self, words: &mut [u64], id: u32, flags: u32, pattern: &[u8]) -> (u32, usize) {
        self.add_within(words, id, flags, Windows::NONE, pattern)
    }

    fn add_within(
        &self,
        words: &mut [u64],
        id: u32,
        flags: u32,
        windows: Windows,
        pattern: &[u8],
    ) -> (u32, usize) {
        if table(words).is_none() {
            return (1, 0);
        }
        compiler::add(words, id, flags, windows, pattern)
    }

    fn open(&self, words: &[u64], state: &mut [u64]) -> u32 {
        if state.len() < STATE_WORDS {
            return SHORT_STATE;
        }
        state[..STATE_WORDS].fill(0);
        match table(words) {
            Some(_) => {
                state[STATE_RULES] = words[RULES];
                state[STATE_POSITIONS] = words[POSITIONS];
                0
            }
            None => {
                state[CLOSED] = 1;
                1
            }
        }
    }

    fn scan(
        &self,
        words: &[u64],
        state: &mut [u64],
        allowance: u64,
        block: &[u8],
        ids: &mut [u32],
        offsets: &mut [u64],
    ) -> Answer {
        let table = match checked(words, state, block.len(), ids.len().min(offsets.len())) {
            Ok(table) => table,
            Err(number) => return refused(number),
        };
        state[SIDE] = Side::in_state(state[SIDE]) as u64;
        let mut count = 0;
        let mut taken = 0;
        let mut used: u64 = 0;
        for &byte in block {
            let paid = used.checked_add(1 + u64::from(self.busy(state)));
            let Some(paid) = paid.filter(|&paid| paid <= allowance) else { break };
            let live = table.next_live(state, byte);
            let own = table.rules_where(|a| table.ends(&live, a, UNSETTLED));
            let (before, end) = (state[TAKEN], state[TAKEN] + 1);
            let runs = [(table.late(state, byte, &state[..4]), before), (own, end)];
            let (reports, marks) = table.reports(runs, state[MARKS]);
            if !write(&reports, ids, offsets, &mut count) {
                break;
            }
            let (held, pairs) = table.held(state, byte, &state[..4]);
            state[..4].copy_from_slice(&live);
            state[HELD..HELD + 4].copy_from_slice(&held);
            state[MARKS] = marks;
            state[PENDING] = pairs;
            state[SIDE] = Side::of(byte) as u64;
            state[TAKEN] = end;
            taken += 1;
            used = paid;
        }
        Answer { number: 0, taken, count, used }
    }

    fn close(
        &self,
        words: &[u64],
        state: &mut [u64],
        ids: &mut [u32],
        offsets: &mut [u64],
    ) -> Answer {
        let table = match checked(words, state, 0, ids.len().min(offsets.len())) {
            Ok(table) => table,
            Err(number) => return refused(number),
        };
        let runs = [
            (state[PENDING], state[TAKEN].saturating_sub(1)),
            (table.ends_at_end(state, &state[..4], &state[HELD..HELD + 4]), state[TAKEN]),
        ];
        // The marks of the first run count in the second, and are not kept.
        let (reports, _) = table.reports(runs, state[MARKS]);
        let mut count = 0;
        write(&reports, ids, offsets, &mut count);
        state[SIDE] = Side::in_state(state[SIDE]) as u64;
        state[CLOSED] = 1;
        Answer { number: 0, taken: 0, count, used: 0 }
    }

    fn busy(&self, state: &[u64]) -> u32 {
        if state.len() < STATE_WORDS {
            return 0;
        }
        (0..MAX_POSITIONS).filter(|&p| has(state, 0, p)).count() as u32
    }
}
