//! What table words mean to the calls on a state that keeps starts. The stream in it takes bytes as
//! one without starts does. Each position that keeps a start has the smallest one of the ways that
//! lead to it: one from the present offset, or the start of a position before it. Every other has 0.
//! A position counts at an end offset if the match from its start is long enough; runs and held
//! pairs are of the positions that count, and live and held positions are all there are.

use reference::calls::Columns;

use crate::calls::{Answer, Calls, Traces};
use crate::gaps::*;
use crate::interpreter::{checked_with, refused, set_of, Interpreter, Table};
use crate::layout::*;

/// A start for each live position, each held one, and the rule of each held pair.
type Starts = [u64; TRACED_WORDS - STATE_WORDS];

/// A report: the run it is of, the rule's place, the end offset.
type Place = (usize, usize, u64);

impl Table<'_> {
    fn keeps(&self, p: usize) -> bool {
        has(self.0, KEEPERS, p)
    }

    /// Is a match from this start to this end, whose last byte the position takes, long enough?
    /// Where no rule has a smallest length, or the position keeps no start, every match is.
    fn long(&self, q: usize, start: u64, end: u64) -> bool {
        let least = u128::from(start) + u128::from(self.0[shortest(q)]);
        self.0[LENGTHS] == 0 || !self.keeps(q) || least <= u128::from(end)
    }

    /// The positions of a set that count at an end offset, by their starts.
    fn counted(&self, set: &[u64], starts: &[u64], end: u64) -> [u64; 4] {
        set_of(|q| has(set, 0, q) && self.long(q, starts[q], end))
    }

    /// The smallest start of a match of the rule in this place that ends before a gap with one of these
    /// positions, `most` if there is none below.
    fn start_at(&self, gap: usize, set: &[u64], starts: &[u64], most: u64, place: usize) -> u64 {
        let ends = |p: &usize| {
            has(set, 0, *p) && has(self.0, last(gap), *p) && self.0[owner(*p)] == place as u64
        };
        (0..MAX_POSITIONS).filter(ends).map(|p| starts[p]).fold(most, u64::min)
    }

    /// The start of each of these positions, which the next byte leads to over a gap.
    fn stepped(&self, state: &[u64], next: &[u64], inside: usize) -> [u64; MAX_POSITIONS] {
        let mut starts = [0; MAX_POSITIONS];
        for q in (0..MAX_POSITIONS).filter(|&q| has(next, 0, q) && self.keeps(q)) {
            let leads = |p: &usize| {
                has(state, 0, *p) && self.keeps(*p) && has(self.0, follow(inside, *p), q)
            };
            let before = (0..MAX_POSITIONS).filter(leads).map(|p| state[LIVE_STARTS + p]);
            starts[q] = before.fold(state[TAKEN], u64::min);
        }
        starts
    }

    /// The starts after one more byte, which leads to these live and held positions and held pairs.
    fn next_starts(
        &self,
        state: &[u64],
        byte: u8,
        live: &[u64],
        (held, pairs): &([u64; 4], u64),
    ) -> Starts {
        let side = Side::in_state(state[SIDE]);
        let inside = between(side, Side::of(byte));
        let mut starts = [0; TRACED_WORDS - STATE_WORDS];
        starts[..MAX_POSITIONS].copy_from_slice(&self.stepped(state, live, inside));
        let held = self.stepped(state, held, before_last(side));
        starts[MAX_POSITIONS..2 * MAX_POSITIONS].copy_from_slice(&held);
        for a in (0..MAX_RULES).filter(|a| pairs >> a & 1 == 1) {
            if a < self.rules() && self.leftmost(a) {
                let (set, of) = (&state[..4], &state[LIVE_STARTS..]);
                let start = self.start_at(before_last(side), set, of, state[TAKEN], a);
                starts[2 * MAX_POSITIONS + a] = start;
            }
        }
        starts
    }

    /// Is each start below the bytes taken where there is one, and 0 elsewhere?
    fn starts_fit(&self, state: &[u64]) -> bool {
        let ok = |there: bool, start: u64| if there { start < state[TAKEN] } else { start == 0 };
        (0..MAX_POSITIONS).all(|p| ok(has(state, 0, p), state[LIVE_STARTS + p]))
            && (0..MAX_POSITIONS).all(|p| ok(has(state, HELD, p), state[HELD_STARTS + p]))
            && (0..MAX_RULES).all(|a| ok(state[PENDING] >> a & 1 == 1, state[PAIR_STARTS + a]))
    }
}

/// Four lists that are filled from the front.
struct Filling<'l> {
    lists: Columns<'l>,
    count: usize,
    /// The offset that relative starts are measured from.
    first: u64,
}

impl Filling<'_> {
    fn space(&self) -> usize {
        let Columns { ids, offsets, starts, relatives } = &self.lists;
        ids.len().min(offsets.len()).min(starts.len()).min(relatives.len())
    }

    /// Writes these reports; nothing if they do not all fit.
    fn write(
        &mut self,
        table: &Table,
        places: &[Place],
        start: impl Fn(usize, usize) -> u64,
    ) -> bool {
        if self.count + places.len() > self.space() {
            return false;
        }
        for &(run, place, end) in places {
            let slot = self.count;
            self.lists.ids[slot] = table.0[id(place)] as u32;
            self.lists.offsets[slot] = end;
            let leftmost = table.leftmost(place);
            let start = if leftmost { start(run, place) } else { 0 };
            self.lists.starts[slot] = start;
            let relative = i128::from(start) - i128::from(self.first);
            self.lists.relatives[slot] = if leftmost { relative as i64 } else { 0 };
            self.count += 1;
        }
        true
    }
}

impl Traces for Interpreter {
    fn trace_open(&self, words: &[u64], state: &mut [u64]) -> u32 {
        if state.len() < TRACED_WORDS {
            return SHORT_STATE;
        }
        state[..TRACED_WORDS].fill(0);
        self.open(words, state)
    }

    fn trace_scan(
        &self,
        words: &[u64],
        state: &mut [u64],
        allowance: u64,
        block: &[u8],
        lists: Columns,
    ) -> Answer {
        if state.len() < TRACED_WORDS {
            return refused(SHORT_STATE);
        }
        let mut filling = Filling { lists, count: 0, first: state[TAKEN] };
        let fit = |table: &Table| table.starts_fit(state);
        let table = match checked_with(words, state, block.len(), filling.space(), fit) {
            Ok(table) => table,
            Err(number) => return refused(number),
        };
        state[SIDE] = Side::in_state(state[SIDE]) as u64;
        let (mut taken, mut used): (usize, u64) = (0, 0);
        for &byte in block {
            let paid = used.checked_add(1 + u64::from(self.busy(state)));
            let Some(paid) = paid.filter(|&paid| paid <= allowance) else { break };
            let (before, end) = (state[TAKEN], state[TAKEN] + 1);
            let counted = table.counted(&state[..4], &state[LIVE_STARTS..], before);
            let (live, held) = (table.next_live(state, byte), table.held(state, byte, &counted));
            let starts = table.next_starts(state, byte, &live, &held);
            let now_counted = table.counted(&live, &starts, end);
            let own = table.rules_where(|a| table.ends(&now_counted, a, UNSETTLED));
            let runs = [(table.late(state, byte, &counted), before), (own, end)];
            let (places, marks) = table.places(runs, state[MARKS]);
            let gap = between(Side::in_state(state[SIDE]), Side::of(byte));
            let start = |run: usize, place: usize| match run {
                0 => table.start_at(gap, &state[..4], &state[LIVE_STARTS..], before, place),
                _ => table.start_at(UNSETTLED, &live, &starts, end, place),
            };
            if !filling.write(&table, &places, start) {
                break;
            }
            state[..4].copy_from_slice(&live);
            state[HELD..HELD + 4].copy_from_slice(&held.0);
            state[MARKS] = marks;
            state[PENDING] = held.1;
            state[SIDE] = Side::of(byte) as u64;
            state[TAKEN] = end;
            state[LIVE_STARTS..TRACED_WORDS].copy_from_slice(&starts);
            taken += 1;
            used = paid;
        }
        Answer { number: 0, taken, count: filling.count, used }
    }

    fn trace_close(&self, words: &[u64], state: &mut [u64], lists: Columns) -> Answer {
        if state.len() < TRACED_WORDS {
            return refused(SHORT_STATE);
        }
        let mut filling = Filling { lists, count: 0, first: state[TAKEN] };
        let fit = |table: &Table| table.starts_fit(state);
        let table = match checked_with(words, state, 0, filling.space(), fit) {
            Ok(table) => table,
            Err(number) => return refused(number),
        };
        let end = state[TAKEN];
        let live = table.counted(&state[..4], &state[LIVE_STARTS..], end);
        let held = table.counted(&state[HELD..HELD + 4], &state[HELD_STARTS..], end);
        let at_the_end = table.ends_at_end(state, &live, &held);
        let runs = [(state[PENDING], end.saturating_sub(1)), (at_the_end, end)];
        let (places, _) = table.places(runs, state[MARKS]);
        let gap = at_end(Side::in_state(state[SIDE]));
        // A match may stand at a live or at a held position, each with its own start.
        let start = |run: usize, place: usize| {
            if run == 0 {
                return state[PAIR_STARTS + place];
            }
            let (live, held) = (&state[..4], &state[HELD..HELD + 4]);
            let least = table.start_at(gap, live, &state[LIVE_STARTS..], state[TAKEN], place);
            table.start_at(gap, held, &state[HELD_STARTS..], least, place)
        };
        filling.write(&table, &places, start);
        state[SIDE] = Side::in_state(state[SIDE]) as u64;
        state[CLOSED] = 1;
        Answer { number: 0, taken: 0, count: filling.count, used: 0 }
    }

    fn trace_busy(&self, state: &[u64]) -> u32 {
        if state.len() < TRACED_WORDS {
            return 0;
        }
        self.busy(state)
    }
}
