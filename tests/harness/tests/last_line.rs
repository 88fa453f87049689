//! Slips about the end of the last line: calls over words with one mistake each in what is held, in
//! the two runs of a closing or in the report space. The corpus, the random mode and the exhaustive
//! mode must find every one of them.

mod finding;
mod slipping;

use harness::exhaustive::MEANING;
use harness::over_words::OverWords;
use slipping::{Slipping, With};
use words::calls::{Answer, Calls};
use words::gaps::INNER_GAPS;
use words::interpreter::{scanned, Interpreter};
use words::layout::*;

#[derive(Clone, Copy, Debug, PartialEq)]
enum Slip {
    /// `$` holds where the stream ends, and nowhere else.
    EndOnly,
    /// What is held stays when another byte follows.
    HeldStays,
    /// A scan forgets what was held when it takes no byte.
    EmptyBlockForgets,
    /// Held positions are dropped; held pairs stay.
    NoPositionsHeld,
    /// Held pairs are dropped; held positions stay.
    NoPairsHeld,
    /// A pair that was given with its last byte is held, and given again.
    GivenAgain,
    /// The pairs at the end come before those at the offset before the last byte.
    EndFirst,
    /// A closing sorts all its reports by id.
    RunsMixed,
    /// Held pairs are reported at the end.
    PairsAtTheEnd,
    /// A single-match rule reports in both runs.
    NoMarksBetween,
    /// Held positions are busy.
    HeldIsBusy,
    /// A closing makes the held positions live.
    ClosingMakesLive,
    /// Once the number of rules is space enough for a scan.
    OnceForScans,
    /// Once the number of rules is space enough for a closing.
    OnceForClosing,
}

use Slip::*;

const SLIPS: [Slip; 14] = [
    EndOnly,
    HeldStays,
    EmptyBlockForgets,
    NoPositionsHeld,
    NoPairsHeld,
    GivenAgain,
    EndFirst,
    RunsMixed,
    PairsAtTheEnd,
    NoMarksBetween,
    HeldIsBusy,
    ClosingMakesLive,
    OnceForScans,
    OnceForClosing,
];

/// The words of the held set.
const HELD_SET: std::ops::Range<usize> = HELD..HELD + 4;

fn forget(state: &mut [u64]) {
    state[HELD_SET].fill(0);
    state[PENDING] = 0;
}

/// The words without last positions between two bytes: then a pair that could wait is held, whether it
/// was given or not.
fn without_lasts(table: &[u64]) -> Vec<u64> {
    let mut words = table.to_vec();
    words[last(0)..last(INNER_GAPS)].fill(0);
    words
}

/// Lists of twice the rules for a caller who lends once the rules.
fn lengthened(table: &[u64], ids: &[u32], offsets: &[u64]) -> Option<(Vec<u32>, Vec<u64>)> {
    let rules = *table.get(RULES)? as usize;
    let space = ids.len().min(offsets.len());
    if rules > MAX_RULES || space < rules || space >= 2 * rules {
        return None;
    }
    let (mut longer_ids, mut longer_offsets) = (ids.to_vec(), offsets.to_vec());
    longer_ids.resize(2 * rules + ids.len(), 0);
    longer_offsets.resize(2 * rules + offsets.len(), 0);
    Some((longer_ids, longer_offsets))
}

impl Slip {
    /// What the slip makes of the state that a scan left, before which it was another.
    fn after_scan(self, table: &[u64], before: &[u64], state: &mut [u64], taken: &[u8]) {
        match self {
            EndOnly => forget(state),
            NoPositionsHeld => state[HELD_SET].fill(0),
            NoPairsHeld => state[PENDING] = 0,
            EmptyBlockForgets if taken.is_empty() => forget(state),
            HeldStays if taken.last().is_some_and(|&byte| byte != b'\n') => {
                let mut held = before.to_vec();
                if let Some(at) = taken.iter().rposition(|&byte| byte == b'\n') {
                    scanned(table, &mut held, &taken[..=at]);
                }
                state[HELD_SET].copy_from_slice(&held[HELD_SET]);
                state[PENDING] = held[PENDING];
            }
            GivenAgain if taken.ends_with(b"\n") => {
                let mut earlier = before.to_vec();
                scanned(table, &mut earlier, &taken[..taken.len() - 1]);
                scanned(&without_lasts(table), &mut earlier, b"\n");
                state[PENDING] = earlier[PENDING];
            }
            _ => {}
        }
    }

    /// The words that the slipping closing takes for the table.
    fn before_close(self, table: &[u64], state: &[u64]) -> Vec<u64> {
        let mut words = table.to_vec();
        if self == NoMarksBetween && Interpreter.test(table) == 0 {
            words[SINGLES] &= !(state[PENDING] & !state[MARKS]);
        }
        words
    }

    /// What the slip makes of the reports and the state that a closing left.
    fn after_close(self, ids: &mut [u32], offsets: &mut [u64], state: &mut [u64]) {
        let mut reports: Vec<(u32, u64)> =
            ids.iter().copied().zip(offsets.iter().copied()).collect();
        match self {
            EndFirst => reports.sort_by_key(|&(_, end)| std::cmp::Reverse(end)),
            RunsMixed => reports.sort(),
            PairsAtTheEnd => reports.iter_mut().for_each(|report| report.1 = state[TAKEN]),
            ClosingMakesLive => (0..4).for_each(|i| state[i] |= state[HELD + i]),
            _ => {}
        }
        for (slot, (id, end)) in reports.into_iter().enumerate() {
            ids[slot] = id;
            offsets[slot] = end;
        }
    }
}

impl Slipping for Slip {
    fn scan(
        &self,
        table: &[u64],
        state: &mut [u64],
        allowance: u64,
        block: &[u8],
        ids: &mut [u32],
        offsets: &mut [u64],
    ) -> Answer {
        if *self == OnceForScans {
            if let Some((mut ids, mut offsets)) = lengthened(table, ids, offsets) {
                return Interpreter.scan(table, state, allowance, block, &mut ids, &mut offsets);
            }
        }
        let before = state.to_vec();
        let answer = Interpreter.scan(table, state, allowance, block, ids, offsets);
        if answer.number == 0 {
            self.after_scan(table, &before, state, &block[..answer.taken]);
        }
        answer
    }

    fn close(
        &self,
        table: &[u64],
        state: &mut [u64],
        ids: &mut [u32],
        offsets: &mut [u64],
    ) -> Answer {
        if *self == OnceForClosing {
            if let Some((mut ids, mut offsets)) = lengthened(table, ids, offsets) {
                return Interpreter.close(table, state, &mut ids, &mut offsets);
            }
        }
        let words = self.before_close(table, state);
        let answer = Interpreter.close(&words, state, ids, offsets);
        if answer.number == 0 {
            let count = answer.count;
            self.after_close(&mut ids[..count], &mut offsets[..count], state);
        }
        answer
    }

    fn busy(&self, state: &[u64]) -> u32 {
        let mut state = state.to_vec();
        if *self == HeldIsBusy {
            (0..4).for_each(|i| state[i] |= state[HELD + i]);
        }
        Interpreter.busy(&state)
    }
}

fn watchers(slips: &[Slip]) -> Vec<OverWords<With<Slip>>> {
    slips.iter().map(|&slip| OverWords(With(slip))).collect()
}

#[test]
fn the_corpus_finds_every_slip() {
    finding::by_the_corpus(&watchers(&SLIPS));
}

#[test]
fn the_random_mode_finds_every_slip_and_makes_it_small() {
    finding::at_random(&watchers(&SLIPS), 10_000);
}

#[test]
fn the_exhaustive_mode_finds_every_slip_of_meaning() {
    // Its callers lend the least space there may be and offer no empty block; its two rules are the
    // same, the single-match one first.
    let beyond = [EmptyBlockForgets, RunsMixed, OnceForScans, OnceForClosing];
    let met: Vec<Slip> = SLIPS.into_iter().filter(|slip| !beyond.contains(slip)).collect();
    finding::among_all(&watchers(&met), MEANING, 3, 2);
}
