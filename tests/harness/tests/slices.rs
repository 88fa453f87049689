//! Slips about the work of a scan: calls over words with one mistake each in what a byte costs, in
//! where the scan stops or in what it says it used. The corpus, the random mode, the exhaustive mode
//! and the damaged words must find them; without a slip the same calls pass.

mod finding;
mod slipping;

use corpus::{Call, Line};
use harness::corpus_run::run_folder;
use harness::damaged;
use harness::exhaustive::MEANING;
use harness::over_words::OverWords;
use harness::random;
use harness::rng::Rng;
use harness::scenario::predict;
use harness::slices::MOST_UNITS;
use slipping::{Slipping, With};
use words::calls::{Answer, Calls, NO_LIMIT};
use words::interpreter::{scanned, Interpreter};
use words::layout::*;

#[derive(Clone, Copy, Debug, PartialEq)]
enum Slip {
    /// No slip at all.
    Sound,
    /// A byte costs the busy figure alone.
    UnitIsFree,
    /// A byte before which nothing is live costs nothing.
    QuietIsFree,
    /// A byte costs a unit, whatever is live.
    LiveIsFree,
    /// A byte costs the busy figure after it.
    CostAfter,
    /// Held positions are paid for.
    HeldIsPaid,
    /// The positions of a single-match rule that has reported are free.
    ReportedIsFree,
    /// A byte is taken as long as a unit is left.
    StopsTooLate,
    /// A byte is taken only if a unit stays.
    ExactIsTooLittle,
    /// The reports of the byte that could not be paid for are written.
    WritesTheUnpaid,
    /// The byte that could not be paid for counts as used.
    UsesTheUnpaid,
    /// The byte whose reports do not fit is paid for.
    PaysTheUnreported,
    /// All of the allowance counts as used.
    UsesAll,
    /// A refused scan says what it might have used.
    UsedWhenRefused,
    /// An allowance of 0 is refused.
    ZeroIsRefused,
    /// An allowance of 0 is accepted before anything is checked.
    ZeroIsNotChecked,
    /// The stream limit is held against the bytes that could be paid for.
    LimitOfThePaid,
    /// What is held, and the kind of the last byte, is forgotten by a scan that cannot pay for its
    /// first byte.
    UnpaidForgets,
    /// Of the allowance only 32 bits are read.
    In32Bits,
}

use Slip::*;

const SLIPS: [Slip; 18] = [
    UnitIsFree,
    QuietIsFree,
    LiveIsFree,
    CostAfter,
    HeldIsPaid,
    ReportedIsFree,
    StopsTooLate,
    ExactIsTooLittle,
    WritesTheUnpaid,
    UsesTheUnpaid,
    PaysTheUnreported,
    UsesAll,
    UsedWhenRefused,
    ZeroIsRefused,
    ZeroIsNotChecked,
    LimitOfThePaid,
    UnpaidForgets,
    In32Bits,
];

/// How many live positions are none of a single-match rule that has reported.
fn unreported(table: &[u64], state: &[u64]) -> u64 {
    let marked =
        |p| (0..MAX_RULES).any(|a| state[MARKS] >> a & 1 == 1 && table[owner(p)] == a as u64);
    (0..MAX_POSITIONS).filter(|&p| has(state, 0, p) && !marked(p)).count() as u64
}

fn live(state: &[u64]) -> u64 {
    u64::from(Interpreter.busy(state))
}

impl Slip {
    /// What the slip asks for a byte, by the states before and after it.
    fn cost(self, table: &[u64], before: &[u64], after: &[u64]) -> u64 {
        match self {
            UnitIsFree => live(before),
            QuietIsFree if live(before) == 0 => 0,
            LiveIsFree => 1,
            CostAfter => 1 + live(after),
            HeldIsPaid => {
                1 + (0..MAX_POSITIONS)
                    .filter(|&p| has(before, 0, p) || has(before, HELD, p))
                    .count() as u64
            }
            ReportedIsFree => 1 + unreported(table, before),
            _ => 1 + live(before),
        }
    }

    /// Can a byte of this cost be paid for with the units left?
    fn pays(self, left: u64, cost: u64) -> bool {
        match self {
            StopsTooLate => left > 0,
            ExactIsTooLittle => left > cost,
            _ => left >= cost,
        }
    }

    /// The words and the lists as they are lent, the checks done: a scan of one byte after another.
    fn by_bytes(
        self,
        table: &[u64],
        state: &mut [u64],
        allowance: u64,
        block: &[u8],
        ids: &mut [u32],
        offsets: &mut [u64],
    ) -> Answer {
        let space = ids.len().min(offsets.len());
        let mut answer = Answer { number: 0, taken: 0, count: 0, used: 0 };
        for &byte in block {
            let mut next = state.to_vec();
            let reports = scanned(table, &mut next, &[byte]);
            let cost = self.cost(table, state, &next);
            let paid = self.pays(allowance.saturating_sub(answer.used), cost);
            let fits = reports.len() <= space - answer.count;
            if fits && (paid || self == WritesTheUnpaid) {
                for (slot, &(id, end)) in (answer.count..).zip(&reports) {
                    (ids[slot], offsets[slot]) = (id, end);
                }
            }
            let pays_more = match self {
                UsesTheUnpaid => !paid,
                PaysTheUnreported => paid && !fits,
                _ => false,
            };
            if (paid && fits) || pays_more {
                answer.used += cost;
            }
            if !paid || !fits {
                break;
            }
            answer.count += reports.len();
            answer.taken += 1;
            state.copy_from_slice(&next);
        }
        answer
    }
}

impl Slipping for Slip {
    fn scan(
        &self,
        table: &[u64],
        state: &mut [u64],
        allowance: u64,
        block: &[u8],
        ids: &mut [u32],
        offsets: &mut [u64],
    ) -> Answer {
        let accepted = Answer { number: 0, taken: 0, count: 0, used: 0 };
        let (block, allowance) = match self {
            ZeroIsRefused if allowance == 0 => return Answer { number: 20, ..accepted },
            ZeroIsNotChecked if allowance == 0 => return accepted,
            LimitOfThePaid => (&block[..block.len().min(allowance as usize)], allowance),
            In32Bits if allowance < NO_LIMIT => (block, allowance & 0xffff_ffff),
            _ => (block, allowance),
        };
        let checked = Interpreter.scan(table, state, 0, block, ids, offsets);
        if checked.number != 0 {
            let used = if *self == UsedWhenRefused { allowance.min(1) } else { 0 };
            return Answer { used, ..checked };
        }
        let mut answer = self.by_bytes(table, state, allowance, block, ids, offsets);
        match self {
            UsesAll if allowance < NO_LIMIT => answer.used = allowance,
            UnpaidForgets if answer.taken == 0 && !block.is_empty() => {
                state[HELD..HELD + 4].fill(0);
                state[PENDING] = 0;
                state[SIDE] = 0;
            }
            _ => {}
        }
        answer
    }
}

/// The slips but for these.
fn without(beyond: &[Slip]) -> Vec<OverWords<With<Slip>>> {
    let met = SLIPS.into_iter().filter(|slip| !beyond.contains(slip));
    met.map(|slip| OverWords(With(slip))).collect()
}

#[test]
fn without_a_slip_all_is_well() {
    let sound = With(Sound);
    let tally = run_folder(&OverWords(sound), corpus::files::folder()).unwrap();
    assert!(tally.failures.is_empty(), "{}", tally.failures.join("\n"));
    random::run(&OverWords(sound), 1, 0, 500).unwrap();
    damaged::run(&sound, 1, 0, 500).unwrap();
}

#[test]
fn the_corpus_finds_every_slip() {
    finding::by_the_corpus(&without(&[]));
}

#[test]
fn the_random_mode_finds_every_slip_and_makes_it_small() {
    // No random stream is near its limit.
    finding::at_random(&without(&[LimitOfThePaid]), 10_000);
}

#[test]
fn the_exhaustive_mode_finds_every_slip_of_work() {
    // Its calls are all accepted, its allowances are about what bytes cost, and a byte that could not
    // be paid for is taken before the closing.
    let beyond = [UsedWhenRefused, ZeroIsNotChecked, LimitOfThePaid, UnpaidForgets, In32Bits];
    finding::among_all(&without(&beyond), MEANING, 2, 4);
}

#[test]
fn the_damaged_words_find_every_slip() {
    for slip in SLIPS {
        assert!(damaged::run(&With(slip), 1, 0, 30_000).is_err(), "{slip:?} was not found");
    }
}

/// What a call of a random case with an allowance shows, for the counts below.
fn corner(call: &Call, rules: usize) -> Option<&'static str> {
    let allowance = call.work?.allowance?;
    let (used, left) = (call.work?.used, allowance - call.work?.used);
    let block = call.block.as_ref()?.len();
    let free = call.before.ids.len().min(call.before.offsets.len()) - call.count;
    Some(match call.number {
        0 if allowance == 0 && block > 0 => "nothing is allowed",
        0 if call.taken == block && left == 0 && used > 0 => "just enough for the block",
        0 if call.taken == block => "enough for the block",
        0 if free >= rules && call.taken > 0 => "stopped for want of units",
        0 if free >= rules => "too little for the first byte",
        0 if left >= MOST_UNITS => "stopped for want of space",
        0 => "stopped for want of either",
        _ if allowance == 0 => "refused, and nothing is allowed",
        _ => "refused",
    })
}

#[test]
fn random_cases_have_every_corner_of_the_allowance() {
    let mut corners = std::collections::BTreeMap::new();
    for index in 0..3_000 {
        let case = predict(&random::scenario(&mut Rng::for_case(1, index)));
        let added = |line: &&Line| matches!(line, Line::Rule { number: 0, .. });
        let rules = case.lines.iter().filter(added).count();
        for line in &case.lines {
            let Line::Call(call) = line else { continue };
            if let Some(corner) = corner(call, rules) {
                *corners.entry(corner).or_insert(0) += 1;
            }
        }
    }
    assert_eq!(corners.len(), 9, "{corners:?}");
    assert!(corners.values().all(|&count| count >= 20), "{corners:?}");
}
