//! The mode of damaged words on states that keep starts can be trusted: it finds calls over words
//! with one mistake each, and the interpreter agrees with itself.

mod slipping;

use harness::damaged::{run, run_traced};
use reference::calls::Columns;
use slipping::{traced, Slipping, With};
use words::calls::{Answer, Calls, Traces};
use words::interpreter::Interpreter;
use words::layout::*;

/// The interpreter with one mistake.
#[derive(Clone, Copy, Debug, PartialEq)]
enum Slip {
    StartAtTheTotal,
    LiveStartsNotTested,
    HeldStartsNotTested,
    PairStartsNotTested,
    StartWhereNothingIs,
    ShortStateIsNotValid,
    WordPastTheState,
    OpeningLeavesStarts,
    RefusedOpeningLeavesState,
    RefusalClearsStarts,
    ClosingClearsStarts,
    EveryPositionKeepsAStart,
    HeldStartsForgotten,
    PairStartsForgotten,
    StartsIn32Bits,
    RelativeFromTheFirstByte,
    RelativeAtClosingFromTheLastByte,
    RelativeWithoutTheFlag,
    SpaceWithoutRelatives,
    StartPastTheCount,
    BusyOfFifteenWords,
    NeedsStartsByRulesAlone,
    NeedsStartsByPositionsAlone,
    NeedsStartsPastTheRules,
    NeedsStartsOfNoTable,
    CostsMoreWithoutStarts,
    TakesLessWithoutStarts,
    BusierWithoutStarts,
}

use Slip::*;

/// The mistakes in calls on states that keep starts.
const WITH_STARTS: [Slip; 21] = [
    StartAtTheTotal,
    LiveStartsNotTested,
    HeldStartsNotTested,
    PairStartsNotTested,
    StartWhereNothingIs,
    ShortStateIsNotValid,
    WordPastTheState,
    OpeningLeavesStarts,
    RefusedOpeningLeavesState,
    RefusalClearsStarts,
    ClosingClearsStarts,
    EveryPositionKeepsAStart,
    HeldStartsForgotten,
    PairStartsForgotten,
    StartsIn32Bits,
    RelativeFromTheFirstByte,
    RelativeAtClosingFromTheLastByte,
    RelativeWithoutTheFlag,
    SpaceWithoutRelatives,
    StartPastTheCount,
    BusyOfFifteenWords,
];

/// Those in the question which kind of stream a table needs.
const NEEDED: [Slip; 4] = [
    NeedsStartsByRulesAlone,
    NeedsStartsByPositionsAlone,
    NeedsStartsPastTheRules,
    NeedsStartsOfNoTable,
];

/// Those in calls without starts, which the calls with starts must be like where no rule needs one.
const WITHOUT_STARTS: [Slip; 3] =
    [CostsMoreWithoutStarts, TakesLessWithoutStarts, BusierWithoutStarts];

fn in_32_bits(starts: &mut [u64]) {
    starts.iter_mut().for_each(|start| *start &= 0xffff_ffff);
}

impl Slip {
    /// The words that the slipping calls take for the state.
    fn before(self, state: &mut [u64], closing: bool) {
        if state.len() < TRACED_WORDS {
            return;
        }
        let taken = state[TAKEN];
        let live: Vec<bool> = (0..MAX_POSITIONS).map(|p| has(state, 0, p)).collect();
        let held: Vec<bool> = (0..MAX_POSITIONS).map(|p| has(state, HELD, p)).collect();
        let pairs: Vec<bool> = (0..MAX_RULES).map(|a| state[PENDING] >> a & 1 == 1).collect();
        let kept = live.into_iter().chain(held).chain(pairs);
        for (at, there) in (LIVE_STARTS..).zip(kept) {
            let start = &mut state[at];
            let of = match at {
                LIVE_STARTS..HELD_STARTS => LiveStartsNotTested,
                HELD_STARTS..PAIR_STARTS => HeldStartsNotTested,
                _ => PairStartsNotTested,
            };
            let forgotten = match at {
                LIVE_STARTS..HELD_STARTS => false,
                HELD_STARTS..PAIR_STARTS => self == HeldStartsForgotten,
                _ => self == PairStartsForgotten,
            };
            match there {
                true if self == StartAtTheTotal && *start == taken && taken > 0 => *start -= 1,
                true if self == of && taken > 0 => *start = (*start).min(taken - 1),
                true if forgotten && closing && *start < taken => *start = taken - 1,
                false if self == StartWhereNothingIs || self == of => *start = 0,
                _ => {}
            }
        }
    }

    /// What the slip makes of an accepted call: the state that it left, and what it wrote.
    fn after(self, table: &[u64], state: &mut [u64], first: u64, closing: bool, lists: Written) {
        let leftmost = |id: u32| {
            let at = (0..table[RULES] as usize).find(|&place| table[self::id(place)] as u32 == id);
            at.is_some_and(|place| table[LEFTMOSTS] >> place & 1 == 1)
        };
        let Written { lists, count } = lists;
        for slot in 0..count {
            let (flag, start) = (leftmost(lists.ids[slot]), lists.starts[slot]);
            let relative = &mut lists.relatives[slot];
            match self {
                RelativeFromTheFirstByte if flag => *relative = start as i64,
                RelativeAtClosingFromTheLastByte if flag && closing => *relative += 1,
                RelativeWithoutTheFlag if !flag => *relative = -(first as i64),
                _ => {}
            }
        }
        match self {
            StartsIn32Bits => in_32_bits(&mut lists.starts[..count]),
            StartPastTheCount if count < lists.starts.len() => lists.starts[count] = 0,
            WordPastTheState if state.len() > TRACED_WORDS => state[TRACED_WORDS] = 0,
            ClosingClearsStarts if closing => state[LIVE_STARTS..TRACED_WORDS].fill(0),
            EveryPositionKeepsAStart if !closing => {
                for p in 0..MAX_POSITIONS {
                    if has(state, 0, p) && !has(table, KEEPERS, p) {
                        state[LIVE_STARTS + p] = state[TAKEN] - 1;
                    }
                }
            }
            _ => {}
        }
    }
}

/// The lists, and how many reports were written.
struct Written<'l> {
    lists: Columns<'l>,
    count: usize,
}

/// The same lists once more.
fn again<'l>(lists: &'l mut Columns) -> Columns<'l> {
    let Columns { ids, offsets, starts, relatives } = lists;
    Columns { ids, offsets, starts, relatives }
}

impl Slipping for Slip {
    fn needs_starts(&self, table: &[u64]) -> u32 {
        let mut words = table.to_vec();
        if *self == NeedsStartsOfNoTable && Interpreter.test(table) != 0 {
            return 1;
        }
        if words.len() >= TABLE_WORDS {
            match self {
                NeedsStartsByRulesAlone => words[KEEPERS..KEEPERS + 4].fill(0),
                NeedsStartsByPositionsAlone => words[LEFTMOSTS] = 0,
                NeedsStartsPastTheRules if words[LEFTMOSTS] != 0 && words[RULES] > 0 => {
                    words[LEFTMOSTS] |= 1
                }
                _ => {}
            }
        }
        Interpreter.needs_starts(&words)
    }

    fn scan(
        &self,
        table: &[u64],
        state: &mut [u64],
        allowance: u64,
        block: &[u8],
        ids: &mut [u32],
        offsets: &mut [u64],
    ) -> Answer {
        let less = *self == TakesLessWithoutStarts && block.len() == 7;
        let block = if less { &block[..6] } else { block };
        let mut answer = Interpreter.scan(table, state, allowance, block, ids, offsets);
        if *self == CostsMoreWithoutStarts && answer.taken > 0 {
            answer.used += 1;
        }
        answer
    }

    fn busy(&self, state: &[u64]) -> u32 {
        Interpreter.busy(state) + u32::from(*self == BusierWithoutStarts)
    }

    fn trace_open(&self, table: &[u64], state: &mut [u64]) -> u32 {
        let kept = state.to_vec();
        let number = Interpreter.trace_open(table, state);
        match self {
            OpeningLeavesStarts if number != SHORT_STATE => {
                state[STATE_WORDS..].copy_from_slice(&kept[STATE_WORDS..])
            }
            RefusedOpeningLeavesState if number == 1 => state.copy_from_slice(&kept),
            ShortStateIsNotValid if number == SHORT_STATE => return 18,
            _ => {}
        }
        number
    }

    fn trace(
        &self,
        table: &[u64],
        state: &mut [u64],
        scan: Option<(&[u8], u64)>,
        mut lists: Columns,
    ) -> Answer {
        let kept = state.to_vec();
        self.before(state, scan.is_none());
        let mut longer = lists.relatives.to_vec();
        let space = lists.ids.len().min(lists.offsets.len()).min(lists.starts.len());
        longer.resize(longer.len().max(space), 0);
        let short = lists.relatives.len();
        let mut called = again(&mut lists);
        if *self == SpaceWithoutRelatives {
            called.relatives = &mut longer;
        }
        let mut answer = traced(table, state, scan, called);
        if *self == SpaceWithoutRelatives {
            lists.relatives.copy_from_slice(&longer[..short]);
        }
        if answer.number == 0 {
            let first = kept[TAKEN];
            let count = answer.count.min(short);
            self.after(table, state, first, scan.is_none(), Written { lists, count });
            return answer;
        }
        state.copy_from_slice(&kept);
        match self {
            RefusalClearsStarts if answer.number == 19 => state[STATE_WORDS..].fill(0),
            ShortStateIsNotValid if answer.number == SHORT_STATE => answer.number = 18,
            _ => {}
        }
        answer
    }

    fn trace_busy(&self, state: &[u64]) -> u32 {
        if *self == BusyOfFifteenWords {
            return Interpreter.busy(state);
        }
        Interpreter.trace_busy(state)
    }
}

#[test]
fn the_interpreter_agrees_with_itself() {
    let count = run_traced(&Interpreter, 1, 0, 10_000).unwrap();
    for number in [0, 1, 18, 19, 20, 21, 100] {
        let calls = count.by_number.get(&number).copied().unwrap_or_default();
        assert!(calls > 20, "number {number} is too rare: {calls}");
    }
    assert!(count.alike > 5_000, "{} calls were made without starts too", count.alike);
    for region in [Region::Leftmosts, Region::Keepers, Region::Windows, Region::Lengths] {
        let decided = count.decided.get(&region).copied().unwrap_or_default();
        assert!(decided > 20, "changed words of {region:?} decide too little: {decided}");
    }
}

#[test]
fn every_slip_is_found() {
    for slip in WITH_STARTS.into_iter().chain(WITHOUT_STARTS) {
        assert!(run_traced(&With(slip), 1, 0, 30_000).is_err(), "{slip:?} was not found");
    }
}

#[test]
fn the_kind_of_stream_that_a_table_needs_is_asked_for_in_both_modes() {
    for slip in NEEDED {
        assert!(run(&With(slip), 1, 0, 30_000).is_err(), "{slip:?} was not found");
        assert!(run_traced(&With(slip), 1, 0, 30_000).is_err(), "{slip:?} was not found");
    }
}
