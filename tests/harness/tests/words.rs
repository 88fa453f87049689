//! The interpreter of table words can be trusted, and so can the mode of damaged words: on the tables
//! that the compiler writes, the interpreter gives what the definition gives, for the whole corpus
//! and some random cases; and the mode finds calls over words with one mistake each.

mod slipping;

use std::borrow::Cow;

use harness::corpus_run::run_folder;
use harness::damaged::run;
use harness::over_words::OverWords;
use harness::random;
use harness::traced::Traced;
use slipping::{Slipping, With};
use words::calls::{Answer, Calls};
use words::gaps::Side;
use words::interpreter::{scanned, Interpreter};
use words::layout::*;

/// The interpreter with one mistake.
#[derive(Clone, Copy, Debug)]
enum Slip {
    ClosedIsOneOnly,
    CountsIn32Bits,
    MarksPastTheRules,
    MarksIn32Bits,
    LiveOutside,
    HeldOutside,
    HeldNotMasked,
    HeldWithoutLive,
    PairsPastTheRules,
    PairsTooEarly,
    LiveBeforeTheFirstByte,
    HeldBeforeTheFirstByte,
    PairsOfMarkedRulesDropped,
    KeepersNotAsked,
    LeftmostsNotAsked,
    LeftmostsPastTheRules,
    KeepersPastThePositions,
    ThreeIsANewline,
    KindIn32Bits,
    KindLeftAsFound,
    ClosingStoresMarks,
    RefusalStores,
    RefusedOpeningLeavesState,
    WordPastTheState,
    ShortStateIsNoTable,
    OffsetsIn32Bits,
    EqualIds,
    IdsIn32Bits,
}

const ALL: [Slip; 28] = [
    Slip::ClosedIsOneOnly,
    Slip::CountsIn32Bits,
    Slip::MarksPastTheRules,
    Slip::MarksIn32Bits,
    Slip::LiveOutside,
    Slip::HeldOutside,
    Slip::HeldNotMasked,
    Slip::HeldWithoutLive,
    Slip::PairsPastTheRules,
    Slip::PairsTooEarly,
    Slip::LiveBeforeTheFirstByte,
    Slip::HeldBeforeTheFirstByte,
    Slip::PairsOfMarkedRulesDropped,
    Slip::KeepersNotAsked,
    Slip::LeftmostsNotAsked,
    Slip::LeftmostsPastTheRules,
    Slip::KeepersPastThePositions,
    Slip::ThreeIsANewline,
    Slip::KindIn32Bits,
    Slip::KindLeftAsFound,
    Slip::ClosingStoresMarks,
    Slip::RefusalStores,
    Slip::RefusedOpeningLeavesState,
    Slip::WordPastTheState,
    Slip::ShortStateIsNoTable,
    Slip::OffsetsIn32Bits,
    Slip::EqualIds,
    Slip::IdsIn32Bits,
];

/// As many ones as there are rules in the table, from the lowest digit on.
fn below_rules(table: &[u64]) -> u64 {
    1u64.checked_shl(table[RULES] as u32).map_or(!0, |bit| bit - 1)
}

/// Takes the positions that the table has not out of the set whose four words begin at `at`.
fn keep_inside(table: &[u64], state: &mut [u64], at: usize) {
    for p in (0..MAX_POSITIONS).skip(table[POSITIONS] as usize) {
        state[at + p / 64] &= !(1 << (p % 64));
    }
}

/// Makes a rule, or a position where there is no rule, need a start.
fn need_starts(words: &mut [u64]) {
    if words[RULES] > 0 {
        words[LEFTMOSTS] |= 1;
    } else if words[POSITIONS] > 0 {
        words[KEEPERS] |= 1;
    }
}

impl Slip {
    /// The words that the slipping calls take for the state.
    fn before(self, table: &[u64], state: &mut [u64]) {
        if state.len() < STATE_WORDS || table.len() < TABLE_WORDS {
            return;
        }
        match self {
            Slip::ClosedIsOneOnly => state[CLOSED] = u64::from(state[CLOSED] == 1),
            Slip::CountsIn32Bits => {
                state[STATE_RULES] &= 0xffff_ffff;
                state[STATE_POSITIONS] &= 0xffff_ffff;
            }
            Slip::MarksPastTheRules => state[MARKS] &= below_rules(table),
            Slip::MarksIn32Bits => state[MARKS] &= 0xffff_ffff,
            Slip::LiveOutside => keep_inside(table, state, 0),
            Slip::HeldOutside => keep_inside(table, state, HELD),
            Slip::PairsPastTheRules => state[PENDING] &= below_rules(table),
            Slip::PairsTooEarly if state[TAKEN] < 2 => state[PENDING] = 0,
            Slip::LiveBeforeTheFirstByte if state[TAKEN] == 0 => state[..HELD].fill(0),
            Slip::HeldBeforeTheFirstByte if state[TAKEN] == 0 => state[HELD..MARKS].fill(0),
            Slip::ThreeIsANewline if state[SIDE] == 3 => state[SIDE] = Side::Newline as u64,
            Slip::KindIn32Bits => state[SIDE] &= 0xffff_ffff,
            _ => {}
        }
    }

    /// What the slip makes of the state that a scan left, which took these bytes.
    fn after_scan(self, table: &[u64], kept: &[u64], state: &mut [u64], taken: &[u8]) {
        let mut other = kept.to_vec();
        match self {
            Slip::HeldWithoutLive => (0..4).for_each(|i| state[HELD + i] &= !state[i]),
            Slip::PairsOfMarkedRulesDropped => state[PENDING] &= !state[MARKS],
            Slip::HeldNotMasked => {
                let mut table = table.to_vec();
                table[POSITIONS] = MAX_POSITIONS as u64;
                other[STATE_POSITIONS] = MAX_POSITIONS as u64;
                scanned(&table, &mut other, taken);
                state[HELD..HELD + 4].copy_from_slice(&other[HELD..HELD + 4]);
            }
            _ => {}
        }
    }

    fn after(self, answer: &mut Answer, state: &mut [u64], kept: &[u64], offsets: &mut [u64]) {
        if answer.number != 0 {
            state.copy_from_slice(kept);
        }
        match self {
            Slip::RefusalStores if answer.number == 19 => state[CLOSED] = 1,
            Slip::WordPastTheState if answer.number == 0 && state.len() > STATE_WORDS => {
                state[STATE_WORDS] = 0
            }
            Slip::ShortStateIsNoTable if answer.number == SHORT_STATE => answer.number = 1,
            Slip::KindLeftAsFound if answer.number == 0 && answer.taken == 0 => {
                state[SIDE] = kept[SIDE]
            }
            Slip::OffsetsIn32Bits => {
                offsets[..answer.count].iter_mut().for_each(|end| *end &= 0xffff_ffff)
            }
            _ => {}
        }
    }
}

impl Slipping for Slip {
    fn read<'t>(&self, table: &'t [u64], _state: &[u64], _block: &[u8]) -> Cow<'t, [u64]> {
        if Interpreter.test(table) != 0 {
            return Cow::Borrowed(table);
        }
        let mut words = table.to_vec();
        match self {
            Slip::KeepersNotAsked => words[KEEPERS..KEEPERS + 4].fill(0),
            Slip::LeftmostsNotAsked => words[LEFTMOSTS] = 0,
            Slip::LeftmostsPastTheRules if words[LEFTMOSTS] != 0 => need_starts(&mut words),
            Slip::KeepersPastThePositions if words[KEEPERS..KEEPERS + 4] != [0; 4] => {
                need_starts(&mut words)
            }
            _ => return Cow::Borrowed(table),
        }
        Cow::Owned(words)
    }

    fn test(&self, table: &[u64]) -> u32 {
        let mut words = table.to_vec();
        let two = words.len() >= TABLE_WORDS && words[RULES] == 2;
        if matches!(self, Slip::EqualIds) && two && words[id(1)] == words[id(0)] {
            words[id(1)] = words[id(1)].wrapping_add(1);
        }
        if matches!(self, Slip::IdsIn32Bits) && words.len() >= TABLE_WORDS {
            words[id(0)..id(MAX_RULES)].iter_mut().for_each(|id| *id &= 0xffff_ffff);
        }
        Interpreter.test(&words)
    }

    fn open(&self, table: &[u64], state: &mut [u64]) -> u32 {
        let kept = state.to_vec();
        let number = Interpreter.open(table, state);
        if matches!(self, Slip::RefusedOpeningLeavesState) && number != 0 {
            state.copy_from_slice(&kept);
        }
        number
    }

    fn scan(
        &self,
        table: &[u64],
        state: &mut [u64],
        allowance: u64,
        block: &[u8],
        ids: &mut [u32],
        offsets: &mut [u64],
    ) -> Answer {
        let kept = state.to_vec();
        self.before(table, state);
        let words = self.read(table, state, block);
        let mut answer = Interpreter.scan(&words, state, allowance, block, ids, offsets);
        if answer.number == 0 {
            self.after_scan(table, &kept, state, &block[..answer.taken]);
        }
        self.after(&mut answer, state, &kept, offsets);
        answer
    }

    fn close(
        &self,
        table: &[u64],
        state: &mut [u64],
        ids: &mut [u32],
        offsets: &mut [u64],
    ) -> Answer {
        let kept = state.to_vec();
        self.before(table, state);
        let mut answer = Interpreter.close(table, state, ids, offsets);
        if matches!(self, Slip::ClosingStoresMarks) && answer.number == 0 {
            state[MARKS] |= state[PENDING] & table[SINGLES];
        }
        self.after(&mut answer, state, &kept, offsets);
        answer
    }
}

#[test]
fn the_interpreter_agrees_with_itself() {
    let count = run(&Interpreter, 1, 0, 10_000).unwrap();
    for number in [0, 1, 18, 19, 20, 21, 100] {
        assert!(
            count.by_number.get(&number).is_some_and(|&n| n > 20),
            "number {number} is too rare"
        );
    }
    for (region, _) in REGIONS {
        let decided = count.decided.get(&region).copied().unwrap_or_default();
        if [Region::Lengths, Region::Unused].contains(&region) {
            assert_eq!(decided, 0, "{region:?} words have no meaning without starts");
        } else {
            assert!(decided > 8, "changed words of {region:?} decide too little: {decided}");
        }
    }
}

#[test]
fn every_slip_is_found() {
    for slip in ALL {
        assert!(run(&With(slip), 1, 0, 30_000).is_err(), "{slip:?} was not found");
    }
}

#[test]
fn the_corpus() {
    let tally = run_folder(&OverWords(Interpreter), corpus::files::folder()).unwrap();
    assert!(tally.failures.is_empty(), "{}", tally.failures.join("\n"));
    assert_eq!(tally.skipped, 0);
    assert!(tally.passed >= 1_000);
}

#[test]
fn the_corpus_with_starts() {
    let tally = run_folder(&Traced(OverWords(Interpreter)), corpus::files::folder()).unwrap();
    assert!(tally.failures.is_empty(), "{}", tally.failures.join("\n"));
    assert_eq!(tally.skipped, 0);
    assert!(tally.passed >= 1_000);
}

#[test]
fn random_cases_with_starts() {
    random::run(&Traced(OverWords(Interpreter)), 5, 0, 3_000).unwrap();
}

#[test]
fn random_cases() {
    random::run(&OverWords(Interpreter), 5, 0, 3_000).unwrap();
}
