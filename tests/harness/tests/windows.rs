//! Slips about the windows of rules: calls over words with one mistake each in what a call reads of
//! end offsets and smallest lengths, or in what an addition writes of them. The damaged words must
//! find every one of them, on states that keep starts. The corpus and the random mode must find
//! those that show on tables that additions have built.

mod finding;
mod slipping;

use std::borrow::Cow;

use harness::corpus_run::run_folder;
use harness::damaged::run_traced;
use harness::exhaustive::{LINES, MEANING};
use harness::over_words::OverWords;
use harness::random;
use harness::traced::Traced;
use reference::calls::Columns;
use reference::windows::Windows;
use slipping::{traced, Slipping, With};
use words::calls::{Answer, Calls};
use words::interpreter::Interpreter;
use words::layout::*;

#[derive(Clone, Copy, Debug, PartialEq)]
enum Slip {
    Sound,
    // What a scan or a closing reads.
    EndsNotAsked,
    SmallestEndOutside,
    LargestEndOutside,
    LengthsNotAsked,
    LengthsNotAskedAtClosing,
    OneByteTooLong,
    OneByteTooShort,
    LengthsIn32Bits,
    HugeLengthsAreNone,
    LengthsThoughNoRuleHasOne,
    LengthsByOwners,
    // What an addition makes of the words.
    LengthsNotTold,
    LengthsTakenBack,
    LengthsOfTheNewPositionsAlone,
    NoLengthLeavesWhatWasThere,
    KeepersByTheFlagAlone,
    EndsAtTheLastPlace,
    NoWindowLeavesWhatWasThere,
    // When it refuses.
    TwentySixBehindThePattern,
    TwentySixForOneOffset,
}

use Slip::*;

/// Those that show on built tables.
const BUILT: [Slip; 16] = [
    EndsNotAsked,
    SmallestEndOutside,
    LargestEndOutside,
    LengthsNotAsked,
    LengthsNotAskedAtClosing,
    OneByteTooLong,
    OneByteTooShort,
    LengthsIn32Bits,
    HugeLengthsAreNone,
    LengthsNotTold,
    LengthsTakenBack,
    NoLengthLeavesWhatWasThere,
    KeepersByTheFlagAlone,
    EndsAtTheLastPlace,
    TwentySixBehindThePattern,
    TwentySixForOneOffset,
];

/// Those that damaged words alone show.
const DAMAGED: [Slip; 4] = [
    LengthsThoughNoRuleHasOne,
    LengthsByOwners,
    LengthsOfTheNewPositionsAlone,
    NoWindowLeavesWhatWasThere,
];

impl Slip {
    /// Makes of a table's words those that the slipping call takes for them.
    fn reading(self, words: &mut [u64], closing: bool) {
        let owners: Vec<u64> = words[owner(0)..owner(MAX_POSITIONS)].to_vec();
        let first = |q: usize| owners.iter().position(|&owner| owner == owners[q]).unwrap_or(q);
        let of_owners: Vec<u64> = (0..MAX_POSITIONS).map(|q| words[shortest(first(q))]).collect();
        let lengths = shortest(0)..shortest(MAX_POSITIONS);
        let each = |words: &mut [u64], change: fn(u64) -> u64| {
            words[shortest(0)..shortest(MAX_POSITIONS)].iter_mut().for_each(|w| *w = change(*w));
        };
        match self {
            EndsNotAsked => words[WINDOWED] = 0,
            SmallestEndOutside => {
                let lowest = &mut words[lowest(0)..lowest(MAX_RULES)];
                lowest.iter_mut().for_each(|end| *end = end.saturating_add(u64::from(*end > 0)));
            }
            LargestEndOutside => {
                let highest = &mut words[highest(0)..highest(MAX_RULES)];
                highest.iter_mut().for_each(|end| *end = end.saturating_sub(1));
            }
            LengthsNotAsked => words[LENGTHS] = 0,
            LengthsNotAskedAtClosing if closing => words[LENGTHS] = 0,
            OneByteTooLong => each(words, |least| least.saturating_add(u64::from(least > 0))),
            OneByteTooShort => each(words, |least| least.saturating_sub(1)),
            LengthsIn32Bits => each(words, |least| least & 0xffff_ffff),
            HugeLengthsAreNone => each(words, |least| if least >> 63 == 1 { 0 } else { least }),
            LengthsThoughNoRuleHasOne => words[LENGTHS] = 1,
            LengthsByOwners => words[lengths].copy_from_slice(&of_owners),
            _ => {}
        }
    }

    /// What the slip makes of the words that the addition of a rule left, which were others.
    fn adding(self, old: &[u64], table: &mut [u64], id: u32, flags: u32, windows: Windows) {
        let rules = table[RULES] as usize;
        let (from, to) = (old[POSITIONS] as usize, table[POSITIONS] as usize);
        let none = windows.smallest_length == 0;
        match self {
            LengthsNotTold => table[LENGTHS] = old[LENGTHS],
            LengthsTakenBack if none => table[LENGTHS] = 0,
            LengthsOfTheNewPositionsAlone => {
                let past = shortest(to)..shortest(MAX_POSITIONS);
                table[past.clone()].copy_from_slice(&old[past]);
            }
            NoLengthLeavesWhatWasThere if none => {
                let new = shortest(from)..shortest(MAX_POSITIONS);
                table[new.clone()].copy_from_slice(&old[new]);
            }
            KeepersByTheFlagAlone if flags & LEFTMOST_START == 0 => {
                (from..to).for_each(|p| table[KEEPERS + p / 64] &= !(1 << (p % 64)));
            }
            EndsAtTheLastPlace => {
                let at = |at: fn(usize) -> usize| at(0)..at(rules - 1);
                for ends in [at(lowest), at(highest)] {
                    table[ends.clone()].copy_from_slice(&old[ends]);
                }
                table[lowest(rules - 1)] = windows.smallest_end;
                table[highest(rules - 1)] = windows.largest_end;
            }
            NoWindowLeavesWhatWasThere if windows == Windows::NONE => {
                let ids = &table[self::id(0)..self::id(rules)];
                let place = ids.iter().position(|&other| other == u64::from(id));
                let place = place.expect("the rule is there");
                table[lowest(place)] = old[lowest(place)];
                table[highest(place)] = old[highest(place)];
            }
            _ => {}
        }
    }
}

impl Slipping for Slip {
    fn read<'t>(&self, table: &'t [u64], state: &[u64], block: &[u8]) -> Cow<'t, [u64]> {
        if Interpreter.test(table) != 0 || state.len() < STATE_WORDS {
            return Cow::Borrowed(table);
        }
        let mut words = table.to_vec();
        self.reading(&mut words, block.is_empty());
        Cow::Owned(words)
    }

    fn add(
        &self,
        table: &mut [u64],
        id: u32,
        flags: u32,
        windows: Windows,
        pattern: &[u8],
    ) -> (u32, usize) {
        let old = table.to_vec();
        let mut answer = Interpreter.add_within(table, id, flags, windows, pattern);
        if answer.0 == 0 {
            self.adding(&old, table, id, flags, windows);
        }
        if answer.0 == 26 && *self == TwentySixBehindThePattern {
            let mut other = table.to_vec();
            let read = Interpreter.add(&mut other, id, flags, pattern);
            answer = if read.0 == 0 { answer } else { read };
        }
        let one_offset = windows.smallest_end == windows.largest_end;
        if answer.0 == 0 && *self == TwentySixForOneOffset && one_offset {
            table.copy_from_slice(&old);
            answer = (26, 0);
        }
        answer
    }

    fn trace(
        &self,
        table: &[u64],
        state: &mut [u64],
        scan: Option<(&[u8], u64)>,
        lists: Columns,
    ) -> Answer {
        if Interpreter.test(table) != 0 {
            return traced(table, state, scan, lists);
        }
        let mut words = table.to_vec();
        self.reading(&mut words, scan.is_none());
        traced(&words, state, scan, lists)
    }
}

fn over(slips: &[Slip]) -> Vec<Traced<OverWords<With<Slip>>>> {
    slips.iter().map(|&slip| Traced(OverWords(With(slip)))).collect()
}

#[test]
fn without_a_slip_all_is_well() {
    let sound = Traced(OverWords(With(Sound)));
    let tally = run_folder(&sound, corpus::files::folder()).unwrap();
    assert!(tally.failures.is_empty(), "{}", tally.failures.join("\n"));
    random::run(&sound, 1, 0, 500).unwrap();
    run_traced(&With(Sound), 1, 0, 500).unwrap();
}

#[test]
fn the_corpus_finds_every_slip_that_built_tables_show() {
    finding::by_the_corpus(&over(&BUILT));
}

#[test]
fn the_random_mode_finds_them_and_makes_them_small() {
    // Its lengths are short.
    let beyond = [LengthsIn32Bits, HugeLengthsAreNone];
    let met: Vec<Slip> = BUILT.into_iter().filter(|slip| !beyond.contains(slip)).collect();
    finding::at_random(&over(&met), 20_000);
}

#[test]
fn damaged_words_find_every_slip() {
    for slip in BUILT.into_iter().chain(DAMAGED) {
        assert!(run_traced(&With(slip), 1, 0, 60_000).is_err(), "{slip:?} was not found");
    }
}

#[test]
fn the_exhaustive_mode_has_a_rule_with_a_length() {
    let slips = over(&[LengthsNotAsked, LengthsNotAskedAtClosing, OneByteTooLong]);
    finding::among_all(&slips, MEANING, 2, 2);
    finding::among_all(&slips, LINES, 2, 2);
}
