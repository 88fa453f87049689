//! Slips about the regions of a table: calls over words with one mistake each in what the words of a
//! region mean to a scan, in what the test asks of them, or in what an addition makes of them. The
//! mode of damaged words must find every one of them.

mod slipping;

use std::borrow::Cow;
use std::ops::Range;

use harness::damaged::run;
use reference::windows::Windows;
use slipping::{Slipping, With};
use words::calls::Calls;
use words::compiler::write_gates;
use words::gaps::{at_start, before_last, Side, LAST_GAPS, START_OF_LAST, UNSETTLED};
use words::interpreter::Interpreter;
use words::layout::*;

/// A scan or a closing reads other words than there are.
#[derive(Clone, Copy, Debug)]
enum Reading {
    /// Of an owner the bits of a place alone.
    OwnersInSixBits,
    OwnersIn32Bits,
    /// The positions that no rule owns are the last rule's.
    NobodysAreTheLastRules,
    OpenersAreOnesOnly,
    OpenersIn32Bits,
    OpenersNotAsked,
    OpenersFromTheSets,
    /// The first byte of a stream must be an opener too.
    OpenersAskedAtTheStart,
    /// So must a newline that may be the last byte.
    OpenersAskedAtALastNewline,
    LatesNotAsked,
    LatesFromTheSets,
    /// The positions of a held pair must be late ones too.
    LatesAskedBeforeALastNewline,
    /// So must those of a pair at the end.
    LatesAskedAtTheEnd,
}

/// The test looks at words that it should not look at.
#[derive(Clone, Copy, Debug)]
enum Testing {
    OwnersAreRules,
    SinglesAreRules,
    OpenersAreZeroOrOne,
    UnusedIsZero,
    IdsPastTheRulesRise,
}

/// An addition makes other words of those that are there.
#[derive(Clone, Copy, Debug)]
enum Adding {
    OwnersStay,
    EveryOwnerRises,
    OwnersPastThePositionsCleared,
    SinglesStay,
    SinglesPastTheRulesCleared,
    EveryIdMoves,
    OpenersStay,
    LatesStay,
    LatesOfTheNewRuleAdded,
    UnusedCleared,
}

/// The words of the sets with these numbers.
fn sets(set: fn(usize) -> usize, numbers: Range<usize>) -> Range<usize> {
    set(numbers.start)..set(numbers.end)
}

impl Reading {
    /// Makes of a table's words those that the slipping call takes for them.
    fn slip(self, words: &mut [u64], state: &[u64], block: &[u8]) {
        let owners = owner(0)..owner(MAX_POSITIONS);
        let openers = opener(0)..=opener(255);
        let rules = words[RULES];
        let mut gates = words.to_vec();
        write_gates(&mut gates);
        match self {
            Reading::OwnersInSixBits => words[owners].iter_mut().for_each(|a| *a %= 64),
            Reading::OwnersIn32Bits => words[owners].iter_mut().for_each(|a| *a &= 0xffff_ffff),
            Reading::NobodysAreTheLastRules if rules > 0 => {
                words[owners].iter_mut().for_each(|a| *a = (*a).min(rules - 1))
            }
            Reading::OpenersAreOnesOnly => {
                words[openers].iter_mut().for_each(|word| *word = u64::from(*word == 1))
            }
            Reading::OpenersIn32Bits => {
                words[openers].iter_mut().for_each(|word| *word &= 0xffff_ffff)
            }
            Reading::OpenersNotAsked => words[openers].fill(1),
            Reading::OpenersFromTheSets => {
                words[openers.clone()].copy_from_slice(&gates[openers]);
            }
            Reading::OpenersAskedAtTheStart => {
                let closed = |byte: &u8| words[opener(*byte)] == 0;
                if state[TAKEN] == 0 && block.len() == 1 && block.iter().all(closed) {
                    words[sets(first, at_start(Side::Other)..START_OF_LAST + 1)].fill(0);
                }
            }
            Reading::OpenersAskedAtALastNewline if words[opener(b'\n')] == 0 => {
                words[sets(first, before_last(Side::Other)..UNSETTLED)].fill(0);
            }
            Reading::LatesNotAsked => words[LATES..LATES + 4].fill(u64::MAX),
            Reading::LatesFromTheSets => {
                words[LATES..LATES + 4].copy_from_slice(&gates[LATES..LATES + 4]);
            }
            Reading::LatesAskedBeforeALastNewline => {
                only_lates(words, before_last(Side::Other)..UNSETTLED);
            }
            Reading::LatesAskedAtTheEnd => only_lates(words, UNSETTLED + 1..LAST_GAPS),
            _ => {}
        }
    }
}

/// Takes from the last sets of some gaps the positions that are no late ones.
fn only_lates(words: &mut [u64], gaps: Range<usize>) {
    for at in sets(last, gaps) {
        words[at] &= words[LATES + at % 4];
    }
}

impl Slipping for Reading {
    fn read<'t>(&self, table: &'t [u64], state: &[u64], block: &[u8]) -> Cow<'t, [u64]> {
        if Interpreter.test(table) != 0 || state.len() < STATE_WORDS {
            return Cow::Borrowed(table);
        }
        let mut words = table.to_vec();
        self.slip(&mut words, state, block);
        Cow::Owned(words)
    }
}

impl Slipping for Testing {
    fn test(&self, table: &[u64]) -> u32 {
        if Interpreter.test(table) != 0 {
            return 1;
        }
        let (rules, positions) = (table[RULES], table[POSITIONS] as usize);
        let passes = match self {
            Testing::OwnersAreRules => table[owner(0)..owner(positions)].iter().all(|&a| a < rules),
            Testing::SinglesAreRules => (rules..64).all(|a| table[SINGLES] >> a & 1 == 0),
            Testing::OpenersAreZeroOrOne => table[opener(0)..=opener(255)].iter().all(|&w| w < 2),
            Testing::UnusedIsZero => words_in(&[Region::Unused]).iter().all(|&at| table[at] == 0),
            Testing::IdsPastTheRulesRise => {
                let used = table[id(0)..id(MAX_RULES)].iter().filter(|&&id| id != 0);
                used.clone().zip(used.skip(1)).all(|(one, next)| one < next)
            }
        };
        u32::from(!passes)
    }
}

impl Slipping for Adding {
    fn add(
        &self,
        table: &mut [u64],
        rule: u32,
        flags: u32,
        windows: Windows,
        pattern: &[u8],
    ) -> (u32, usize) {
        let old = table.to_vec();
        let answer = Interpreter.add_within(table, rule, flags, windows, pattern);
        if answer.0 == 0 {
            self.slip(&old, table, rule);
        }
        answer
    }
}

fn each(of: Region, change: impl FnMut(usize)) {
    words_in(&[of]).into_iter().for_each(change);
}

impl Adding {
    /// What the slip makes of the words that the addition of a rule left, which were others.
    fn slip(self, old: &[u64], table: &mut [u64], rule: u32) {
        let rules = table[RULES] as usize;
        let (from, to) = (old[POSITIONS] as usize, table[POSITIONS] as usize);
        let ids = &table[id(0)..id(rules)];
        let place = ids.iter().position(|&id| id == u64::from(rule)).expect("the rule is there");
        match self {
            Adding::OwnersStay => {
                let owners = owner(0)..owner(from);
                table[owners.clone()].copy_from_slice(&old[owners]);
            }
            Adding::EveryOwnerRises => {
                let nobodys = (0..from).filter(|&p| old[owner(p)] >= MAX_RULES as u64);
                nobodys.for_each(|p| table[owner(p)] = old[owner(p)].wrapping_add(1));
            }
            Adding::OwnersPastThePositionsCleared => table[owner(to)..owner(MAX_POSITIONS)].fill(0),
            Adding::SinglesStay => {
                table[SINGLES] = old[SINGLES] & !(1 << place) | table[SINGLES] & 1 << place;
            }
            Adding::SinglesPastTheRulesCleared => {
                table[SINGLES] &= 1u64.checked_shl(rules as u32).map_or(!0, |bit| bit - 1);
            }
            Adding::EveryIdMoves => {
                table[id(place + 1)..id(MAX_RULES)]
                    .copy_from_slice(&old[id(place)..id(MAX_RULES - 1)]);
            }
            Adding::OpenersStay => each(Region::Openers, |at| table[at] |= old[at]),
            Adding::LatesStay => each(Region::Lates, |at| table[at] |= old[at]),
            Adding::LatesOfTheNewRuleAdded => {
                for p in 0..from {
                    let (at, bit) = (LATES + p / 64, 1 << (p % 64));
                    table[at] = table[at] & !bit | old[at] & bit;
                }
            }
            Adding::UnusedCleared => each(Region::Unused, |at| table[at] = 0),
        }
    }
}

fn found<S: Slipping + Copy + std::fmt::Debug>(slips: &[S]) {
    for slip in slips {
        assert!(run(&With(*slip), 1, 0, 30_000).is_err(), "{slip:?} was not found");
    }
}

#[test]
fn other_readings_are_found() {
    found(&[
        Reading::OwnersInSixBits,
        Reading::OwnersIn32Bits,
        Reading::NobodysAreTheLastRules,
        Reading::OpenersAreOnesOnly,
        Reading::OpenersIn32Bits,
        Reading::OpenersNotAsked,
        Reading::OpenersFromTheSets,
        Reading::OpenersAskedAtTheStart,
        Reading::OpenersAskedAtALastNewline,
        Reading::LatesNotAsked,
        Reading::LatesFromTheSets,
        Reading::LatesAskedBeforeALastNewline,
        Reading::LatesAskedAtTheEnd,
    ]);
}

#[test]
fn other_tests_are_found() {
    found(&[
        Testing::OwnersAreRules,
        Testing::SinglesAreRules,
        Testing::OpenersAreZeroOrOne,
        Testing::UnusedIsZero,
        Testing::IdsPastTheRulesRise,
    ]);
}

#[test]
fn other_additions_are_found() {
    found(&[
        Adding::OwnersStay,
        Adding::EveryOwnerRises,
        Adding::OwnersPastThePositionsCleared,
        Adding::SinglesStay,
        Adding::SinglesPastTheRulesCleared,
        Adding::EveryIdMoves,
        Adding::OpenersStay,
        Adding::LatesStay,
        Adding::LatesOfTheNewRuleAdded,
        Adding::UnusedCleared,
    ]);
}
