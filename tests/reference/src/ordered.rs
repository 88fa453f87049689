//! The one ordered list that a list of rules and a stream define, straight from the definition:
//! each pair of rule and end offset stands at the first moment, from its last byte on, at which
//! some start matches with every assertion known to hold, and the rule's windows hold of it; pairs
//! stand by moment, then end offset, then rising id; of a single-match rule only the first of this
//! list stays, which need not be its smallest offset. A pair of a rule that reports starts has the
//! smallest start whose match is known at the pair's moment, one of any other rule has 0. No call,
//! table or state is looked at here.

use crate::known::Known;
use crate::meaning::ends;
use crate::rule::Rule;

/// The bytes in order, then the closing.
#[derive(Clone, Copy, Debug, PartialEq, Eq, PartialOrd, Ord)]
pub enum Moment {
    /// When this many bytes have been taken.
    After(u64),
    Closing,
}

/// The order of the fields is the order of the list.
#[derive(Clone, Copy, Debug, PartialEq, Eq, PartialOrd, Ord)]
pub struct Pair {
    pub moment: Moment,
    pub offset: u64,
    pub id: u32,
    /// One pair has one start, so this orders nothing.
    pub start: u64,
}

pub fn ordered(rules: &[Rule], stream: &[u8]) -> Vec<Pair> {
    let mut list: Vec<Pair> = Vec::new();
    for rule in rules {
        let mut own = pairs_of(rule, stream);
        own.sort_unstable();
        if rule.single_match() {
            own.truncate(1);
        }
        list.extend(own);
    }
    list.sort_unstable();
    list
}

/// All pairs of one rule with their moments and starts. What is known at a moment stays known, so a
/// start from which nothing matches at closing can be left out at every moment before.
fn pairs_of(rule: &Rule, stream: &[u8]) -> Vec<Pair> {
    let length = stream.len();
    let closing = Known::at_closing(stream);
    let starts: Vec<usize> =
        (0..length).filter(|&s| !ends(&rule.tree, &[s], &closing).is_empty()).collect();
    let mut pairs: Vec<Option<Pair>> = vec![None; length + 1];
    for taken in 1..=length {
        let known = Known::after(&stream[..taken]);
        note(rule, &starts, &known, Moment::After(taken as u64), &mut pairs);
    }
    note(rule, &starts, &closing, Moment::Closing, &mut pairs);
    pairs.into_iter().flatten().collect()
}

/// Notes the pair of each end offset that has a match in the rule's windows known now, and none noted
/// before.
fn note(rule: &Rule, starts: &[usize], known: &Known, moment: Moment, pairs: &mut [Option<Pair>]) {
    // For each end offset the starts of all matches known now, in rising order.
    let mut matches: Vec<Vec<u64>> = vec![Vec::new(); pairs.len()];
    for &start in starts.iter().filter(|&&start| start < known.bytes.len()) {
        for end in ends(&rule.tree, &[start], known) {
            if start < end {
                matches[end].push(start as u64);
            }
        }
    }
    for (end, starts) in matches.iter().enumerate() {
        let offset = end as u64;
        let inside = starts.iter().any(|&start| rule.windows.hold(start, offset));
        if inside && pairs[end].is_none() {
            let start = if rule.leftmost_start() { starts[0] } else { 0 };
            pairs[end] = Some(Pair { moment, offset, id: rule.id, start });
        }
    }
}
