//! The busy figure by its definition: a position of the written-out form is live when, from some
//! start, a way through the form matches the bytes up to now, its last byte taken by that position
//! and every assertion before it known to hold.
//!
//! All ways are followed at once, from every start, from left to right through the form. Whenever
//! a position takes the last byte known, it is live. Ways that meet at the same place of the form
//! with the same bytes behind them go on alike, so sets of offsets lose none.

use crate::known::Known;
use crate::offsets::{union, without, Offsets};
use crate::rule::Rule;
use crate::written::Form;

/// The number of live positions of all rules after these bytes, the stream's first.
pub fn busy(rules: &[Rule], taken: &[u8]) -> usize {
    rules.iter().map(|rule| live_positions(rule, taken).len()).sum()
}

/// The live positions of one rule after these bytes.
pub fn live_positions(rule: &Rule, taken: &[u8]) -> Vec<usize> {
    let known = Known::after(taken);
    let starts: Offsets = (0..taken.len()).collect();
    let mut live = vec![false; rule.positions];
    follow(&rule.form, &starts, &known, &mut live);
    (0..rule.positions).filter(|&p| live[p]).collect()
}

/// Follows all ways through a part, from these offsets; marks the positions that take the last
/// known byte on one of them; gives the offsets behind the part.
fn follow(form: &Form, from: &[usize], known: &Known, live: &mut [bool]) -> Offsets {
    if from.is_empty() {
        return Offsets::new();
    }
    match form {
        Form::Position(number, set) => {
            let reached: Offsets =
                from.iter().filter(|&&gap| known.byte_in(gap, set)).map(|gap| gap + 1).collect();
            if reached.contains(&known.bytes.len()) {
                live[*number] = true;
            }
            reached
        }
        Form::Assert(assertion) => {
            from.iter().copied().filter(|&gap| known.holds(*assertion, gap)).collect()
        }
        Form::Sequence(parts) => {
            parts.iter().fold(from.to_vec(), |at, part| follow(part, &at, known, live))
        }
        Form::Choice(branches) => branches.iter().fold(Offsets::new(), |reached, branch| {
            union(&reached, &follow(branch, from, known, live))
        }),
        Form::Optional(of) => union(from, &follow(of, from, known, live)),
        Form::Plus(of) => {
            let mut reached = Offsets::new();
            let mut newest = from.to_vec();
            while !newest.is_empty() {
                newest = without(&follow(of, &newest, known, live), &reached);
                reached = union(&reached, &newest);
            }
            reached
        }
    }
}
