//! Matching by looking back, for the model of the calls: at a moment, from which offsets does the
//! written-out form match up to a gap? The form is read from right to left. This is a second way to
//! the same meaning, on purpose unlike the definition's: other direction, other shape of the
//! pattern, and nothing but the bytes taken so far.

use crate::known::Known;
use crate::offsets::{union, without, Offsets};
use crate::written::{part_with, Form};

/// The earlier offsets from which the form matches up to this gap.
pub fn starts_of_matches(form: &Form, gap: usize, known: &Known) -> Offsets {
    let mut found = starts(form, &[gap], known);
    found.retain(|&start| start < gap);
    found
}

/// Is the position live: is there a way that has just taken the last known byte there?
pub fn is_live(form: &Form, position: usize, known: &Known) -> bool {
    !starts_up_to(form, position, known).is_empty()
}

/// Where a way through the form can start that has just taken the last known byte at the position:
/// the form, cut off behind that position, is read from there.
pub fn starts_up_to(form: &Form, position: usize, known: &Known) -> Offsets {
    match form {
        Form::Position(..) => starts(form, &[known.bytes.len()], known),
        Form::Assert(_) => Offsets::new(),
        Form::Sequence(parts) => {
            let index = part_with(parts, position);
            let at = starts_up_to(&parts[index], position, known);
            parts[..index].iter().rev().fold(at, |at, part| starts(part, &at, known))
        }
        Form::Choice(branches) => {
            starts_up_to(&branches[part_with(branches, position)], position, known)
        }
        Form::Optional(of) => starts_up_to(of, position, known),
        Form::Plus(of) => {
            let last = starts_up_to(of, position, known);
            union(&last, &starts(form, &last, known))
        }
    }
}

/// Where a match of the form can start that ends at one of `ends`.
fn starts(form: &Form, ends: &[usize], known: &Known) -> Offsets {
    if ends.is_empty() {
        return Offsets::new();
    }
    match form {
        Form::Position(_, set) => ends
            .iter()
            .filter(|&&end| end > 0 && known.byte_in(end - 1, set))
            .map(|end| end - 1)
            .collect(),
        Form::Assert(assertion) => {
            ends.iter().copied().filter(|&gap| known.holds(*assertion, gap)).collect()
        }
        Form::Sequence(parts) => {
            parts.iter().rev().fold(ends.to_vec(), |at, part| starts(part, &at, known))
        }
        Form::Choice(branches) => branches
            .iter()
            .fold(Offsets::new(), |found, branch| union(&found, &starts(branch, ends, known))),
        Form::Optional(of) => union(ends, &starts(of, ends, known)),
        Form::Plus(of) => {
            let mut found = Offsets::new();
            let mut newest = ends.to_vec();
            while !newest.is_empty() {
                newest = without(&starts(of, &newest, known), &found);
                found = union(&found, &newest);
            }
            found
        }
    }
}
