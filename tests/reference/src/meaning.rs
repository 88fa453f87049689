//! The meaning of a pattern, by recursion on its tree: from which offsets to which offsets it
//! matches, as far as is known at a moment. Sequence is composition, choice is union, a repeat is
//! the union of the powers from its lower to its upper number.
//!
//! Two loops over copies stop early. Both are exact, since "match once more" maps a set of offsets
//! to a set of offsets and distributes over union: once a set is its own image, all later images
//! are equal; and once an image brings nothing new, no later image does. This is also why a count
//! of 65,535 over something that takes no byte costs nothing.

use crate::known::Known;
use crate::offsets::{union, without, Offsets};
use crate::tree::Node;

/// Where a match of `node` can end that starts at one of `from`.
pub fn ends(node: &Node, from: &[usize], known: &Known) -> Offsets {
    match node {
        Node::Item(set) => {
            from.iter().filter(|&&gap| known.byte_in(gap, set)).map(|gap| gap + 1).collect()
        }
        Node::Assert(assertion) => {
            from.iter().copied().filter(|&gap| known.holds(*assertion, gap)).collect()
        }
        Node::Sequence(parts) => {
            let mut reached = from.to_vec();
            for part in parts {
                if reached.is_empty() {
                    break;
                }
                reached = ends(part, &reached, known);
            }
            reached
        }
        Node::Choice(branches) => {
            let mut reached = Offsets::new();
            for branch in branches {
                reached = union(&reached, &ends(branch, from, known));
            }
            reached
        }
        Node::Repeat { of, low, high } => {
            let after_low = power(of, *low, from, known);
            match high {
                Some(high) => up_to(of, high - low, &after_low, known),
                None => any_number(of, &after_low, known),
            }
        }
    }
}

/// Exactly `copies` matches in a row.
fn power(of: &Node, copies: u32, from: &[usize], known: &Known) -> Offsets {
    let mut reached = from.to_vec();
    for _ in 0..copies {
        let next = ends(of, &reached, known);
        if next == reached {
            break;
        }
        reached = next;
    }
    reached
}

/// From none to `copies` matches in a row.
fn up_to(of: &Node, copies: u32, from: &[usize], known: &Known) -> Offsets {
    let mut reached = from.to_vec();
    let mut newest = from.to_vec();
    for _ in 0..copies {
        newest = without(&ends(of, &newest, known), &reached);
        if newest.is_empty() {
            break;
        }
        reached = union(&reached, &newest);
    }
    reached
}

/// Any number of matches in a row. Each turn brings an offset not reached before, so the number of
/// bytes bounds the turns.
fn any_number(of: &Node, from: &[usize], known: &Known) -> Offsets {
    up_to(of, u32::MAX, from, known)
}
