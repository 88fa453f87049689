//! Questions to the reader that the tests of the pattern language share.

use reference::rule::{check, Rule};
use reference::tree::Node;

/// The rule of an accepted pattern.
pub fn rule(flags: u32, pattern: &str) -> Rule {
    match check(&[], 1, flags, pattern.as_bytes()) {
        Ok(rule) => rule,
        Err(refusal) => panic!("{pattern:?} is refused: {refusal:?}"),
    }
}

/// Each is refused with this number at this place.
pub fn refused(rows: &[(&str, u32, usize)]) {
    for &(pattern, number, place) in rows {
        match check(&[], 1, 0, pattern.as_bytes()) {
            Ok(_) => panic!("{pattern:?} is accepted"),
            Err(refusal) => {
                assert_eq!((refusal.number, refusal.place), (number, place), "{pattern:?}")
            }
        }
    }
}

/// Both are accepted with the same tree.
pub fn equal(rows: &[(&str, &str)]) {
    for &(pattern, plain) in rows {
        let trees = [pattern, plain].map(|p| format!("{:?}", rule(0, p).tree));
        assert_eq!(trees[0], trees[1], "{pattern:?} and {plain:?}");
    }
}

/// The bytes that a pattern of one class takes.
pub fn members(flags: u32, pattern: &str) -> Vec<u8> {
    let tree = rule(flags, pattern).tree;
    let mut node = &tree;
    loop {
        node = match node {
            Node::Item(set) => return set.members(),
            Node::Sequence(parts) | Node::Choice(parts) if parts.len() == 1 => &parts[0],
            _ => panic!("{pattern:?} is not one class"),
        }
    }
}
