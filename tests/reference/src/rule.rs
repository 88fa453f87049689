//! A rule, and an addition's checks 2 to 17 and 23, 24 and 26 in their order. Check 1, which is about
//! the lent words, stands with the model of the calls.

use crate::reader;
use crate::refusal::*;
use crate::tree::Node;
use crate::windows::Windows;
use crate::written::{write_out, Form};

#[derive(Clone, Debug)]
pub struct Rule {
    pub id: u32,
    pub flags: u32,
    pub windows: Windows,
    pub pattern: Vec<u8>,
    pub tree: Node,
    /// The written-out form and the number of its positions.
    pub form: Form,
    pub positions: usize,
    /// How many positions the rules had that were there before it: the number of its first one.
    pub from: usize,
}

impl Rule {
    pub fn single_match(&self) -> bool {
        self.flags & SINGLE_MATCH != 0
    }

    pub fn leftmost_start(&self) -> bool {
        self.flags & LEFTMOST_START != 0
    }

    /// Does a stream have to know where its matches start? A smallest length of 0 counts as none.
    pub fn needs_starts(&self) -> bool {
        self.leftmost_start() || self.windows.smallest_length > 0
    }
}

impl PartialEq for Rule {
    fn eq(&self, other: &Rule) -> bool {
        let parts = |rule: &Rule| (rule.id, rule.flags, rule.windows, rule.from);
        parts(self) == parts(other) && self.pattern == other.pattern
    }
}

/// The rule that an addition to these rules would bring, or why it is refused.
pub fn check(there: &[Rule], id: u32, flags: u32, pattern: &[u8]) -> Result<Rule, Refusal> {
    check_within(there, id, flags, Windows::NONE, pattern)
}

/// The same for an addition with windows.
pub fn check_within(
    there: &[Rule],
    id: u32,
    flags: u32,
    windows: Windows,
    pattern: &[u8],
) -> Result<Rule, Refusal> {
    if flags & !(CASELESS | DOT_ALL | LINE_MODE | SINGLE_MATCH | LEFTMOST_START) != 0 {
        return Err(Refusal::at(2, 0));
    }
    if flags & LEFTMOST_START != 0 && flags & SINGLE_MATCH != 0 {
        return Err(Refusal::at(24, 0));
    }
    if there.iter().any(|rule| rule.id == id) {
        return Err(Refusal::at(3, 0));
    }
    if there.len() >= MAX_RULES {
        return Err(Refusal::at(4, 0));
    }
    if pattern.len() > MAX_PATTERN {
        return Err(Refusal::at(5, 0));
    }
    if windows.fall() {
        return Err(Refusal::at(26, 0));
    }
    let tree = reader::read(pattern, flags)?;
    let positions = tree.positions();
    let from = positions_of(there);
    if from + positions > MAX_POSITIONS {
        return Err(Refusal::at(17, pattern.len()));
    }
    let form = write_out(&tree);
    Ok(Rule { id, flags, windows, pattern: pattern.to_vec(), tree, form, positions, from })
}

/// The positions of all these rules together.
pub fn positions_of(rules: &[Rule]) -> usize {
    rules.iter().map(|rule| rule.positions).sum()
}
