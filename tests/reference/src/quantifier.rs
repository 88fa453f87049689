//! Quantifiers. Comes in: a pattern and an index outside a class. Goes out: the quantifier that
//! starts there with its mark, if one does. A brace that is not one of the complete forms
//! `{n} {n,} {n,m} {,m}`, spaces and tabs aside, starts none and is a literal byte.

use crate::braces;
use crate::refusal::MAX_REPEAT;

#[derive(Clone, Copy, Debug, PartialEq, Eq)]
pub struct Quantifier {
    pub low: u32,
    /// No upper bound: any number of further copies.
    pub high: Option<u32>,
    pub possessive: bool,
    pub end: usize,
}

impl Quantifier {
    /// Fault 11: the lower number above the upper, or a number above 65,535.
    pub fn out_of_bounds(&self) -> bool {
        let high = self.high.unwrap_or(self.low);
        self.low > high || self.low > MAX_REPEAT || high > MAX_REPEAT
    }
}

pub fn read(pattern: &[u8], at: usize) -> Option<Quantifier> {
    let (low, high, end) = match pattern.get(at)? {
        b'?' => (0, Some(1), at + 1),
        b'*' => (0, None, at + 1),
        b'+' => (1, None, at + 1),
        b'{' => braces(pattern, at)?,
        _ => return None,
    };
    let mark = pattern.get(end).copied();
    let marked = matches!(mark, Some(b'?' | b'+'));
    Some(Quantifier {
        low,
        high,
        possessive: mark == Some(b'+'),
        end: if marked { end + 1 } else { end },
    })
}

/// A complete brace form: its bounds and the index after the `}`.
fn braces(pattern: &[u8], at: usize) -> Option<(u32, Option<u32>, usize)> {
    let number = |from| braces::number(pattern, from, 10, MAX_REPEAT + 1);
    let (low, i) = number(at + 1);
    if pattern.get(i) == Some(&b'}') {
        let low = low?;
        return Some((low, Some(low), i + 1));
    }
    if pattern.get(i) != Some(&b',') {
        return None;
    }
    let (high, j) = number(i + 1);
    if pattern.get(j) != Some(&b'}') || (low.is_none() && high.is_none()) {
        return None;
    }
    Some((low.unwrap_or(0), high, j + 1))
}
