//! The tree of a pattern, whether it can match no bytes, and how many positions its written-out
//! form has. Options are already applied: an item holds the very bytes that it accepts.

use crate::bytes::ByteSet;
use crate::refusal::MAX_POSITIONS;

#[derive(Clone, Copy, Debug, PartialEq, Eq)]
pub enum Assertion {
    /// `\A`, and `^` outside line mode: offset 0.
    Start,
    /// `\Z`, and `$` outside line mode: the end of the stream, and just before a newline that is its
    /// last byte.
    LastLine,
    /// `\z`: the very end of the stream.
    End,
    /// `^` in line mode: offset 0, and after a newline that is not the last byte.
    LineStart,
    /// `$` in line mode: the end of the stream, and before any newline.
    LineEnd,
    /// `\b`: of the bytes before and after, one is a word byte; a stream's end is none.
    WordEdge,
    /// `\B`: both are, or neither is.
    NoWordEdge,
}

#[derive(Clone, Debug)]
pub enum Node {
    /// Takes one byte of the set.
    Item(ByteSet),
    /// Takes nothing, holds or not at a gap between bytes.
    Assert(Assertion),
    Sequence(Vec<Node>),
    Choice(Vec<Node>),
    /// From `low` to `high` copies; without `high`, any number from `low` on.
    Repeat {
        of: Box<Node>,
        low: u32,
        high: Option<u32>,
    },
}

impl Node {
    /// Could it match no bytes, were all assertions true?
    pub fn nullable(&self) -> bool {
        match self {
            Node::Item(_) => false,
            Node::Assert(_) => true,
            Node::Sequence(parts) => parts.iter().all(Node::nullable),
            Node::Choice(branches) => branches.iter().any(Node::nullable),
            Node::Repeat { of, low, .. } => *low == 0 || of.nullable(),
        }
    }

    /// The number of byte-taking items in the written-out form, held at one above the limit once it
    /// is above. That loses nothing: sums and products of counts only grow, but for the factor 0,
    /// which stays exact.
    pub fn positions(&self) -> usize {
        let held = |n: usize| n.min(MAX_POSITIONS + 1);
        match self {
            Node::Item(_) => 1,
            Node::Assert(_) => 0,
            Node::Sequence(parts) | Node::Choice(parts) => {
                held(parts.iter().map(Node::positions).sum())
            }
            Node::Repeat { of, low, high } => {
                let copies = match high {
                    Some(high) => *high,
                    None => (*low).max(1),
                };
                held(of.positions() * copies as usize)
            }
        }
    }
}
