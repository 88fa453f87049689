//! The written-out form of a pattern: no counts any more, each position a separate item.
//!
//! `X{n,m}` is n copies, then m-n copies nested as optional, each inside the one before; `X{n,}`
//! with n at least 1 is n-1 copies and then `X+`; `X*` is an optional `X+`; `{0}` is nothing.
//!
//! A part without positions is written once if it must be there at all, and not at all otherwise.
//! That keeps its truth at every gap: going the same way again asks the same assertions at the same
//! gap, and another way only asks more. So a form has at most as many copies as it has positions.

use crate::bytes::ByteSet;
use crate::tree::{Assertion, Node};

#[derive(Clone, Debug)]
pub enum Form {
    /// A position: its number, from 0 in written order, and the bytes it takes.
    Position(usize, ByteSet),
    Assert(Assertion),
    Sequence(Vec<Form>),
    Choice(Vec<Form>),
    Optional(Box<Form>),
    /// One or more times.
    Plus(Box<Form>),
}

pub fn write_out(tree: &Node) -> Form {
    Writer { next: 0 }.form(tree)
}

/// Numbers the positions as it writes them.
struct Writer {
    next: usize,
}

impl Writer {
    fn form(&mut self, node: &Node) -> Form {
        match node {
            Node::Item(set) => {
                let number = self.next;
                self.next += 1;
                Form::Position(number, set.clone())
            }
            Node::Assert(assertion) => Form::Assert(*assertion),
            Node::Sequence(parts) => Form::Sequence(self.each(parts)),
            Node::Choice(branches) => Form::Choice(self.each(branches)),
            Node::Repeat { high: Some(0), .. } => Form::Sequence(Vec::new()),
            Node::Repeat { of, low, .. } if of.positions() == 0 => {
                Form::Sequence(if *low == 0 { Vec::new() } else { vec![self.form(of)] })
            }
            Node::Repeat { of, low: 0, high: None } => {
                Form::Optional(Box::new(Form::Plus(Box::new(self.form(of)))))
            }
            Node::Repeat { of, low, high: None } => {
                let mut parts: Vec<Form> = (1..*low).map(|_| self.form(of)).collect();
                parts.push(Form::Plus(Box::new(self.form(of))));
                Form::Sequence(parts)
            }
            Node::Repeat { of, low, high: Some(high) } => {
                let mut parts: Vec<Form> = (0..*low).map(|_| self.form(of)).collect();
                parts.push(self.nested(of, high - low));
                Form::Sequence(parts)
            }
        }
    }

    fn each(&mut self, nodes: &[Node]) -> Vec<Form> {
        nodes.iter().map(|node| self.form(node)).collect()
    }

    /// `copies` optional copies, each inside the one before.
    fn nested(&mut self, of: &Node, copies: u32) -> Form {
        if copies == 0 {
            return Form::Sequence(Vec::new());
        }
        let outer = self.form(of);
        let inner = self.nested(of, copies - 1);
        Form::Optional(Box::new(Form::Sequence(vec![outer, inner])))
    }
}

impl Form {
    /// The number of its first position, if it has one.
    fn first_position(&self) -> Option<usize> {
        match self {
            Form::Position(number, _) => Some(*number),
            Form::Assert(_) => None,
            Form::Sequence(parts) | Form::Choice(parts) => {
                parts.iter().find_map(Form::first_position)
            }
            Form::Optional(of) | Form::Plus(of) => of.first_position(),
        }
    }
}

/// Which of the parts holds the position: since they are numbered in written order, the last one that
/// does not begin behind it.
pub fn part_with(parts: &[Form], number: usize) -> usize {
    let before = |part: &Form| part.first_position().is_some_and(|first| first <= number);
    parts.iter().rposition(before).expect("the position is in here")
}
