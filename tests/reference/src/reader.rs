//! The reader of a pattern. Comes in: the pattern's bytes and the rule's flags. Goes out: the tree,
//! or the first fault with its place.
//!
//! Tokens are read from left to right, and the open groups stand on a stack of frames. A token can
//! be faulty in several ways at once; its faults are collected and the lowest number is given. The
//! faults known only at the end follow in their order: 8, 12, 15, 16. (17 needs the table.)
//!
//! Between two tokens quotes are opened and closed (`quote`), and comments are passed over; neither
//! changes what a quantifier would find before it.

use crate::bytes::ByteSet;
use crate::class::{self, Class};
use crate::escape::{self, Escaped};
use crate::quantifier::{self, Quantifier};
use crate::quote::Place;
use crate::refusal::{Refusal, CASELESS, DOT_ALL, LINE_MODE, MAX_GROUPS, MAX_POSITIONS};
use crate::token::lowest_fault;
use crate::tree::{Assertion, Node};

#[derive(Clone, Copy)]
struct Options {
    caseless: bool,
    dot_all: bool,
    line_mode: bool,
}

/// What a quantifier would find before it. Only an item can be repeated.
#[derive(Clone, Copy, PartialEq, Eq)]
enum Before {
    Nothing,
    Item,
    Quantified,
}

/// One open group, or the pattern itself at the bottom.
struct Frame {
    /// The options that held at the group's `(` and hold again after its `)`.
    outside: Options,
    branches: Vec<Node>,
    sequence: Vec<Node>,
}

struct Reader<'a> {
    pattern: &'a [u8],
    place: Place,
    options: Options,
    before: Before,
    frames: Vec<Frame>,
}

/// The tree of the pattern under the flags, or why it is refused.
pub fn read(pattern: &[u8], flags: u32) -> Result<Node, Refusal> {
    let options = Options {
        caseless: flags & CASELESS != 0,
        dot_all: flags & DOT_ALL != 0,
        line_mode: flags & LINE_MODE != 0,
    };
    let place = Place::plain(0).settled(pattern);
    let mut reader =
        Reader { pattern, place, options, before: Before::Nothing, frames: Vec::new() };
    reader.push_frame(options);
    let length = pattern.len();
    while reader.place.at < length {
        if let Token::Open(number) = reader.token()? {
            return Err(Refusal::at(number, length));
        }
        reader.place = reader.place.settled(pattern);
    }
    if reader.frames.len() > 1 {
        return Err(Refusal::at(12, length));
    }
    let tree = reader.pop_frame();
    if tree.nullable() {
        return Err(Refusal::at(15, length));
    }
    if tree.positions() > MAX_POSITIONS {
        return Err(Refusal::at(16, length));
    }
    Ok(tree)
}

enum Token {
    Whole,
    /// A class or a comment that reaches the pattern's end, with the number that it has there.
    Open(u32),
}

impl Reader<'_> {
    fn push_frame(&mut self, outside: Options) {
        self.frames.push(Frame { outside, branches: Vec::new(), sequence: Vec::new() });
        self.before = Before::Nothing;
    }

    /// Ends the innermost frame: its branches become one node.
    fn pop_frame(&mut self) -> Node {
        let mut frame = self.frames.pop().expect("a frame is open");
        frame.branches.push(Node::Sequence(frame.sequence));
        self.options = frame.outside;
        Node::Choice(frame.branches)
    }

    fn innermost(&mut self) -> &mut Frame {
        self.frames.last_mut().expect("the pattern's own frame stays")
    }

    fn push(&mut self, node: Node, before: Before, end: usize) {
        self.innermost().sequence.push(node);
        self.before = before;
        self.place.at = end;
    }

    fn push_assertion(&mut self, assertion: Assertion, end: usize) {
        self.push(Node::Assert(assertion), Before::Nothing, end);
    }

    fn push_byte(&mut self, byte: u8, end: usize) {
        let one = ByteSet::one(byte);
        let set = if self.options.caseless { one.with_other_case() } else { one };
        self.push(Node::Item(set), Before::Item, end);
    }

    /// Reads the token at the present place.
    fn token(&mut self) -> Result<Token, Refusal> {
        let at = self.place.at;
        if self.place.quoted {
            return self.byte();
        }
        if let Some(quantifier) = quantifier::read(self.pattern, at) {
            return self.quantifier(quantifier);
        }
        match self.pattern[at] {
            b'\\' => self.escape()?,
            b'[' => return self.class(),
            b'(' if self.pattern[at..].starts_with(b"(?#") => return self.comment(),
            b'(' => self.parenthesis()?,
            b')' => {
                if self.frames.len() == 1 {
                    return Err(Refusal::at(12, at));
                }
                let group = self.pop_frame();
                self.push(group, Before::Item, at + 1);
            }
            b'|' => {
                let frame = self.innermost();
                let branch = Node::Sequence(std::mem::take(&mut frame.sequence));
                frame.branches.push(branch);
                self.before = Before::Nothing;
                self.place.at = at + 1;
            }
            b'.' if self.options.dot_all => {
                self.push(Node::Item(ByteSet::all()), Before::Item, at + 1)
            }
            b'.' => self.push(Node::Item(ByteSet::not_newline()), Before::Item, at + 1),
            b'^' if self.options.line_mode => self.push_assertion(Assertion::LineStart, at + 1),
            b'^' => self.push_assertion(Assertion::Start, at + 1),
            b'$' if self.options.line_mode => self.push_assertion(Assertion::LineEnd, at + 1),
            b'$' => self.push_assertion(Assertion::LastLine, at + 1),
            _ => return self.byte(),
        }
        Ok(Token::Whole)
    }

    /// The lowest fault of the token from the present place to `end`, whose form has these.
    fn faultless(&self, end: usize, of_its_form: &[u32]) -> Result<(), Refusal> {
        let at = self.place.at;
        match lowest_fault(&self.pattern[at..end], of_its_form) {
            Some(number) => Err(Refusal::at(number, at)),
            None => Ok(()),
        }
    }

    /// A byte that stands for itself, quoted or not.
    fn byte(&mut self) -> Result<Token, Refusal> {
        let at = self.place.at;
        self.faultless(at + 1, &[])?;
        self.push_byte(self.pattern[at], at + 1);
        Ok(Token::Whole)
    }

    fn quantifier(&mut self, quantifier: Quantifier) -> Result<Token, Refusal> {
        let mut faults: Vec<u32> = Vec::new();
        if self.before != Before::Item {
            faults.push(10);
        }
        if quantifier.out_of_bounds() {
            faults.push(11);
        }
        if quantifier.possessive {
            faults.push(14);
        }
        self.faultless(quantifier.end, &faults)?;
        let item = self.innermost().sequence.pop().expect("an item stands before");
        let repeat =
            Node::Repeat { of: Box::new(item), low: quantifier.low, high: quantifier.high };
        self.push(repeat, Before::Quantified, quantifier.end);
        Ok(Token::Whole)
    }

    fn escape(&mut self) -> Result<(), Refusal> {
        let at = self.place.at;
        let escape = escape::read(self.pattern, at, false);
        // Its own numbers, 6, 7 and 14, come before 23.
        let meaning = escape.meaning.map_err(|number| Refusal::at(number, at))?;
        self.faultless(escape.end, &[])?;
        match meaning {
            Escaped::Byte(byte) => self.push_byte(byte, escape.end),
            Escaped::Type(set) => self.push(Node::Item(set), Before::Item, escape.end),
            Escaped::NotNewline => {
                self.push(Node::Item(ByteSet::not_newline()), Before::Item, escape.end)
            }
            Escaped::Assertion(assertion) => self.push_assertion(assertion, escape.end),
        }
        Ok(())
    }

    fn class(&mut self) -> Result<Token, Refusal> {
        match class::read(self.pattern, self.place.at, self.options.caseless)? {
            Class::Open => Ok(Token::Open(8)),
            Class::Closed { set, end } => {
                self.push(Node::Item(set), Before::Item, end);
                Ok(Token::Whole)
            }
        }
    }

    /// `(?#` and all that follows up to the first `)`, or to the pattern's end: one token. It is no
    /// group and no item.
    fn comment(&mut self) -> Result<Token, Refusal> {
        let text = self.place.at + 3;
        let length = self.pattern[text..].iter().position(|&byte| byte == b')');
        let end = length.map_or(self.pattern.len(), |length| text + length + 1);
        self.faultless(end, &[])?;
        self.place.at = end;
        Ok(if length.is_some() { Token::Whole } else { Token::Open(12) })
    }

    /// A `(`: the opening of a group, an option setting, or nothing of the subset.
    fn parenthesis(&mut self) -> Result<(), Refusal> {
        let at = self.place.at;
        let (inside, end, opens) = match (self.pattern.get(at + 1), self.pattern.get(at + 2)) {
            (Some(b'*'), _) => return Err(Refusal::at(14, at)),
            (Some(b'?'), Some(b':')) => (self.options, at + 3, true),
            (Some(b'?'), _) => self.options_from(at + 2).ok_or(Refusal::at(14, at))?,
            _ => (self.options, at + 1, true),
        };
        if opens && self.frames.len() > MAX_GROUPS {
            return Err(Refusal::at(13, at));
        }
        if opens {
            self.push_frame(self.options);
        }
        self.options = inside;
        self.before = Before::Nothing;
        self.place.at = end;
        Ok(())
    }

    /// The letters `i`, `s` and `m`, at least one, and at most one hyphen, then `)` for a setting or
    /// `:` for a group: the options after them, the index after them, and whether a group opens.
    fn options_from(&self, from: usize) -> Option<(Options, usize, bool)> {
        let mut options = self.options;
        let mut letters = 0;
        let mut on = true;
        for i in from..self.pattern.len() {
            match self.pattern[i] {
                b'i' => options.caseless = on,
                b's' => options.dot_all = on,
                b'm' => options.line_mode = on,
                b'-' if on => {
                    on = false;
                    continue;
                }
                b')' | b':' if letters > 0 => {
                    return Some((options, i + 1, self.pattern[i] == b':'))
                }
                _ => return None,
            }
            letters += 1;
        }
        None
    }
}
