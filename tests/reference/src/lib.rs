//! A second matcher for the watcher, plain and slow, to compare the library with.
//!
//! It is written from the product's rules alone, by other means than the library: there is no
//! automaton, no live set carried from byte to byte and no table words. What follows says why its
//! answers are the ones that the rules ask for.
//!
//! # Reading
//! `reader` reads tokens from left to right and stops at the first faulty one. A token is faulty in
//! possibly several ways; all of them are collected over the whole token (a quantifier with its
//! mark, a range with both its ends) and the lowest number is given at the token's first byte. A raw
//! control byte within the token's bytes, 23, is one of them (`token`); a comment is one token, and
//! in a quote each byte is one.
//! Faults known only at the end are looked at after the last token, in the order 8, 12, 15, 16, and
//! 17 in `rule`, where the other rules are known. `rule::check_within` has the checks 2, 24, 3, 4, 5
//! and 26 before.
//! `escape`, `class`, `names`, `quantifier` and `braces`, the numbers between braces of escapes and
//! quantifiers, are each one page that can be laid beside the rules.
//! `quote` knows at each place whether a quote is open: `\Q` and `\E` are passed over wherever a token,
//! a class member or an end of a range may start, and a quoted byte is read as nothing but itself.
//! They are no part of a token's spelling: `(`, `\E`, `?` is an opening and a quantifier.
//!
//! The tree holds what is left once options are applied: items that take one byte of a set,
//! assertions, sequences, choices, and repeats with their numbers. Whether it can match no bytes
//! and how many positions it has are recursions on it. Counts are held at 257, above every limit.
//!
//! # Meaning
//! `known` says what is known at a moment: after m bytes those bytes and nothing more, at closing
//! all bytes and the end. `meaning::ends` maps the offsets where a match may start to the offsets
//! where it may end, by recursion on the tree, judging each assertion by what is known. It is the
//! usual meaning of sequence, choice and repeat, spelled with sets of offsets. An assertion may stand
//! inside a match and still wait for the end: `$` before a newline that turns out to be the last byte.
//! At the end of a match it may wait for the next byte: `\b`, `\B`, and `^` and `$` in line mode. Each
//! is judged by itself, so `a(?:\b|\B)` waits although one of the two must hold.
//!
//! `ordered` is the definition of the one ordered list, word for word: for each rule and each end
//! offset, the moments from the last byte on are tried in order, at each one every start is tried,
//! and the first moment with a match is the pair's moment. The general definition is used although
//! in the present subset only the last byte, the byte after it and the closing occur. With windows
//! the moment is the first one with a match of which all three hold; the start of a pair is the
//! smallest of all matches known at its moment.
//!
//! # Positions
//! `written` writes the pattern out: copies are separate, optional copies are nested, a repeat
//! without upper number ends in a plus. `ways` finds the live positions after some bytes by
//! following all ways through that form from every start: a position is live when it takes the last
//! known byte on one of them. A rule that has reported is treated like any other.
//!
//! # Calls
//! `calls` is a model of the calls and of the caller's lent lists. It finds each byte's reports
//! from the bytes taken so far, by looking back: `backward` reads the written-out form from right
//! to left and asks for a start. It does so at the last two offsets, for each byte and for the
//! closing, and keeps what was not known to match before; the starts that it finds there are the starts
//! of a report's matches. Its busy figure cuts the form off behind
//! each position in turn and asks whether the cut form matches up to now; a byte's cost is one more
//! than that figure before it. So the list by definition (whole stream, forward, tree with counts,
//! first moment) and the reports of the calls (bytes so far, backward, written-out form, one byte
//! after another) are two computations. They share the reader and
//! `known`, and `ways` and the busy figure of a state share the written-out form besides; the
//! matching is not shared, so comparing them says something.
//!
//! # Cost
//! Offsets are kept as sorted lists. Every loop over copies stops when it brings nothing new, so a
//! count of 65,535 costs no more than the log has bytes; a part that takes no byte is written once.
//! All else is paid: the list by definition matches again from each start at each moment.

pub mod backward;
pub mod braces;
pub mod bytes;
pub mod calls;
pub mod class;
pub mod escape;
pub mod known;
pub mod matched;
pub mod meaning;
pub mod names;
pub mod offsets;
pub mod ordered;
pub mod program;
pub mod quantifier;
pub mod quote;
pub mod reader;
pub mod refusal;
pub mod rule;
pub mod token;
pub mod tree;
pub mod ways;
pub mod windows;
pub mod written;
