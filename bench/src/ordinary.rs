//! An ordinary matcher: the position automaton of all rules with a Vec of live positions, as one
//! writes it in an afternoon. Its positions come from the tree of `reference`.

use reference::rule;
use words::calls::Calls;
use words::gaps::*;
use words::interpreter::Interpreter;
use words::layout::*;

use crate::matcher::{Matcher, Reports};
use crate::rules::Rule;

struct Position {
    takes: [bool; 256],
    /// By the gap before the next byte.
    follow: [Vec<usize>; FOLLOW_GAPS],
    /// The place of its rule, if a match can end here, by the gap behind it.
    last: [Option<usize>; LAST_GAPS],
}

pub struct Ordinary {
    positions: Vec<Position>,
    /// By the gap before the first byte.
    first: [Vec<usize>; FIRST_GAPS],
    ids: Vec<u32>,
    single: Vec<bool>,
}

pub struct Stream {
    live: Vec<usize>,
    /// What was live before the last byte.
    before: Vec<usize>,
    seen: Vec<bool>,
    found: Vec<usize>,
    reported: Vec<bool>,
    /// The side of the last byte, and of the one before it.
    sides: [Side; 2],
    taken: u64,
}

impl Ordinary {
    /// Of rules by rising id.
    pub fn new(rules: &[Rule]) -> Ordinary {
        let mut words = vec![0; TABLE_WORDS];
        Interpreter.empty(&mut words);
        let mut read: Vec<rule::Rule> = Vec::new();
        for Rule { id, flags, pattern } in rules {
            let pattern = pattern.as_bytes();
            read.push(rule::check(&read, *id, *flags, pattern).expect("the rule is accepted"));
            assert_eq!(Interpreter.add(&mut words, *id, *flags, pattern), (0, 0));
        }
        let count = read.len();
        let members = |at: usize| (0..MAX_POSITIONS).filter(|&p| has(&words, at, p)).collect();
        let ends = |gap: usize, p: usize| has(&words, last(gap), p);
        let owners = (0..count).flat_map(|a| std::iter::repeat_n(a, read[a].positions));
        let position = |(p, owner): (usize, usize)| Position {
            takes: std::array::from_fn(|byte| has(&words, takers(byte as u8), p)),
            follow: std::array::from_fn(|gap| members(follow(gap, p))),
            last: std::array::from_fn(|gap| ends(gap, p).then_some(owner)),
        };
        Ordinary {
            positions: owners.enumerate().map(position).collect(),
            first: std::array::from_fn(|gap| members(first(gap))),
            ids: read.iter().map(|rule| rule.id).collect(),
            single: read.iter().map(rule::Rule::single_match).collect(),
        }
    }

    fn step(&self, stream: &mut Stream, byte: u8, reports: &mut Reports) {
        let side = Side::of(byte);
        let gap = between(stream.sides[0], side);
        self.late(stream, gap, reports);
        let start = if stream.taken == 0 { at_start(side) } else { gap };
        let next = &mut stream.before;
        next.clear();
        for &p in &self.first[start] {
            enter(&self.positions, &mut stream.seen, next, p, byte);
        }
        for &from in &stream.live {
            for &p in &self.positions[from].follow[gap] {
                enter(&self.positions, &mut stream.seen, next, p, byte);
            }
        }
        std::mem::swap(&mut stream.live, &mut stream.before);
        stream.sides = [side, stream.sides[0]];
        stream.taken += 1;
        stream.found.clear();
        for &p in &stream.live {
            stream.seen[p] = false;
            stream.found.extend(self.positions[p].last[UNSETTLED]);
        }
        self.give(stream, stream.taken, reports);
    }

    /// The pairs at the last byte that the next one settles.
    fn late(&self, stream: &mut Stream, gap: usize, reports: &mut Reports) {
        let waits = |p: &usize| {
            let last = &self.positions[*p].last;
            last[gap].is_some() && last[UNSETTLED].is_none()
        };
        if stream.live.iter().any(waits) {
            stream.found = self.newly(&stream.live, gap, &stream.live, UNSETTLED);
            self.give(stream, stream.taken, reports);
        }
    }

    /// The rules that end at a gap with one of these positions, but for those that a live one ended
    /// where less was known.
    fn newly(&self, ending: &[usize], gap: usize, live: &[usize], less: usize) -> Vec<usize> {
        let given: Vec<usize> = live.iter().filter_map(|&p| self.positions[p].last[less]).collect();
        let found = ending.iter().filter_map(|&p| self.positions[p].last[gap]);
        found.filter(|place| !given.contains(place)).collect()
    }

    /// The positions that a last newline leads to if the last line ends before it.
    fn over_the_line(&self, stream: &Stream) -> Vec<usize> {
        let gap = before_last(stream.sides[1]);
        let first = &self.first[if stream.taken == 1 { START_OF_LAST } else { gap }];
        let follow = stream.before.iter().flat_map(|&p| &self.positions[p].follow[gap]);
        let takes = |p: &&usize| self.positions[**p].takes[b'\n' as usize];
        first.iter().chain(follow).filter(takes).copied().collect()
    }

    /// Reports the rules that were found at this end, by rising id, each once.
    fn give(&self, stream: &mut Stream, end: u64, reports: &mut Reports) {
        if stream.found.is_empty() {
            return;
        }
        stream.found.sort_unstable();
        stream.found.dedup();
        for &place in &stream.found {
            if !stream.reported[place] {
                reports.push((self.ids[place], end));
                stream.reported[place] = self.single[place];
            }
        }
    }
}

impl Matcher for Ordinary {
    type Stream = Stream;

    fn open(&mut self) -> Stream {
        Stream {
            live: Vec::new(),
            before: Vec::new(),
            seen: vec![false; self.positions.len()],
            found: Vec::new(),
            reported: vec![false; self.ids.len()],
            sides: [Side::Other; 2],
            taken: 0,
        }
    }

    fn scan(&mut self, stream: &mut Stream, block: &[u8], reports: &mut Reports) {
        block.iter().for_each(|&byte| self.step(stream, byte, reports));
    }

    /// The pairs before a last newline, then those at the end.
    fn close(&mut self, mut stream: Stream, reports: &mut Reports) {
        let [side, before] = stream.sides;
        let mut ending = stream.live.clone();
        if stream.taken > 0 && side == Side::Newline {
            let given = between(before, Side::Newline);
            stream.found = self.newly(&stream.before, before_last(before), &stream.before, given);
            let end = stream.taken - 1;
            self.give(&mut stream, end, reports);
            ending.extend(self.over_the_line(&stream));
        }
        stream.found = self.newly(&ending, at_end(side), &stream.live, UNSETTLED);
        let end = stream.taken;
        self.give(&mut stream, end, reports);
    }

    /// The lists that are always there only.
    fn sizes(&self) -> (usize, usize) {
        let follow = |p: &Position| p.follow.iter().map(Vec::len).sum::<usize>();
        let members: usize = self.first.iter().map(Vec::len).sum::<usize>()
            + self.positions.iter().map(follow).sum::<usize>();
        let lists = size_of_val(&self.positions[..]) + size_of::<usize>() * members;
        (lists, size_of::<Stream>() + self.positions.len() + self.ids.len())
    }
}

fn enter(positions: &[Position], seen: &mut [bool], next: &mut Vec<usize>, p: usize, byte: u8) {
    if positions[p].takes[byte as usize] && !seen[p] {
        seen[p] = true;
        next.push(p);
    }
}
