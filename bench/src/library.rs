//! The library as a matcher.

use watcher::{raw, NO_LIMIT, STATE_WORDS, TABLE_WORDS};

use crate::matcher::{Matcher, Reports};
use crate::rules::Rule;

/// The report slots that a call is lent.
pub const SLOTS: usize = 1_024;

pub struct Library {
    table: Vec<u64>,
    ids: [u32; SLOTS],
    offsets: [u64; SLOTS],
}

impl Library {
    pub fn new(rules: &[Rule]) -> Library {
        let mut table = vec![0; TABLE_WORDS];
        fill(&mut table, rules);
        Library { table, ids: [0; SLOTS], offsets: [0; SLOTS] }
    }

    fn note(&self, count: usize, reports: &mut Reports) {
        let offsets = self.offsets[..count].iter();
        reports.extend(self.ids[..count].iter().copied().zip(offsets.copied()));
    }
}

/// Empties the words and adds the rules.
pub fn fill(words: &mut [u64], rules: &[Rule]) {
    assert_eq!(raw::empty(words), 0);
    for rule in rules {
        let answer = raw::add(words, rule.id, rule.flags, rule.pattern.as_bytes());
        assert_eq!(answer, (0, 0), "{}", rule.pattern);
    }
}

impl Matcher for Library {
    type Stream = [u64; STATE_WORDS];

    fn open(&mut self) -> Self::Stream {
        let mut state = [0; STATE_WORDS];
        assert_eq!(raw::open(&self.table, &mut state), 0);
        state
    }

    fn scan(&mut self, state: &mut Self::Stream, block: &[u8], reports: &mut Reports) {
        let mut rest = block;
        loop {
            let (ids, offsets) = (&mut self.ids, &mut self.offsets);
            let answer = raw::scan(&self.table, state, NO_LIMIT, rest, ids, offsets);
            assert_eq!(answer.number, 0);
            self.note(answer.reports, reports);
            rest = &rest[answer.taken..];
            if rest.is_empty() {
                break;
            }
        }
    }

    fn close(&mut self, mut state: Self::Stream, reports: &mut Reports) {
        let answer = raw::close(&self.table, &mut state, &mut self.ids, &mut self.offsets);
        assert_eq!(answer.number, 0);
        self.note(answer.reports, reports);
    }

    fn sizes(&self) -> (usize, usize) {
        (size_of_val(&self.table[..]), size_of::<Self::Stream>())
    }
}
