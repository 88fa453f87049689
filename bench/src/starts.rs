//! What starts cost: the fault rules, every one with flag 256, on streams that keep starts, beside
//! the same rules without the flag. Single-match rules cannot have it, so they are plain ones here.

use std::cell::RefCell;

use watcher::{raw, NO_LIMIT, TABLE_WORDS, TRACE_WORDS};

use crate::calls::Scans;
use crate::contest::{entrant, Wanted};
use crate::library::{fill, Library, SLOTS};
use crate::logs::Log;
use crate::matcher::{Matcher, Reports, Task};
use crate::page::{self, figure, whole, Page};
use crate::rules::{Rule, Set};
use crate::scans::{WholeLog, BLOCKS};
use crate::turns;

const SINGLE_MATCH: u32 = 8;
const LEFTMOST_START: u32 = 256;

/// The library's streams with starts as a matcher.
struct Traces {
    table: Vec<u64>,
    ids: [u32; SLOTS],
    offsets: [u64; SLOTS],
    starts: [u64; SLOTS],
    relatives: [i64; SLOTS],
}

impl Traces {
    fn new(rules: &[Rule]) -> Traces {
        let mut table = vec![0; TABLE_WORDS];
        fill(&mut table, rules);
        let (ids, offsets) = ([0; SLOTS], [0; SLOTS]);
        Traces { table, ids, offsets, starts: [0; SLOTS], relatives: [0; SLOTS] }
    }

    fn lists(&mut self) -> (&[u64], raw::Lists<'_>) {
        let lists = raw::Lists {
            ids: &mut self.ids,
            offsets: &mut self.offsets,
            starts: &mut self.starts,
            relatives: &mut self.relatives,
        };
        (&self.table, lists)
    }

    fn note(&self, count: usize, reports: &mut Reports) {
        for at in 0..count {
            assert!(self.starts[at] < self.offsets[at], "a match has a byte");
            reports.push((self.ids[at], self.offsets[at]));
        }
    }
}

impl Matcher for Traces {
    type Stream = Box<[u64; TRACE_WORDS]>;

    fn open(&mut self) -> Self::Stream {
        let mut state = Box::new([0; TRACE_WORDS]);
        assert_eq!(raw::trace_open(&self.table, &mut state[..]), 0);
        state
    }

    fn scan(&mut self, state: &mut Self::Stream, block: &[u8], reports: &mut Reports) {
        let mut rest = block;
        loop {
            let (table, lists) = self.lists();
            let answer = raw::trace_scan(table, &mut state[..], NO_LIMIT, rest, lists);
            assert_eq!(answer.number, 0);
            self.note(answer.reports, reports);
            rest = &rest[answer.taken..];
            if rest.is_empty() {
                break;
            }
        }
    }

    fn close(&mut self, mut state: Self::Stream, reports: &mut Reports) {
        let (table, lists) = self.lists();
        let answer = raw::trace_close(table, &mut state[..], lists);
        assert_eq!(answer.number, 0);
        self.note(answer.reports, reports);
    }

    fn sizes(&self) -> (usize, usize) {
        (size_of_val(&self.table[..]), 8 * TRACE_WORDS)
    }
}

/// The rules with these flags, and none of them single-match.
fn flagged(set: &Set, flags: u32) -> Vec<Rule> {
    let rule = |rule: &Rule| Rule {
        id: rule.id,
        flags: rule.flags & !SINGLE_MATCH | flags,
        pattern: rule.pattern.clone(),
    };
    set.rules.iter().map(rule).collect()
}

/// The best times of both at a task, and how many reports there are.
fn race(without: &mut Library, with: &mut Traces, task: &impl Task) -> (Vec<f64>, usize) {
    let wanted: Wanted = RefCell::default();
    let both = vec![entrant(without, task, &wanted), entrant(with, task, &wanted)];
    let times = turns::best(both);
    (times, wanted.take().unwrap_or_default().len())
}

pub fn rows(page: &Page, set: &Set, logs: &[&Log]) {
    let mut without = Library::new(&flagged(set, 0));
    let mut with = Traces::new(&flagged(set, LEFTMOST_START));
    page.say("\n### Starts\n");
    page.say("| Log | Block | Reports | Without, ns/byte | With, ns/byte | with / without |");
    page.say("|---|---|---|---|---|---|");
    for log in logs {
        for block in BLOCKS {
            let task = WholeLog { log: &log.bytes, block };
            let (times, reports) = race(&mut without, &mut with, &task);
            row(page, &[log.name, &whole(block)], &whole(reports), &times);
        }
    }
    let (times, _) = race(&mut without, &mut with, &Scans(b""));
    row(page, &["a scan, ns a call", "0"], "0", &times);
}

/// A row of both times; where the library is measured alone, the time with starts.
fn row(page: &Page, named: &[&str], reports: &str, times: &[f64]) {
    if page.alone {
        println!("starts {}\t{}", named.join(" "), times[1]);
        return;
    }
    let figures = [figure(times[0]), figure(times[1]), figure(times[1] / times[0])];
    let figures: Vec<&str> = figures.iter().map(String::as_str).collect();
    page.say(&page::row(&[named, &[reports], &figures].concat()));
}
