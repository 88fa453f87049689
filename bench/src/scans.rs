//! Whole logs in blocks of three sizes, the opening and the closing of the stream included.

use crate::clock;
use crate::contest::Contest;
use crate::logs::Log;
use crate::matcher::{Matcher, Reports, Task};
use crate::page::{whole, Page};
use crate::rules::Set;
use crate::short;

pub const BLOCKS: [usize; 3] = [64, 512, 65_536];

pub struct WholeLog<'a> {
    pub log: &'a [u8],
    pub block: usize,
}

impl Task for WholeLog<'_> {
    fn run<M: Matcher>(&self, matcher: &mut M, reports: &mut Reports) -> f64 {
        let time = clock::time(|| {
            let mut stream = matcher.open();
            for block in self.log.chunks(self.block) {
                matcher.scan(&mut stream, block, reports);
            }
            matcher.close(stream, reports);
        });
        time / self.log.len() as f64
    }
}

pub fn table(page: &Page) {
    page.table("Logs", &["Rules", "Log", "Block", "Reports"], "ns/byte", true);
}

/// The rows of these rules on these logs.
pub fn rows(page: &Page, set: &Set, logs: &[&Log]) {
    let mut contest = Contest::new(&set.rules, page.alone);
    short::compare(&mut contest, set);
    for log in logs {
        for block in BLOCKS {
            let (times, reports) = contest.race(&WholeLog { log: &log.bytes, block });
            page.row(&[set.name, log.name, &whole(block)], &[&whole(reports)], &times);
        }
    }
}
