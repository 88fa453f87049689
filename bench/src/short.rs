//! Short logs with something for every rule, at their ends too. They are not timed: they show that
//! the matchers agree on what the long logs hardly ask.

use harness::rng::Rng;

use crate::contest::Contest;
use crate::logs::FAULTS;
use crate::matcher::{name_log, Matcher, Reports, Task};
use crate::rules::Set;

const LOGS: u64 = 20_000;
const MOST_PIECES: usize = 6;
const MOST_BLOCK: usize = 9;

/// The pieces of a log besides the faults, with what the faults have nothing of.
const PIECES: &[&str] = &[
    "\n",
    "\n",
    " ",
    "x",
    "ok\n",
    "HALT",
    "BOOT v3",
    "WATCHDOG",
    "MISSED ECHO",
    "YIELD POINT",
    "WET ROPE",
    "Q2XY",
    "\0\0",
    "load=9",
    "ch7",
    "# end of log\n",
    "state=slack",
    "STATE=Slipping",
    "state=warm",
    "tension=0000.1",
];

/// Each log has a stream of its own and goes in small blocks.
struct ShortLogs;

impl Task for ShortLogs {
    fn run<M: Matcher>(&self, matcher: &mut M, reports: &mut Reports) -> f64 {
        let pieces = [PIECES, FAULTS].concat();
        for index in 0..LOGS {
            let mut rng = Rng::for_case(0, index);
            let count = 1 + rng.below(MOST_PIECES);
            let log: String = (0..count).map(|_| *rng.pick(&pieces)).collect();
            let (mut stream, from) = (matcher.open(), reports.len());
            for block in log.as_bytes().chunks(1 + rng.below(MOST_BLOCK)) {
                matcher.scan(&mut stream, block, reports);
            }
            matcher.close(stream, reports);
            name_log(&mut reports[from..], index);
        }
        0.0
    }
}

/// Ends the program if the matchers differ, or if a rule never matches.
pub fn compare(contest: &mut Contest, set: &Set) {
    let reports = contest.agree(&ShortLogs);
    for rule in &set.rules {
        assert!(reports.iter().any(|&(id, _)| id == rule.id), "{} matches", rule.pattern);
    }
}
