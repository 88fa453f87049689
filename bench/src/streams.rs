//! Many streams at once on one table, a block of each in turn.

use crate::clock;
use crate::contest::Contest;
use crate::logs::Log;
use crate::matcher::{name_log, Matcher, Reports, Task};
use crate::page::{whole, Page};

const STREAMS: usize = 100_000;
const BLOCK: usize = 64;
/// The blocks that each stream takes in a run.
const ROUNDS: usize = 4;

/// The blocks of the log, the next one always for the next stream.
struct ManyStreams<'a>(&'a [u8]);

impl Task for ManyStreams<'_> {
    fn run<M: Matcher>(&self, matcher: &mut M, reports: &mut Reports) -> f64 {
        let mut streams: Vec<M::Stream> = (0..STREAMS).map(|_| matcher.open()).collect();
        let mut blocks = self.0.chunks_exact(BLOCK).cycle();
        // How many reports there are after each call.
        let mut counts = Vec::with_capacity(STREAMS * (ROUNDS + 1));
        let time = clock::time(|| {
            for _ in 0..ROUNDS {
                for (stream, block) in streams.iter_mut().zip(&mut blocks) {
                    matcher.scan(stream, block, reports);
                    counts.push(reports.len());
                }
            }
        });
        for stream in streams {
            matcher.close(stream, reports);
            counts.push(reports.len());
        }
        let mut from = 0;
        for (call, &to) in counts.iter().enumerate() {
            name_log(&mut reports[from..to], (call % STREAMS) as u64);
            from = to;
        }
        time / (STREAMS * ROUNDS) as f64
    }
}

pub fn rows(page: &Page, contest: &mut Contest, logs: &[&Log]) {
    let title = format!("{} streams on one table, a block of each in turn", whole(STREAMS));
    page.table(&title, &["Streams", "Log", "Block", "Reports"], "ns/block", true);
    for log in logs {
        let (times, reports) = contest.race(&ManyStreams(&log.bytes));
        let named = [&whole(STREAMS), log.name, &whole(BLOCK)];
        page.row(&named, &[&whole(reports)], &times);
    }
}
