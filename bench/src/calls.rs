//! Single calls: a scan of a few bytes in a stream that is open already, an opening and a closing.

use crate::clock;
use crate::contest::Contest;
use crate::matcher::{Matcher, Reports, Task};
use crate::page::Page;

const CALLS: usize = 10_000;
const STREAMS: usize = 1_000;
/// An ordinary record and more: nothing in it is reported.
const TEXT: &[u8; 64] = b"00000417 ch2 load=01234.567 ok\n00000418 ch3 load=04321.765 ok\n00";

/// Scans of this block, again and again in one stream. Each run has a stream of its own, so the
/// stream's limit is far away.
pub struct Scans(pub &'static [u8]);

impl Task for Scans {
    fn run<M: Matcher>(&self, matcher: &mut M, reports: &mut Reports) -> f64 {
        let mut stream = matcher.open();
        let time = clock::time(|| {
            for _ in 0..CALLS {
                matcher.scan(&mut stream, self.0, reports);
            }
        });
        matcher.close(stream, reports);
        time / CALLS as f64
    }
}

/// Openings of streams, or their closings.
struct Streams {
    closing: bool,
}

impl Task for Streams {
    fn run<M: Matcher>(&self, matcher: &mut M, reports: &mut Reports) -> f64 {
        let mut streams = Vec::with_capacity(STREAMS);
        let opening = clock::time(|| streams.extend((0..STREAMS).map(|_| matcher.open())));
        let closing = clock::time(|| {
            streams.into_iter().for_each(|stream| matcher.close(stream, reports));
        });
        (if self.closing { closing } else { opening }) / STREAMS as f64
    }
}

pub fn rows(page: &Page, contest: &mut Contest) {
    page.table("Single calls", &["Call"], "ns", true);
    for bytes in [0, 1, 16, 64] {
        row(page, contest, &format!("a scan, block of {bytes}"), &Scans(&TEXT[..bytes]));
    }
    row(page, contest, "opening a stream", &Streams { closing: false });
    row(page, contest, "closing it", &Streams { closing: true });
}

fn row(page: &Page, contest: &mut Contest, name: &str, task: &impl Task) {
    let (times, reports) = contest.race(task);
    assert_eq!(reports, 0, "nothing is reported");
    page.row(&[name], &[], &times);
}
