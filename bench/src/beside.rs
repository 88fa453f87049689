//! Hyperscan as a matcher, in its streaming mode. Its flags have the same numbers as ours.

pub use hyperscan::Database as Hyperscan;
use hyperscan::{Mode, Stream};

use crate::matcher::{Matcher, Reports};
use crate::rules::Rule;

/// Does Hyperscan take part?
pub const THERE: bool = true;

/// The rules for streams, or nothing if Hyperscan refuses one of them.
pub fn compile(rules: &[Rule]) -> Option<Hyperscan> {
    let rules: Vec<(u32, u32, &[u8])> =
        rules.iter().map(|rule| (rule.id, rule.flags, rule.pattern.as_bytes())).collect();
    Hyperscan::new(&rules, Mode::Stream)
}

impl Matcher for Hyperscan {
    /// A rule that ends with `$` in line mode is reported at a newline and, if that is the last byte,
    /// again at the closing. The library reports a pair once. Nothing else is left out.
    const REPEATS: bool = true;

    type Stream = Stream;

    fn open(&mut self) -> Stream {
        Hyperscan::open(self)
    }

    fn scan(&mut self, stream: &mut Stream, block: &[u8], reports: &mut Reports) {
        Hyperscan::scan(self, stream, block, reports);
    }

    fn close(&mut self, stream: Stream, reports: &mut Reports) {
        Hyperscan::close(self, stream, reports);
    }

    fn sizes(&self) -> (usize, usize) {
        Hyperscan::sizes(self)
    }
}
