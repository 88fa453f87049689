//! What the matchers have in common: streams that are opened, scanned block by block, and closed.

/// Rule ids and end offsets.
pub type Reports = Vec<(u32, u64)>;

/// Puts the number of their log into the offsets, above the digits that an offset can have, so that
/// lists from many logs are the same only if they are so log by log.
pub fn name_log(reports: &mut [(u32, u64)], log: u64) {
    reports.iter_mut().for_each(|report| report.1 |= log << 40);
}

/// A matcher with its rules. Its own lists are lent to each call, so it is not shared.
pub trait Matcher {
    /// May it report one id and offset twice?
    const REPEATS: bool = false;

    type Stream;

    fn open(&mut self) -> Self::Stream;

    /// Adds the reports of the block to the list.
    fn scan(&mut self, stream: &mut Self::Stream, block: &[u8], reports: &mut Reports);

    fn close(&mut self, stream: Self::Stream, reports: &mut Reports);

    /// The bytes of the rules and of a stream, as far as the matcher knows them.
    fn sizes(&self) -> (usize, usize);
}

/// Something that each matcher can do.
pub trait Task {
    /// Does it once, into an empty list of reports: the time of its unit in nanoseconds.
    fn run<M: Matcher>(&self, matcher: &mut M, reports: &mut Reports) -> f64;
}
