//! Where in a log the hits of a rule lie: counts over equal parts of it, kept in fixed room while the
//! log's length is not known.

/// So many parts at most; twice as many are merged in pairs.
const PARTS: usize = 256;

/// Counts by offset.
#[derive(Clone)]
pub struct Timeline {
    counts: Vec<u64>,
    /// How many bytes a part has.
    width: u64,
}

impl Default for Timeline {
    fn default() -> Timeline {
        Timeline { counts: vec![], width: 1 }
    }
}

impl Timeline {
    /// Counts a hit that ends at this offset, 1 or more.
    pub fn add(&mut self, end: u64) {
        let offset = end.saturating_sub(1);
        while offset / self.width >= PARTS as u64 {
            self.widen();
        }
        let part = (offset / self.width) as usize;
        if self.counts.len() <= part {
            self.counts.resize(part + 1, 0);
        }
        self.counts[part] += 1;
    }

    fn widen(&mut self) {
        self.counts = self.counts.chunks(2).map(|pair| pair.iter().sum()).collect();
        self.width *= 2;
    }

    /// The counts over a log of this length, in parts that are the same for every rule: the first
    /// offset of each part, the offset after it, and its count, without the parts that have none.
    pub fn over(mut self, length: u64) -> Vec<(u64, u64, u64)> {
        while length / self.width >= PARTS as u64 {
            self.widen();
        }
        let width = self.width;
        let parts = self.counts.into_iter().enumerate().filter(|&(_, count)| count > 0);
        parts
            .map(|(part, count)| {
                let from = part as u64 * width;
                (from, (from + width).min(length), count)
            })
            .collect()
    }
}

#[cfg(test)]
mod tests {
    use super::*;

    #[test]
    fn hits_are_counted_in_equal_parts() {
        let mut line = Timeline::default();
        [1, 2, 1000, 87_037].into_iter().for_each(|end| line.add(end));
        let parts = line.over(87_037);
        assert_eq!(parts, [(0, 512, 2), (512, 1024, 1), (86_528, 87_037, 1)]);
    }

    #[test]
    fn a_short_log_has_a_part_for_each_byte() {
        let mut line = Timeline::default();
        [3, 3, 9].into_iter().for_each(|end| line.add(end));
        assert_eq!(line.over(9), [(2, 3, 2), (8, 9, 1)]);
    }
}
