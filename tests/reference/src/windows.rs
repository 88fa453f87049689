//! The windows of a rule: a smallest and a largest end offset, and a smallest length of a match, each
//! optional. One that is left out has the value that keeps no match out. Both ends are inclusive.

#[derive(Clone, Copy, Debug, PartialEq, Eq)]
pub struct Windows {
    pub smallest_end: u64,
    pub largest_end: u64,
    pub smallest_length: u64,
}

impl Windows {
    /// All three left out.
    pub const NONE: Windows =
        Windows { smallest_end: 0, largest_end: u64::MAX, smallest_length: 0 };

    /// Do all three hold of a match from `start` to `end`?
    pub fn hold(&self, start: u64, end: u64) -> bool {
        self.hold_at(end) && end - start >= self.smallest_length
    }

    /// Do the two of the end offset hold?
    pub fn hold_at(&self, end: u64) -> bool {
        self.smallest_end <= end && end <= self.largest_end
    }

    /// Is there no offset that they let through?
    pub fn fall(&self) -> bool {
        self.smallest_end > self.largest_end
    }
}
