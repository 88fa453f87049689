//! Refusals: a number and a place. Number 0 stands for "accepted" wherever answers are numbers.

/// Why an addition was refused, and where. The place is the first byte of the faulty token, the
/// pattern's length for a fault known only at the end, and 0 for the checks before reading.
#[derive(Clone, Copy, Debug, PartialEq, Eq)]
pub struct Refusal {
    pub number: u32,
    pub place: usize,
}

impl Refusal {
    pub fn at(number: u32, place: usize) -> Refusal {
        Refusal { number, place }
    }
}

/// Limits of the product, by name.
pub const TABLE_WORDS: usize = 16_384;
pub const MAX_RULES: usize = 64;
pub const MAX_PATTERN: usize = 1_024;
pub const MAX_GROUPS: usize = 16;
pub const MAX_POSITIONS: usize = 256;
pub const MAX_REPEAT: u32 = 65_535;
pub const MAX_STREAM: u64 = 1_099_511_627_775;

/// The least report space for so many rules: a byte, and a closing, may report each of them at two
/// offsets.
pub fn least_space(rules: usize) -> usize {
    2 * rules
}

/// Flags of a rule.
pub const CASELESS: u32 = 1;
pub const DOT_ALL: u32 = 2;
pub const LINE_MODE: u32 = 4;
pub const SINGLE_MATCH: u32 = 8;
pub const LEFTMOST_START: u32 = 256;
