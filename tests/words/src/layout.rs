//! The places of a table's words and of a state's words, as docs/TABLE.md and docs/EMBEDDING.md
//! list them.

use std::ops::Range;

use crate::gaps::{FIRST_GAPS, FOLLOW_GAPS, LAST_GAPS};

pub const TABLE_WORDS: usize = 16_384;
pub const FORMAT: u64 = u64::from_be_bytes(*b"watcher7");
pub const MAX_RULES: usize = 64;
pub const MAX_POSITIONS: usize = 256;
/// How many bytes a stream may have.
pub const MAX_STREAM: u64 = 1_099_511_627_775;

pub const KNOWN_FLAGS: u32 = 1 + 2 + 4 + 8 + 256;
pub const SINGLE_MATCH: u32 = 8;
pub const LEFTMOST_START: u32 = 256;

pub const RULES: usize = 1;
pub const POSITIONS: usize = 2;
/// The single-match rules, a bit for each place.
pub const SINGLES: usize = 3;

/// The set of positions with which a match can end before a gap.
pub const fn last(gap: usize) -> usize {
    4 + 4 * gap
}

/// The set of positions with which a match can end only where the next byte allows it.
pub const LATES: usize = 56;

/// The set of positions that can take a first byte after a gap.
pub const fn first(gap: usize) -> usize {
    60 + 4 * gap
}

/// The id of the rule in this place.
pub const fn id(place: usize) -> usize {
    128 + place
}

/// Not 0 where a match can begin with the byte inside a stream.
pub const fn opener(byte: u8) -> usize {
    192 + byte as usize
}

/// The place of the position's rule.
pub const fn owner(position: usize) -> usize {
    448 + position
}

/// The rules that report the leftmost start, a bit for each place.
pub const LEFTMOSTS: usize = 704;

/// The set of positions that keep the start of a match.
pub const KEEPERS: usize = 712;

/// The rules with a window of end offsets, a bit for each place.
pub const WINDOWED: usize = 706;

/// The smallest end offset of the rule in this place.
pub const fn lowest(place: usize) -> usize {
    768 + place
}

/// The largest.
pub const fn highest(place: usize) -> usize {
    832 + place
}

/// Not 0 where a rule has a smallest length of its matches.
pub const LENGTHS: usize = 707;

/// The smallest length of the rule that owns the position, 0 if it has none.
pub const fn shortest(position: usize) -> usize {
    896 + position
}

/// The set of positions that take the byte.
pub const fn takers(byte: u8) -> usize {
    4_096 + 4 * byte as usize
}

/// The set of positions that can follow this one over a gap.
pub const fn follow(gap: usize, position: usize) -> usize {
    5_120 + 1_024 * gap + 4 * position
}

/// Words of a table with one sort of meaning.
#[derive(Clone, Copy, Debug, PartialEq, Eq, PartialOrd, Ord)]
pub enum Region {
    /// The format and both counts.
    Header,
    Singles,
    Lasts,
    Lates,
    Firsts,
    Ids,
    Openers,
    Owners,
    Leftmosts,
    /// The rules with a window, and the windows.
    Windows,
    /// Whether a rule has a smallest length, and that of each position.
    Lengths,
    Keepers,
    Takers,
    Follows,
    Unused,
}

/// The whole table, from its first word to its last.
pub const REGIONS: [(Region, Range<usize>); 21] = [
    (Region::Header, 0..SINGLES),
    (Region::Singles, SINGLES..last(0)),
    (Region::Lasts, last(0)..last(LAST_GAPS)),
    (Region::Lates, LATES..LATES + 4),
    (Region::Firsts, first(0)..first(FIRST_GAPS)),
    (Region::Ids, id(0)..id(MAX_RULES)),
    (Region::Openers, opener(0)..opener(255) + 1),
    (Region::Owners, owner(0)..owner(MAX_POSITIONS)),
    (Region::Leftmosts, LEFTMOSTS..LEFTMOSTS + 1),
    (Region::Unused, 705..706),
    (Region::Windows, WINDOWED..WINDOWED + 1),
    (Region::Lengths, LENGTHS..LENGTHS + 1),
    (Region::Unused, 708..KEEPERS),
    (Region::Keepers, KEEPERS..KEEPERS + 4),
    (Region::Unused, 716..768),
    (Region::Windows, lowest(0)..highest(MAX_RULES)),
    (Region::Lengths, shortest(0)..shortest(MAX_POSITIONS)),
    (Region::Unused, 1_152..4_096),
    (Region::Takers, takers(0)..takers(255) + 4),
    (Region::Follows, follow(0, 0)..follow(FOLLOW_GAPS, 0)),
    (Region::Unused, 15_360..TABLE_WORDS),
];

/// The region of a word; a word beyond the table is an unused one.
pub fn region(at: usize) -> Region {
    let of = REGIONS.into_iter().find(|(_, words)| words.contains(&at));
    of.map_or(Region::Unused, |(region, _)| region)
}

/// The words of some regions.
pub fn words_in(regions: &[Region]) -> Vec<usize> {
    let of = REGIONS.into_iter().filter(|(region, _)| regions.contains(region));
    of.flat_map(|(_, words)| words).collect()
}

/// Is the position in the set whose four words begin at `at`?
pub fn has(words: &[u64], at: usize, position: usize) -> bool {
    words[at + position / 64] >> (position % 64) & 1 == 1
}

/// Puts the position into the set whose four words begin at `at`.
pub fn put(words: &mut [u64], at: usize, position: usize) {
    words[at + position / 64] |= 1 << (position % 64);
}

/// The words of a state: the live set's four from 0 on, the held set's four, and these.
pub const HELD: usize = 4;
pub const MARKS: usize = 8;
pub const PENDING: usize = 9;
/// What the last byte is to the assertions.
pub const SIDE: usize = 10;
pub const TAKEN: usize = 11;
pub const STATE_RULES: usize = 12;
pub const STATE_POSITIONS: usize = 13;
pub const CLOSED: usize = 14;
pub const STATE_WORDS: usize = 15;
/// The words of a state that keeps starts, besides: of live positions, of held positions, of the pairs
/// held for the offset before the last byte.
pub const LIVE_STARTS: usize = STATE_WORDS;
pub const HELD_STARTS: usize = LIVE_STARTS + MAX_POSITIONS;
pub const PAIR_STARTS: usize = HELD_STARTS + MAX_POSITIONS;
pub const TRACED_WORDS: usize = PAIR_STARTS + MAX_RULES;
/// The number for fewer words than a state has.
pub const SHORT_STATE: u32 = 100;

#[cfg(test)]
mod tests {
    use super::*;

    #[test]
    fn the_regions_are_the_whole_table() {
        let words = REGIONS.into_iter().flat_map(|(_, words)| words);
        assert!(words.eq(0..TABLE_WORDS));
    }
}
