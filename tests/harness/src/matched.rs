//! The bytes of a match: all tails and blocks up to a length at all offsets, starts and ends near them,
//! also near the largest numbers, compared with the rule.

use reference::matched::{part, Source};

/// What is under test: the number; and whether the bytes stand in the tail, from which place on, and
/// how many.
pub trait Matched {
    fn number(&self, tail: &[u8], block: &[u8], offset: u64, start: u64, end: u64) -> u32;

    fn part(
        &self,
        tail: &[u8],
        block: &[u8],
        offset: u64,
        start: u64,
        end: u64,
    ) -> (bool, usize, usize);
}

#[derive(Clone, Copy, Debug, Default)]
pub struct Count {
    pub questions: u64,
    pub in_block: u64,
    pub in_tail: u64,
    pub refused: u64,
}

/// Compares all questions with lengths up to this one; the first disagreement is the error.
pub fn run<M: Matched>(matched: &M, longest: usize) -> Result<Count, String> {
    let mut count = Count::default();
    let near = 2 * longest as u64 + 2;
    for base in [0, 1 << 32, u64::MAX - near] {
        let offsets: Vec<u64> = (base..=base + near).chain([0, u64::MAX]).collect();
        for (tail, block) in (0..=longest).flat_map(|t| (0..=longest).map(move |b| (t, b))) {
            for &offset in &offsets {
                for (&start, &end) in
                    offsets.iter().flat_map(|s| offsets.iter().map(move |e| (s, e)))
                {
                    one(matched, (tail, block), (offset, start, end), &mut count)?;
                }
            }
        }
    }
    Ok(count)
}

fn one<M: Matched>(
    matched: &M,
    (tail, block): (usize, usize),
    (offset, start, end): (u64, u64, u64),
    count: &mut Count,
) -> Result<(), String> {
    let (t, b) = (vec![b't'; tail], vec![b'b'; block]);
    let number = matched.number(&t, &b, offset, start, end);
    let shown = matched.part(&t, &b, offset, start, end);
    let wanted = match part(tail, block, offset, start, end) {
        Some((source, place, size)) => (0, (source == Source::Tail, place, size)),
        None => (25, (false, 0, 0)),
    };
    count.questions += 1;
    match wanted {
        (0, (false, ..)) => count.in_block += 1,
        (0, _) => count.in_tail += 1,
        _ => count.refused += 1,
    }
    if (number, shown) == wanted {
        return Ok(());
    }
    Err(format!(
        "matched: tail of {tail}, block of {block} at {offset}, from {start} to {end}: \
         got {:?}, wanted {wanted:?}",
        (number, shown)
    ))
}
