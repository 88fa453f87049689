//! The bytes of a match, from a kept tail or from the block right after it. Offsets are integers, so
//! that a tail may be longer than the stream before the block, and nothing wraps.

/// Which of the two holds the bytes from `start` up to `end`: its place there and the size. None if
/// neither does. The block begins at `offset`.
pub fn part(
    tail: usize,
    block: usize,
    offset: u64,
    start: u64,
    end: u64,
) -> Option<(Source, usize, usize)> {
    let (offset, start, end) = (i128::from(offset), i128::from(start), i128::from(end));
    let buffers = [
        (Source::Block, offset, offset + block as i128),
        (Source::Tail, offset - tail as i128, offset),
    ];
    let holds = |&(_, from, to): &(Source, i128, i128)| from <= start && start <= end && end <= to;
    let (source, from, _) = buffers.into_iter().find(holds)?;
    Some((source, (start - from) as usize, (end - start) as usize))
}

#[derive(Clone, Copy, Debug, PartialEq, Eq)]
pub enum Source {
    Block,
    Tail,
}
