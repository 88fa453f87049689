//! Sets of stream offsets, as sorted lists without repeats.

/// Offsets in rising order, each once.
pub type Offsets = Vec<usize>;

/// The members of either list.
pub fn union(a: &[usize], b: &[usize]) -> Offsets {
    if a.is_empty() {
        return b.to_vec();
    }
    let mut all: Offsets = a.iter().chain(b).copied().collect();
    all.sort_unstable();
    all.dedup();
    all
}

/// The members of `a` that are not in `b`.
pub fn without(a: &[usize], b: &[usize]) -> Offsets {
    a.iter().copied().filter(|offset| !b.contains(offset)).collect()
}
