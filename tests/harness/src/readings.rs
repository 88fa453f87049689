//! The exhaustive mode for the reader alone: all patterns up to a length over the bytes that mean
//! something in a pattern, well formed or not, and what reading gives for each: number, place and
//! positions. The shortest come first, so a disagreement is small as it is found.

use corpus::{Case, Line};
use reference::rule::check;

use crate::watcher::{PatternReader, Reading};

pub const BYTES: &[u8] = b"\\[]^-(){}?*+|,:.1aixdbBmNZcQE# \t";

#[derive(Clone, Debug, Default)]
pub struct Count {
    pub patterns: u64,
    /// Readings by their number, 0 to 16 and 23.
    pub by_number: [u64; 24],
}

/// The reading that the reference gives.
pub fn reading(pattern: &[u8]) -> Reading {
    match check(&[], 0, 0, pattern) {
        Ok(rule) => Reading { number: 0, place: 0, positions: rule.positions },
        Err(refusal) => Reading { number: refusal.number, place: refusal.place, positions: 0 },
    }
}

/// Compares all readings; the first disagreement is the error, as a case of the corpus.
pub fn run<R: PatternReader>(reader: &R, longest: usize) -> Result<Count, String> {
    let mut count = Count::default();
    for_all(&bytes(), longest, &mut |pattern| {
        let wanted = reading(pattern);
        let got = reader.read(0, pattern);
        count.patterns += 1;
        count.by_number[wanted.number as usize] += 1;
        if got == wanted {
            return Ok(());
        }
        let Reading { number, place, .. } = wanted;
        let name = format!("disagreement {}", pattern.escape_ascii());
        let (pattern, windows) = (pattern.to_vec(), Default::default());
        let line = Line::Rule { id: 1, flags: 0, pattern, number, place, windows };
        let case = Case { name, origin: String::new(), lines: vec![line] };
        Err(format!("# got {got:?}, wanted {wanted:?}\n{case}"))
    })?;
    Ok(count)
}

/// The bytes as the tokens of an alphabet.
pub fn bytes() -> Vec<&'static [u8]> {
    BYTES.chunks(1).collect()
}

/// Hands every pattern of up to so many tokens to `each`, the shorter ones first.
pub fn for_all<T: AsRef<[u8]>>(
    alphabet: &[T],
    longest: usize,
    each: &mut dyn FnMut(&[u8]) -> Result<(), String>,
) -> Result<(), String> {
    for length in 0..=longest {
        each_of_length(alphabet, &mut Vec::new(), length, each)?;
    }
    Ok(())
}

fn each_of_length<T: AsRef<[u8]>>(
    alphabet: &[T],
    pattern: &mut Vec<u8>,
    more: usize,
    each: &mut dyn FnMut(&[u8]) -> Result<(), String>,
) -> Result<(), String> {
    if more == 0 {
        return each(pattern);
    }
    let length = pattern.len();
    for token in alphabet {
        pattern.extend(token.as_ref());
        each_of_length(alphabet, pattern, more - 1, each)?;
        pattern.truncate(length);
    }
    Ok(())
}
