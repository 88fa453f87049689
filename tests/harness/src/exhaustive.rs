//! The exhaustive mode: all patterns of up to k tokens over a small alphabet of tokens, with all
//! logs up to a length over a small alphabet of bytes, and for each log all cuts into blocks. There
//! are four alphabets: for the meaning of patterns, for lines and words, for the spelling of patterns,
//! and for numbers in braces.
//!
//! An accepted pattern stands twice in the table, plain and as a single-match rule, and all its
//! streams are opened on that table one after another. Each cut is scanned with the least report
//! space, so that the stop rule is at work wherever bytes report, and, cut into single bytes, with
//! the busy figure asked after each byte and after the closing. Each cut is made a second time by work
//! allowances: all the rest of the log is offered with just the units that the next part costs and,
//! before each single byte, with one unit too few. Where streams keep starts, the plain rule reports
//! them, and the pattern stands a third time, with a smallest length of two bytes.

use corpus::Case;
use reference::refusal::{least_space, LEFTMOST_START, LINE_MODE, SINGLE_MATCH};
use reference::windows::Windows;

use crate::definition::add_all;
use crate::play::play;
use crate::scenario::{predict_with, Addition, Allowance, Scenario, Step};
use crate::shrink::{describe, failure, shrink};
use crate::watcher::{PatternReader, Watcher};

/// What patterns and logs are made of.
#[derive(Clone, Copy, Debug)]
pub struct Alphabet {
    pub tokens: &'static [&'static str],
    pub bytes: &'static [u8],
    /// The flags of every pattern.
    pub flags: u32,
}

/// Each token is one of the pattern language's, so that k tokens reach far. The logs are of two
/// letters that patterns name, one in the other case, and the newline, which patterns name too.
pub const MEANING: Alphabet = Alphabet {
    tokens: &[
        "a", "b", ".", "^", "$", "|", "(", ")", "*", "+", "?", "{2}", "{1,2}", "{,2}", "{2,}",
        "[^a]", "(?i)", "\\z", "(?:", "\\Z", "\\n",
    ],
    bytes: b"abA\n",
    flags: 0,
};

/// Assertions, in line mode and out of it, and what may stand around them. The logs are of a word byte,
/// another one and the newline.
pub const LINES: Alphabet = Alphabet {
    tokens: &[
        "a",
        "-",
        "\\n",
        ".",
        "^",
        "$",
        "\\b",
        "\\B",
        "(?:\\b|\\B)",
        "\\Z",
        "|",
        "(",
        ")",
        "*",
        "?",
        "(?-m)",
    ],
    bytes: b"a-\n",
    flags: LINE_MODE,
};

/// Pieces of classes, quotes and comments, whole or not, and what may stand beside them or, as a raw
/// control byte, nowhere.
pub const SPELLING: Alphabet = Alphabet {
    tokens: &[
        "a",
        "-",
        "^",
        "[",
        "]",
        "[:upper:]",
        "\\Q",
        "\\E",
        "\\d",
        "*",
        "?",
        "(",
        ")",
        "(?#",
        "(?i)",
        "\t",
    ],
    bytes: b"aA-^]*",
    flags: 0,
};

/// Pieces of quantifiers and escapes with braces, and the blanks that may stand between them, one of
/// which is a raw control byte. The logs are of what they may stand for: a letter, a digit, a space,
/// and the byte of value 2.
pub const BRACES: Alphabet = Alphabet {
    tokens: &["a", "{", "}", ",", " ", "\t", "2", "\\x{", "?"],
    bytes: b"a2 \x02",
    flags: 0,
};

#[derive(Clone, Copy, Debug)]
pub struct Bounds {
    pub alphabet: Alphabet,
    pub tokens: usize,
    pub bytes: usize,
    /// Only the patterns whose index leaves this remainder by the divisor, for runs in parts.
    pub part: (u64, u64),
}

#[derive(Clone, Debug, Default)]
pub struct Count {
    pub patterns: u64,
    pub accepted: u64,
    pub pairs: u64,
    pub streams: u64,
}

/// Runs the mode; the first disagreement, made smaller, is the error.
pub fn run<W: Watcher, R: PatternReader>(
    watcher: &W,
    reader: &R,
    bounds: Bounds,
) -> Result<Count, String> {
    let mut count = Count::default();
    let Alphabet { tokens: alphabet, bytes, flags } = bounds.alphabet;
    let logs = all_logs(bytes, bounds.bytes);
    let mut index = 0;
    for tokens in 0..=bounds.tokens {
        let mut digits = vec![0; tokens];
        loop {
            if index % bounds.part.1 == bounds.part.0 {
                let pattern: String = digits.iter().map(|&d| alphabet[d]).collect();
                one_pattern(watcher, reader, flags, pattern.as_bytes(), &logs, &mut count)?;
            }
            index += 1;
            if !advance(&mut digits, alphabet.len()) {
                break;
            }
        }
    }
    Ok(count)
}

/// All patterns of up to so many tokens, the shorter ones first.
pub fn all_patterns(alphabet: &'static [&'static str], longest: usize) -> Vec<Vec<u8>> {
    let mut patterns = Vec::new();
    for tokens in 0..=longest {
        let mut digits = vec![0; tokens];
        loop {
            patterns.push(digits.iter().flat_map(|&d| alphabet[d].bytes()).collect());
            if !advance(&mut digits, alphabet.len()) {
                break;
            }
        }
    }
    patterns
}

/// The next number of so many digits in this base; false after the last.
fn advance(digits: &mut [usize], base: usize) -> bool {
    for digit in digits.iter_mut() {
        *digit += 1;
        if *digit < base {
            return true;
        }
        *digit = 0;
    }
    false
}

/// All logs of up to so many of these bytes, the shorter ones first.
pub fn all_logs(bytes: &[u8], longest: usize) -> Vec<Vec<u8>> {
    let mut logs = vec![Vec::new()];
    let mut from = 0;
    for _ in 0..longest {
        let until = logs.len();
        for index in from..until {
            for &byte in bytes {
                let mut longer = logs[index].clone();
                longer.push(byte);
                logs.push(longer);
            }
        }
        from = until;
    }
    logs
}

fn one_pattern<W: Watcher, R: PatternReader>(
    watcher: &W,
    reader: &R,
    flags: u32,
    pattern: &[u8],
    logs: &[Vec<u8>],
    count: &mut Count,
) -> Result<(), String> {
    let traced = watcher.traces();
    let leftmost = if traced { LEFTMOST_START } else { 0 };
    let mut additions = vec![
        Addition::new(2, flags | leftmost, pattern),
        Addition::new(1, flags | SINGLE_MATCH, pattern),
    ];
    if traced && watcher.has_windows() {
        let windows = Windows { smallest_length: 2, ..Windows::NONE };
        additions.push(Addition { windows, ..Addition::new(3, flags, pattern) });
    }
    let (rules, answers) = add_all(&additions);
    let reading = reader.read(flags, pattern);
    let positions = rules.first().map_or(0, |rule| rule.positions);
    if (reading.number, reading.place, reading.positions) != (answers[0].0, answers[0].1, positions)
    {
        let shown = pattern.escape_ascii();
        return Err(format!("reading {shown}: {reading:?}, wanted {:?}, {positions}", answers[0]));
    }
    count.patterns += 1;
    if rules.is_empty() {
        return Ok(());
    }
    count.accepted += 1;
    let scenario = |log: &[u8]| {
        let space = least_space(rules.len());
        let steps = all_streams(log.len(), space).join(&Step::Again);
        Scenario { additions: additions.clone(), log: log.to_vec(), steps, traced }
    };
    let mut all = Case { name: String::new(), origin: String::new(), lines: Vec::new() };
    for log in logs {
        let case = predict_with(&scenario(log), &rules, &answers);
        let added = if all.lines.is_empty() { 0 } else { additions.len() };
        all.lines.extend(case.lines.into_iter().skip(added));
        count.pairs += 1;
        count.streams += 2 << log.len().saturating_sub(1);
    }
    if play(watcher, &all).is_ok() {
        return Ok(());
    }
    let failing = logs.iter().map(|log| scenario(log)).find(|s| failure(watcher, s).is_some());
    Err(match failing {
        Some(scenario) => describe(watcher, &shrink(watcher, &scenario)),
        None => format!("# fails only after the streams before it\n{all}"),
    })
}

/// For each cut of so many bytes the steps of a caller who cuts by blocks, and of one who cuts by
/// allowances, both with this report space.
fn all_streams(length: usize, space: usize) -> Vec<Vec<Step>> {
    let gaps = length.saturating_sub(1);
    let cuts = (0..1usize << gaps).map(|choice| parts(length, choice));
    cuts.flat_map(|parts| [by_blocks(&parts, space), by_allowances(&parts, space)]).collect()
}

/// The lengths of the parts of so many bytes, cut behind those whose bit is set in `choice`.
fn parts(length: usize, choice: usize) -> Vec<usize> {
    let mut parts = Vec::new();
    let mut part = 0;
    for byte in 0..length {
        part += 1;
        if byte + 1 == length || choice >> byte & 1 == 1 {
            parts.push(part);
            part = 0;
        }
    }
    parts
}

fn are_single(parts: &[usize]) -> bool {
    parts.iter().all(|&part| part == 1)
}

/// Blocks as long as the parts, and the closing.
fn by_blocks(parts: &[usize], space: usize) -> Vec<Step> {
    let figure = are_single(parts).then_some(Step::Figure);
    let mut steps = Vec::new();
    for &bytes in parts {
        steps.push(Step::Offer { bytes, space, allowance: Allowance::NoLimit });
        steps.extend(figure.clone());
    }
    steps.push(Step::Close { ids: space, offsets: space });
    steps.extend(figure);
    steps
}

/// The whole rest with an allowance for each part in turn; what the report space did not let through,
/// and the closing.
fn by_allowances(parts: &[usize], space: usize) -> Vec<Step> {
    let rest = usize::MAX;
    let slice =
        |allowance| Step::Scan { bytes: rest, ids: space, offsets: space, allowance, drop: false };
    let mut steps = Vec::new();
    for &part in parts {
        if are_single(parts) {
            steps.push(slice(Allowance::OneLess(part)));
        }
        steps.push(slice(Allowance::Cost(part)));
    }
    steps.push(Step::Offer { bytes: rest, space, allowance: Allowance::NoLimit });
    steps.push(Step::Close { ids: space, offsets: space });
    steps
}
