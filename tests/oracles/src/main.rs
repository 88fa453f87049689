//! Compares the reference with two outside matchers on random patterns and logs, where the meanings
//! coincide: PCRE2 start by start, Hyperscan by end offsets, by leftmost starts and by windows. A
//! disagreement ends it with status 1.
//!
//! Left out because the meanings differ: `{,m}` and blanks in braces (PCRE2 10.42 reads bytes, or for
//! escapes a fault), a brace after `\N`, what an outside matcher refuses, as Hyperscan does an
//! assertion of the end inside a pattern, and with Hyperscan a rule that asks for the start of a line
//! on a log that ends with a newline, after which a matcher of streams may take a line to start.
//!
//! Hyperscan's extended parameters mean what windows mean: end offsets with both limits, and a
//! length that some match of the end offset has. Three things differ. Hyperscan does not compile a
//! rule of which no match can meet its windows, as `a` with a smallest length of 2; here it is
//! accepted and silent, and such a rule is left out. A single-match rule reports here what is
//! delivered first, so rules with an assertion that waits are compared without that flag. A start
//! is here the smallest that is known when the pair falls, so streams in which a smaller one is
//! known later are left out.
//!
//! What one side accepts and the other refuses is counted and shown, not judged: for PCRE2 a `?` or
//! `+` behind a comment is the mark of the quantifier before it, `[\d-\E]` has a range and
//! `[\d\E-a]` has none.

mod pcre2;

use std::collections::BTreeMap;
use std::process::ExitCode;

use harness::exhaustive::{all_logs, LINES, SPELLING};
use harness::patterns::pattern;
use harness::random::log;
use harness::readings;
use harness::rng::Rng;
use hyperscan::{Database, Extended, Match, Mode};
use reference::known::Known;
use reference::meaning::ends;
use reference::ordered::ordered;
use reference::refusal::{LEFTMOST_START, SINGLE_MATCH};
use reference::rule::{check, check_within, Rule};
use reference::tree::{Assertion, Node};
use reference::windows::Windows;

#[derive(Default)]
struct Count {
    accepted: u64,
    refused: u64,
    pcre2: u64,
    pcre2_refuses: u64,
    pcre2_accepts: u64,
    hyperscan: u64,
    shown: Vec<String>,
}

const USAGE: &str = "usage: oracles SEED COUNT, oracles LENGTH, oracles spelling TOKENS, \
oracles lines TOKENS, or oracles starts SEED COUNT";

fn main() -> ExitCode {
    let words: Vec<String> = std::env::args().skip(1).collect();
    let alphabet = words.first().map_or("", String::as_str);
    let numbers: Vec<u64> = words.iter().filter_map(|word| word.parse().ok()).collect();
    let done = match (alphabet, &numbers[..]) {
        ("spelling", &[longest]) => all_readings(SPELLING.tokens, longest as usize, 0, &logs()),
        ("lines", &[longest]) => {
            let logs = all_logs(LINES.bytes, 3);
            all_readings(LINES.tokens, longest as usize, LINES.flags, &logs)
        }
        ("starts", &[seed, cases]) => random_starts(seed, cases),
        (_, &[longest]) => all_readings(&readings::bytes(), longest as usize, 0, &[]),
        (_, &[seed, cases]) => random_cases(seed, cases),
        _ => Err(USAGE.to_string()),
    };
    match done {
        Ok(()) => ExitCode::SUCCESS,
        Err(message) => {
            println!("{message}");
            ExitCode::FAILURE
        }
    }
}

fn random_cases(seed: u64, cases: u64) -> Result<(), String> {
    let mut count = Count::default();
    for index in 0..cases {
        one(&mut Rng::for_case(seed, index), &mut count)
            .map_err(|message| format!("seed {seed}, case {index}: {message}"))?;
    }
    for line in &count.shown {
        println!("{line}");
    }
    println!(
        "{} patterns accepted, {} refused; (pattern, log) pairs equal: {} with PCRE2, {} with Hyperscan",
        count.accepted, count.refused, count.pcre2, count.hyperscan
    );
    println!(
        "PCRE2 refuses {} that are accepted here, and accepts {} that are refused here",
        count.pcre2_refuses, count.pcre2_accepts
    );
    Ok(())
}

/// Bytes that the spelling alphabet may quote or leave out, and some in a row.
fn logs() -> Vec<Vec<u8>> {
    let in_a_row = ["aa", "-a", "\\E"].map(|log| log.as_bytes().to_vec());
    b"aA-^]*5[\\:(#Q".iter().map(|&byte| vec![byte]).chain(in_a_row).collect()
}

/// For all patterns of up to so many tokens, whether they are accepted here and by PCRE2: a table of
/// our number, 0 for accepted, and PCRE2's error, 0 for accepted, with the count and the first
/// pattern of each. Our 14, 15, 16 and 23 are left out: they are about the subset and its limits. What
/// both accept must have the same meaning on these logs.
fn all_readings<T: AsRef<[u8]>>(
    alphabet: &[T],
    longest: usize,
    flags: u32,
    logs: &[Vec<u8>],
) -> Result<(), String> {
    let mut table: BTreeMap<(u32, i32), (u64, String)> = BTreeMap::new();
    let mut count = Count::default();
    readings::for_all(alphabet, longest, &mut |pattern| {
        let rule = check(&[], 0, flags, pattern);
        let number = rule.as_ref().err().map_or(0, |refusal| refusal.number);
        if number >= 14 || reads_otherwise(pattern) {
            return Ok(());
        }
        let code = pcre2::Pattern::compile(pattern, flags);
        let theirs = code.as_ref().err().copied().unwrap_or(0);
        let first = || (0, pattern.escape_ascii().to_string());
        table.entry((number, theirs)).or_insert_with(first).0 += 1;
        if let (Ok(rule), Ok(code)) = (&rule, &code) {
            logs.iter().try_for_each(|log| with_pcre2(rule, code, log, &mut count))?;
        }
        Ok(())
    })?;
    for ((ours, theirs), (patterns, first)) in table {
        println!("ours {ours}, PCRE2 {theirs}: {patterns}, first {first}");
    }
    if !logs.is_empty() {
        println!("(pattern, log) pairs equal: {} with PCRE2", count.pcre2);
    }
    Ok(())
}

fn one(rng: &mut Rng, count: &mut Count) -> Result<(), String> {
    let pattern = pattern(rng);
    if reads_otherwise(&pattern) {
        return Ok(());
    }
    let flags = rng.below(8) as u32;
    let code = pcre2::Pattern::compile(&pattern, flags);
    let rule = match check(&[], 1, flags, &pattern) {
        Ok(rule) => rule,
        Err(refusal) => {
            count.refused += 1;
            if code.is_ok() && (6..=13).contains(&refusal.number) {
                count.pcre2_accepts += 1;
                let (number, place) = (refusal.number, refusal.place);
                show(
                    count,
                    format!(
                        "refused {number} at {place}, PCRE2 accepts: {}",
                        pattern.escape_ascii()
                    ),
                );
            }
            return Ok(());
        }
    };
    count.accepted += 1;
    let log = log(rng, std::slice::from_ref(&rule));
    match code {
        Ok(code) => with_pcre2(&rule, &code, &log, count)?,
        Err(error) => {
            count.pcre2_refuses += 1;
            show(
                count,
                format!("accepted, PCRE2 refuses with {error}: {}", pattern.escape_ascii()),
            );
        }
    }
    if log.ends_with(b"\n") && starts_lines(&rule.tree) {
        return Ok(());
    }
    if let Some(database) = Database::new(&[(1, flags, &pattern)], Mode::Block) {
        with_hyperscan(&rule, &database, &log, count)?;
    }
    Ok(())
}

/// Does it ask for the start of a line?
fn starts_lines(node: &Node) -> bool {
    match node {
        Node::Assert(assertion) => *assertion == Assertion::LineStart,
        Node::Item(_) => false,
        Node::Sequence(parts) | Node::Choice(parts) => parts.iter().any(starts_lines),
        Node::Repeat { of, .. } => starts_lines(of),
    }
}

/// The first few only.
fn show(count: &mut Count, line: String) {
    if count.shown.len() < 30 {
        count.shown.push(line);
    }
}

/// Does it hold `{,` and a digit or a blank in braces, which PCRE2 10.42 reads as bytes, or a brace
/// after `\N`, which PCRE2 reads as a name?
fn reads_otherwise(pattern: &[u8]) -> bool {
    let upper_only = pattern.windows(3).any(|w| w.starts_with(b"{,") && w[2].is_ascii_digit());
    let has_blank = pattern.split(|&byte| byte == b'{').skip(1).any(|after| {
        let inside = after.split(|&byte| byte == b'}').next().unwrap_or_default();
        inside.iter().any(|byte| b" \t".contains(byte))
    });
    upper_only || has_blank || pattern.windows(3).any(|w| w == b"\\N{")
}

fn with_pcre2(
    rule: &Rule,
    code: &pcre2::Pattern,
    log: &[u8],
    count: &mut Count,
) -> Result<(), String> {
    let known = Known::at_closing(log);
    for start in 0..log.len() {
        let ours = ends(&rule.tree, &[start], &known);
        let Some(theirs) = code.ends(log, start) else { return Ok(()) };
        if ours != theirs {
            return Err(told(rule, log, &format!("from {start}: {ours:?}, PCRE2 {theirs:?}")));
        }
    }
    count.pcre2 += 1;
    Ok(())
}

fn with_hyperscan(
    rule: &Rule,
    database: &Database,
    log: &[u8],
    count: &mut Count,
) -> Result<(), String> {
    let known = Known::at_closing(log);
    let starts: Vec<usize> = (0..log.len()).collect();
    let ours = ends(&rule.tree, &starts, &known);
    let mut reports = Vec::new();
    database.scan_block(log, &mut reports);
    let mut theirs: Vec<usize> = reports.iter().map(|&(_, end)| end as usize).collect();
    theirs.sort_unstable();
    theirs.dedup();
    if ours != theirs {
        return Err(told(rule, log, &format!("{ours:?}, Hyperscan {theirs:?}")));
    }
    count.hyperscan += 1;
    Ok(())
}

fn told(rule: &Rule, log: &[u8], difference: &str) -> String {
    let (pattern, log) = (rule.pattern.escape_ascii(), log.escape_ascii());
    format!("/{pattern}/ flags {} on '{log}': {difference}", rule.flags)
}

/// What a comparison with Hyperscan's starts and windows counted.
#[derive(Default)]
struct Traced {
    accepted: u64,
    compiled: u64,
    starts: u64,
    reports: u64,
    windows: u64,
    inside: u64,
    single: u64,
    /// Those of rules with a smallest length.
    lengths: u64,
    /// Streams with windows and starts.
    both: u64,
    both_reports: u64,
}

/// Streams of random rules, cut anywhere, with Hyperscan's leftmost starts, and with its smallest and
/// largest end offset and smallest length.
fn random_starts(seed: u64, cases: u64) -> Result<(), String> {
    let mut count = Traced::default();
    for index in 0..cases {
        one_traced(&mut Rng::for_case(seed, index), &mut count)
            .map_err(|message| format!("seed {seed}, case {index}: {message}"))?;
    }
    println!(
        "{} patterns accepted, {} of them by Hyperscan with starts; equal streams: {} with {} starts",
        count.accepted, count.compiled, count.starts, count.reports
    );
    println!(
        "equal streams with windows: {} with {} end offsets inside, {} of single-match rules, \
         {} with a smallest length",
        count.windows, count.inside, count.single, count.lengths
    );
    println!(
        "equal streams with windows and starts: {} with {} starts",
        count.both, count.both_reports
    );
    Ok(())
}

fn one_traced(rng: &mut Rng, count: &mut Traced) -> Result<(), String> {
    let pattern = pattern(rng);
    let flags = rng.below(8) as u32;
    if reads_otherwise(&pattern) {
        return Ok(());
    }
    let Ok(rule) = check(&[], 1, flags | LEFTMOST_START, &pattern) else { return Ok(()) };
    count.accepted += 1;
    let log = log(rng, std::slice::from_ref(&rule));
    if log.ends_with(b"\n") && starts_lines(&rule.tree) {
        return Ok(());
    }
    let cuts: Vec<&[u8]> = cut(rng, &log);
    if let Some(database) =
        Database::extended(rule.flags, &pattern, Extended::default(), Mode::Starts)
    {
        count.compiled += 1;
        if let Some(reports) = with_starts(&rule, &database, &log, &cuts)? {
            count.starts += 1;
            count.reports += reports;
        }
    }
    let single = rng.once_in(4) && !waits(&rule.tree);
    let flags = if single { flags | SINGLE_MATCH } else { flags };
    let windows = windows(rng);
    let extended = Extended {
        min_offset: (windows.smallest_end > 0).then_some(windows.smallest_end),
        max_offset: (windows.largest_end < u64::MAX).then_some(windows.largest_end),
        min_length: (windows.smallest_length > 0).then_some(windows.smallest_length),
    };
    let Ok(rule) = check_within(&[], 1, flags, windows, &pattern) else { return Ok(()) };
    if let Some(database) = Database::extended(flags, &pattern, extended, Mode::Stream) {
        with_windows(&rule, &database, &log, &cuts, count)?;
    }
    let flags = flags & !SINGLE_MATCH | LEFTMOST_START;
    let Ok(rule) = check_within(&[], 1, flags, windows, &pattern) else { return Ok(()) };
    if let Some(database) = Database::extended(flags, &pattern, extended, Mode::Starts) {
        if let Some(reports) = with_starts(&rule, &database, &log, &cuts)? {
            count.both += 1;
            count.both_reports += reports;
        }
    }
    Ok(())
}

/// Blocks of any length, empty ones too.
fn cut<'l>(rng: &mut Rng, log: &'l [u8]) -> Vec<&'l [u8]> {
    let mut blocks = Vec::new();
    let mut rest = log;
    while !rest.is_empty() {
        let (block, next) = rest.split_at(rng.below(rest.len() + 1));
        blocks.push(block);
        rest = next;
    }
    blocks
}

/// Windows about the length of a log, some of which fall.
fn windows(rng: &mut Rng) -> Windows {
    let mut windows = Windows::NONE;
    if rng.once_in(2) {
        windows.smallest_end = rng.word() % 8;
    }
    if rng.once_in(2) {
        windows.largest_end = windows.smallest_end + rng.word() % 12;
    }
    if rng.once_in(2) {
        windows.smallest_length = rng.word() % 6;
    }
    windows
}

/// Does it have an assertion that may wait for the next byte, or for the end?
fn waits(node: &Node) -> bool {
    match node {
        Node::Assert(assertion) => *assertion != Assertion::Start,
        Node::Item(_) => false,
        Node::Sequence(parts) | Node::Choice(parts) => parts.iter().any(waits),
        Node::Repeat { of, .. } => waits(of),
    }
}

/// The starts of a rule, inside its windows. Hyperscan gives the smallest start of all matches; so
/// does the definition, but for a pair that falls before a smaller start is settled: such a stream
/// is left out. How many reports were equal, if it was compared.
fn with_starts(
    rule: &Rule,
    database: &Database,
    log: &[u8],
    cuts: &[&[u8]],
) -> Result<Option<u64>, String> {
    let list = ordered(std::slice::from_ref(rule), log);
    let mut ours: Vec<(u64, u64)> = list.iter().map(|pair| (pair.offset, pair.start)).collect();
    ours.sort_unstable();
    let closing = Known::at_closing(log);
    let smallest = |end: u64| {
        let ends_there = |start: &usize| {
            (*start as u64) < end && ends(&rule.tree, &[*start], &closing).contains(&(end as usize))
        };
        (0..log.len()).find(ends_there).map(|start| start as u64)
    };
    if ours.iter().any(|&(end, start)| smallest(end) != Some(start)) {
        return Ok(None);
    }
    let matches = database.matches(cuts);
    let mut theirs: Vec<(u64, u64)> = matches.iter().map(|m| (m.end, m.start)).collect();
    theirs.sort_unstable();
    theirs.dedup_by_key(|&mut (end, _)| end);
    if ours != theirs {
        let windows = rule.windows;
        let difference = format!("{windows:?}: {ours:?}, Hyperscan {theirs:?} of {matches:?}");
        return Err(told(rule, log, &difference));
    }
    Ok(Some(ours.len() as u64))
}

/// The end offsets of a rule with windows; of a single-match rule the first alone.
fn with_windows(
    rule: &Rule,
    database: &Database,
    log: &[u8],
    cuts: &[&[u8]],
    count: &mut Traced,
) -> Result<(), String> {
    let list = ordered(std::slice::from_ref(rule), log);
    let mut ours: Vec<u64> = list.iter().map(|pair| pair.offset).collect();
    ours.sort_unstable();
    let mut theirs: Vec<u64> =
        database.matches(cuts).iter().map(|&Match { end, .. }| end).collect();
    theirs.sort_unstable();
    theirs.dedup();
    if ours != theirs {
        let windows = rule.windows;
        return Err(told(rule, log, &format!("{windows:?}: {ours:?}, Hyperscan {theirs:?}")));
    }
    count.windows += 1;
    count.inside += ours.len() as u64;
    count.single += u64::from(rule.single_match());
    count.lengths += u64::from(rule.windows.smallest_length > 0);
    Ok(())
}
