//! The random mode: tables of a few rules over the whole subset, malformed ones among them, a log
//! in which they have something to find, and a caller with blocks, report spaces and work allowances
//! of any size who now and then makes a call that is refused. Case i of a run depends on the seed and
//! on i alone.

use corpus::{Case, Line};
use reference::refusal::{least_space, LEFTMOST_START, MAX_RULES, SINGLE_MATCH};
use reference::rule::Rule;
use reference::tree::Node;
use reference::windows::Windows;

use crate::definition::add_all;
use crate::patterns::{pattern, ODD_BYTES};
use crate::play::play;
use crate::rng::Rng;
use crate::scenario::{predict, Addition, Allowance, Scenario, Step};
use crate::shrink::{describe, shrink};
use crate::watcher::Watcher;

#[derive(Clone, Debug, Default)]
pub struct Count {
    pub cases: u64,
    /// Accepted rules, each with the log of its case.
    pub pairs: u64,
    pub calls: u64,
    pub refused_calls: u64,
    /// Scans with an allowance.
    pub limited: u64,
    pub reports: u64,
    /// Units of work.
    pub used: u64,
    /// Additions by their number, 0 to 17, 23, 24 and 26.
    pub by_number: [u64; 27],
}

/// Patterns that wait for the end, most of them at its last two offsets.
const LAST_LINES: &[&str] = &[
    "a$",
    "\\n$",
    "(a|a\\n)$",
    "a$\\n",
    "[^b]\\Z",
    "a\\n\\z",
    "$\\n",
    "b?a$\\n?",
    "a$|\\n",
    "a|a\\Z",
];

/// Patterns that wait for the next byte, some of them for the end as well.
const NEXT_BYTES: &[&str] = &[
    "a\\b",
    "[ab]\\B",
    "\\b[^a]",
    "\\B.",
    "a\\b|a-",
    "a(?:\\b|\\B)",
    "ba\\b|a\\B",
    "a|a\\b",
    "a\\b$",
    "[a-]\\b|\\n",
    "(?m)a$",
    "(?m)^[^a]",
    "(?m)\\n^",
    "(?m)\\n$|\\n\\n",
    "(?m)a$\\n^",
    "(?m)(?:a|\\n)$",
    "(?m)^|a\\b.",
];

/// Runs the cases from `first` on; the first disagreement, made smaller, is the error.
pub fn run<W: Watcher>(watcher: &W, seed: u64, first: u64, cases: u64) -> Result<Count, String> {
    let mut count = Count::default();
    for index in first..first + cases {
        let scenario = scenario_for(watcher, &mut Rng::for_case(seed, index));
        let case = predict(&scenario);
        if play(watcher, &case).is_err() {
            let small = describe(watcher, &shrink(watcher, &scenario));
            return Err(format!("# random seed {seed}, case {index}\n{small}"));
        }
        tally(&case, &mut count);
    }
    Ok(count)
}

fn tally(case: &Case, count: &mut Count) {
    count.cases += 1;
    let mut opened = false;
    for line in &case.lines {
        match line {
            Line::Open(_) => opened = true,
            Line::Rule { number, .. } => {
                count.by_number[*number as usize] += 1;
                count.pairs += u64::from(*number == 0 && !opened);
            }
            Line::Call(call) => {
                count.calls += 1;
                count.refused_calls += u64::from(call.number != 0);
                count.limited += u64::from(call.work.is_some_and(|work| work.allowance.is_some()));
                count.reports += call.count as u64;
                count.used += call.work.map_or(0, |work| work.used);
            }
            _ => {}
        }
    }
}

pub fn scenario(rng: &mut Rng) -> Scenario {
    let mut additions = Vec::new();
    for _ in 0..[1, 1, 2, 2, 3, 4, 6][rng.below(7)] {
        additions.push(addition(rng));
    }
    if rng.once_in(30) {
        let pattern = rng.pick(&[&b"a{200}"[..], b"(ab){64}", b"b{2,127}", b"[ab]{254,}"]).to_vec();
        additions.insert(0, Addition::new(77, 0, &pattern));
    }
    if rng.once_in(40) {
        let count = *rng.pick(&[30, 48, 58, 62]) + rng.below(8) as u32;
        additions.extend(
            (100..100 + count)
                .map(|id| Addition::new(id, *rng.pick(&[0, 0, 8]), &[b'a' + (id % 3) as u8])),
        );
    }
    for waiting in [LAST_LINES, NEXT_BYTES] {
        if rng.once_in(12) {
            for _ in 0..2 + rng.below(2) {
                let pattern = rng.pick(waiting).as_bytes().to_vec();
                additions.push(Addition { pattern, ..addition(rng) });
            }
        }
    }
    let (rules, _) = add_all(&additions);
    let log = log(rng, &rules);
    let mut steps = Vec::new();
    for _ in 0..rng.below(12) {
        steps.push(step(rng, rules.len(), log.len()));
    }
    if rng.once_in(2) {
        let least = least_space(rules.len());
        let allowance = allowance(rng);
        steps.push(Step::Offer { bytes: usize::MAX, space: least, allowance });
        steps.push(Step::Figure);
        steps.push(Step::Close { ids: least.saturating_sub(1), offsets: 2 * MAX_RULES + 8 });
    }
    Scenario { additions, log, steps, traced: false }
}

/// A scenario for this watcher: where its streams keep starts, about half the rules report them, and
/// where it has windows, some rules have them. On streams that keep none a rule that reports starts
/// or has a smallest length is rare, since all calls are then refused.
pub fn scenario_for<W: Watcher>(watcher: &W, rng: &mut Rng) -> Scenario {
    let mut scenario = scenario(rng);
    scenario.traced = watcher.traces();
    let often = if watcher.traces() { 2 } else { 200 };
    let adding = scenario.steps.iter_mut().filter_map(|step| match step {
        Step::Add(addition) => Some(addition),
        _ => None,
    });
    for addition in scenario.additions.iter_mut().chain(adding) {
        if rng.once_in(often) {
            addition.flags |= LEFTMOST_START;
            if !rng.once_in(12) {
                addition.flags &= !SINGLE_MATCH;
            }
        }
        if watcher.has_windows() && rng.once_in(4) {
            let lengths = rng.once_in(often);
            addition.windows = windows(rng, lengths);
        }
    }
    scenario
}

/// Windows of any kind about the length of a log, with a smallest length if there may be one.
fn windows(rng: &mut Rng, lengths: bool) -> Windows {
    let mut windows = Windows::NONE;
    if rng.once_in(2) {
        windows.smallest_end = rng.word() % 8;
    }
    if rng.once_in(2) {
        windows.largest_end = windows.smallest_end.saturating_sub(1) + rng.word() % 12;
    }
    if lengths {
        windows.smallest_length = rng.word() % 5;
    }
    windows
}

fn addition(rng: &mut Rng) -> Addition {
    let id = match rng.below(6) {
        0 => 0,
        1 => u32::MAX,
        2 => rng.word() as u32,
        _ => rng.below(9) as u32,
    };
    let flags = match rng.below(30) {
        0 => rng.word() as u32,
        1 => 16,
        _ => *rng.pick(&[0, 0, 0, 1, 2, 4, 4, 8, 8, 3, 9, 10, 11, 12, 15]),
    };
    Addition::new(id, flags, &pattern(rng))
}

fn step(rng: &mut Rng, rules: usize, log: usize) -> Step {
    let ids = space(rng, rules);
    let offsets = space(rng, rules);
    match rng.below(24) {
        0 => Step::Close { ids, offsets },
        1 => Step::Close { ids: least_space(rules).saturating_sub(1), offsets },
        2 => Step::ShortTable,
        3 => Step::NoTable,
        4 => Step::RefusedState,
        5 => Step::GrownTable,
        6 | 7 => Step::Add(addition(rng)),
        8..=12 => Step::Figure,
        13 => Step::Offer { bytes: rng.below(log + 2), space: ids, allowance: allowance(rng) },
        _ => {
            let (bytes, drop) = (rng.below(log + 2), rng.once_in(6));
            Step::Scan { bytes, ids, offsets, allowance: allowance(rng), drop }
        }
    }
}

/// Often no limit; none at all, a few, just enough for some bytes or one too few; what always takes a
/// byte; and far more than any scan uses, past 32 bits.
fn allowance(rng: &mut Rng) -> Allowance {
    match rng.below(12) {
        0..=3 => Allowance::NoLimit,
        4 => Allowance::Units(0),
        5 | 6 => Allowance::Units(1 + rng.word() % 12),
        7 | 8 => Allowance::Cost(1 + rng.below(8)),
        9 => Allowance::OneLess(1 + rng.below(8)),
        10 => Allowance::Units(256 + rng.word() % 400),
        _ => Allowance::Units(*rng.pick(&[1 << 32, (1 << 32) + 3, 1 << 63, u64::MAX - 1])),
    }
}

/// Mostly enough, often just enough, sometimes too little.
fn space(rng: &mut Rng, rules: usize) -> usize {
    let least = least_space(rules);
    match rng.below(8) {
        0 => rng.below(least + 1),
        1..=4 => least + rng.below(3),
        _ => least + rng.below(40),
    }
}

/// A log of stretches that the rules match, broken stretches, and noise; often a newline ends it.
pub fn log(rng: &mut Rng, rules: &[Rule]) -> Vec<u8> {
    let mut log = Vec::new();
    for _ in 0..rng.below(12) {
        match rng.below(8) {
            0 => log.push(*rng.pick(ODD_BYTES)),
            1 => log.extend((0..rng.below(4)).map(|_| *rng.pick(b"abcABC_ -\n"))),
            2 => log.push(rng.byte()),
            _ if rules.is_empty() => log.push(b'a'),
            _ => {
                let rule = rng.pick(rules);
                sample(rng, &rule.tree, &mut log);
                if rng.once_in(4) {
                    log.pop();
                }
            }
        }
        log.truncate(40);
    }
    if rng.once_in(3) {
        log.extend(*rng.pick(&[&b"\n"[..], b"a\n", b"\n\n"]));
    }
    log
}

/// Bytes that the node could match, were its assertions true.
fn sample(rng: &mut Rng, node: &Node, log: &mut Vec<u8>) {
    match node {
        Node::Item(set) => {
            let members = set.members();
            if !members.is_empty() {
                log.push(*rng.pick(&members));
            }
        }
        Node::Assert(_) => {}
        Node::Sequence(parts) => parts.iter().for_each(|part| sample(rng, part, log)),
        Node::Choice(branches) => {
            let branch = rng.pick(branches);
            sample(rng, branch, log);
        }
        Node::Repeat { of, low, high } => {
            let most = high.unwrap_or(low + 2).min(low + 3);
            let copies = low + rng.below((most - low + 1) as usize) as u32;
            (0..copies.min(40)).for_each(|_| sample(rng, of, log));
        }
    }
}
