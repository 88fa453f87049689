//! The definition's own answers to a case without calls: the additions, the ordered list with its
//! moments and the busy figures, from the rules and the bytes alone.

use corpus::{Case, Line, Report};
use reference::ordered::{ordered, Moment, Pair};
use reference::rule::{check_within, Rule};
use reference::ways::busy;
use reference::windows::Windows;

use crate::scenario::Addition;

/// A pair of the ordered list as the corpus writes it.
pub fn report(pair: &Pair) -> Report {
    let moment = match pair.moment {
        Moment::After(taken) => Some(taken),
        Moment::Closing => None,
    };
    Report { moment, offset: pair.offset, id: pair.id, start: pair.start }
}

/// The windows that a line of the corpus writes.
pub fn windows(written: &corpus::Windows) -> Windows {
    Windows {
        smallest_end: written.smallest_end.unwrap_or(Windows::NONE.smallest_end),
        largest_end: written.largest_end.unwrap_or(Windows::NONE.largest_end),
        smallest_length: written.smallest_length.unwrap_or(Windows::NONE.smallest_length),
    }
}

/// The same the other way round.
pub fn written(windows: &Windows) -> corpus::Windows {
    let other_than = |window: u64, none: u64| (window != none).then_some(window);
    let none = Windows::NONE;
    corpus::Windows {
        smallest_end: other_than(windows.smallest_end, none.smallest_end),
        largest_end: other_than(windows.largest_end, none.largest_end),
        smallest_length: other_than(windows.smallest_length, none.smallest_length),
    }
}

/// The rules that these additions leave in an emptied table, and each addition's number and place.
pub fn add_all(additions: &[Addition]) -> (Vec<Rule>, Vec<(u32, usize)>) {
    let mut rules = Vec::new();
    let mut answers = Vec::new();
    for Addition { id, flags, windows, pattern } in additions {
        match check_within(&rules, *id, *flags, *windows, pattern) {
            Ok(rule) => {
                rules.push(rule);
                answers.push((0, 0));
            }
            Err(refusal) => answers.push((refusal.number, refusal.place)),
        }
    }
    (rules, answers)
}

/// Compares the definition with what a case without calls writes.
pub fn check_case(case: &Case) -> Result<(), String> {
    let mut rules: Vec<Rule> = Vec::new();
    for line in &case.lines {
        let Line::Rule { id, flags, pattern, number, place, windows: within } = line else {
            continue;
        };
        let answer = match check_within(&rules, *id, *flags, windows(within), pattern) {
            Ok(rule) => {
                rules.push(rule);
                (0, 0)
            }
            Err(refusal) => (refusal.number, refusal.place),
        };
        if answer != (*number, *place) {
            return Err(format!("{line}: the definition gives {answer:?}"));
        }
    }
    let stream: Vec<u8> = case.blocks().concat();
    let list: Vec<Report> = ordered(&rules, &stream).iter().map(report).collect();
    if list != case.reports() {
        return Err(format!("reports: the definition gives {list:?}"));
    }
    let figures: Vec<usize> = (0..=stream.len()).map(|n| busy(&rules, &stream[..n])).collect();
    match case.busy() {
        Some(written) if written != figures => {
            Err(format!("busy: the definition gives {figures:?}"))
        }
        _ => Ok(()),
    }
}
