//! Busy figures worked by hand, asked of the definition (ways through the written-out form) and of
//! the state of the model.

use reference::calls::{Table, NO_LIMIT};
use reference::refusal::TABLE_WORDS;
use reference::rule::check;
use reference::ways::{busy, live_positions};

/// The figure after 0, 1, .. bytes.
fn figures(flags: u32, pattern: &str, log: &str, wanted: &[usize]) {
    let rule = check(&[], 1, flags, pattern.as_bytes()).expect("accepted");
    let rules = [rule];
    let log = log.as_bytes();
    let defined: Vec<usize> = (0..=log.len()).map(|n| busy(&rules, &log[..n])).collect();
    assert_eq!(defined, wanted, "{pattern} by ways");
    let mut table = Table::lent(TABLE_WORDS);
    table.empty();
    table.add(1, flags, pattern.as_bytes()).expect("accepted");
    let (_, mut stream) = table.open();
    let mut shown = vec![stream.busy()];
    for byte in log {
        stream = stream.scan(&table, NO_LIMIT, &[*byte], &mut [0; 2], &mut [0; 2]).stream;
        shown.push(stream.busy());
    }
    assert_eq!(shown, wanted, "{pattern} by the state");
    let closed = stream.clone().close(&table, &mut [0; 2], &mut [0; 2]);
    assert_eq!(closed.number, 0);
    assert_eq!(closed.stream.busy(), stream.busy(), "closing leaves the figure");
}

#[test]
fn optional_copies_are_nested() {
    figures(0, "ba{0,2}", "ba", &[0, 1, 1]);
    figures(0, "ba{0,2}", "baa", &[0, 1, 1, 1]);
    figures(0, "(a?){0,2}b", "aab", &[0, 2, 2, 1]);
}

#[test]
fn open_repeat_has_as_many_copies_as_its_number() {
    figures(0, "a{3,}", "aaaa", &[0, 1, 2, 3, 3]);
    figures(0, "a{1,}", "aaaa", &[0, 1, 1, 1, 1]);
}

#[test]
fn a_rule_that_has_reported_stays_live() {
    figures(8, "ab+", "abbb", &[0, 1, 1, 1, 1]);
}

#[test]
fn equal_positions_are_counted_apart() {
    figures(0, "(a|a)", "a", &[0, 2]);
    figures(0, "a{2,4}", "aaaaa", &[0, 1, 2, 3, 4, 4]);
}

#[test]
fn what_needs_the_end_first_is_never_live() {
    figures(0, "a$b", "ab", &[0, 1, 0]);
    figures(0, "a\\zb|c", "abc", &[0, 1, 0, 1]);
}

#[test]
fn what_waits_for_the_last_line_is_not_live() {
    figures(0, "a$\\n", "a\na\n", &[0, 1, 0, 1, 0]);
    figures(0, "$\\n", "\n\n", &[0, 0, 0]);
    figures(0, "a\\Z\\n|a\\n", "a\n", &[0, 2, 1]);
    figures(0, "(?:xa$)?\\n$", "xa\n", &[0, 1, 1, 1]);
}

#[test]
fn copies_of_a_group() {
    figures(0, "(ab){2}", "abab", &[0, 1, 1, 2, 2]);
    let rule = check(&[], 1, 0, b"(ab){2}").expect("accepted");
    assert_eq!(live_positions(&rule, b"aba"), [0, 2]);
}
