//! Line mode and word edges, worked by hand: what is read, and when pairs fall. Each case is asked of
//! the definition and, byte by byte, of the model of the calls.

mod readings;

use readings::{equal, members, refused, rule};
use reference::calls::{Table, NO_LIMIT};
use reference::ordered::{ordered, Moment};
use reference::refusal::TABLE_WORDS;
use reference::rule::check;
use reference::ways::busy;

const LINE_MODE: u32 = 4;
const SINGLE_MATCH: u32 = 8;
/// The moment of a closing in the lists below.
const CLOSING: u64 = 0;

/// Moments and end offsets, by definition.
fn by_definition(flags: u32, pattern: &str, log: &[u8]) -> Vec<(u64, u64)> {
    let pairs = ordered(&[rule(flags, pattern)], log);
    let moment = |moment| if let Moment::After(taken) = moment { taken } else { CLOSING };
    pairs.iter().map(|pair| (moment(pair.moment), pair.offset)).collect()
}

/// The same by calls of one byte each.
fn by_calls(flags: u32, pattern: &str, log: &[u8]) -> Vec<(u64, u64)> {
    let mut table = Table::lent(TABLE_WORDS);
    table.empty();
    table.add(1, flags, pattern.as_bytes()).expect("accepted");
    let (_, mut stream) = table.open();
    let (mut ids, mut offsets) = ([0; 2], [0; 2]);
    let mut pairs = Vec::new();
    for (index, byte) in log.iter().enumerate() {
        let answer = stream.scan(&table, NO_LIMIT, &[*byte], &mut ids, &mut offsets);
        assert_eq!((answer.number, answer.taken), (0, 1));
        pairs.extend(offsets[..answer.count].iter().map(|&end| (index as u64 + 1, end)));
        stream = answer.stream;
    }
    let answer = stream.close(&table, &mut ids, &mut offsets);
    pairs.extend(offsets[..answer.count].iter().map(|&end| (CLOSING, end)));
    pairs
}

fn finds(flags: u32, pattern: &str, log: &str, pairs: &[(u64, u64)]) {
    let log = log.as_bytes();
    assert_eq!(by_definition(flags, pattern, log), pairs, "{pattern} on {log:?}");
    assert_eq!(by_calls(flags, pattern, log), pairs, "{pattern} on {log:?} by calls");
}

#[test]
fn an_edge_after_the_last_byte_waits_for_the_next() {
    finds(0, "a\\b", "a-", &[(2, 1)]);
    finds(0, "a\\b", "ab", &[]);
    finds(0, "a\\b", "a", &[(CLOSING, 1)]);
    finds(0, "a\\b", "a\n", &[(2, 1)]);
    finds(0, "a\\b", "aa_", &[]);
    finds(0, "a\\B", "ab", &[(2, 1)]);
    finds(0, "a\\B", "a-", &[]);
    finds(0, "a\\B", "a", &[]);
    finds(0, "-\\B", "--a", &[(2, 1)]);
    finds(0, "-\\B", "--", &[(2, 1), (CLOSING, 2)]);
    finds(0, "-\\b", "--a", &[(3, 2)]);
}

#[test]
fn an_edge_before_a_byte_is_known_with_it() {
    finds(0, "\\ba", "a ba-a", &[(1, 1), (6, 6)]);
    finds(0, "\\Ba", "a ba-a", &[(4, 4)]);
    finds(0, "\\B-", "-", &[(1, 1)]);
    finds(0, "\\bx", "x", &[(1, 1)]);
    finds(0, "\\Bx", "xx", &[(2, 2)]);
    finds(0, "a\\bb", "ab", &[]);
    finds(0, "a\\b-\\bb", "a-b", &[(3, 3)]);
}

#[test]
fn words_are_ascii_letters_digits_and_the_underscore() {
    for (byte, is_word) in
        [("_", true), ("0", true), ("Z", true), ("z", true), ("@", false), ("\u{0}", false)]
    {
        let log = format!("{byte}-");
        let edge: &[(u64, u64)] = if is_word { &[(2, 1)] } else { &[] };
        finds(0, "[^-]\\b", &log, edge);
    }
    assert_eq!(by_definition(0, "[^-]\\b", b"\xe9-"), []);
}

#[test]
fn each_assertion_is_judged_by_itself() {
    finds(0, "a(?:\\b|\\B)", "ab", &[(2, 1)]);
    finds(0, "a(?:\\b|\\B)", "a-", &[(2, 1)]);
    finds(0, "a(?:\\b|\\B)", "a", &[(CLOSING, 1)]);
    finds(0, "ba\\b|a\\B", "ba-", &[(3, 2)]);
    finds(0, "ba\\b|a\\B", "bab", &[(3, 2)]);
    finds(0, "ba\\b|a\\B", "ba", &[(CLOSING, 2)]);
    finds(0, "a|a\\b", "a-", &[(1, 1)]);
    finds(0, "a\\b\\B", "a-", &[]);
}

#[test]
fn lines_start_after_a_newline_with_a_byte_behind_it() {
    finds(LINE_MODE, "^a", "a\na\n\nab", &[(1, 1), (3, 3), (6, 6)]);
    finds(LINE_MODE, "\\n^", "\n\n", &[(2, 1)]);
    finds(LINE_MODE, "\\n^", "\n", &[]);
    finds(LINE_MODE, "^\\n", "\n\n", &[(1, 1), (2, 2)]);
    finds(LINE_MODE, "\\Aa", "a\na", &[(1, 1)]);
    finds(0, "^a", "a\na", &[(1, 1)]);
}

#[test]
fn lines_end_before_a_newline_and_at_the_end() {
    finds(LINE_MODE, "a$", "a\na", &[(2, 1), (CLOSING, 3)]);
    finds(LINE_MODE, "a$", "a\n", &[(2, 1)]);
    finds(LINE_MODE, "\\n$", "\n\n", &[(2, 1), (CLOSING, 2)]);
    finds(LINE_MODE, "a$\\n", "a\na\n", &[(2, 2), (4, 4)]);
    finds(LINE_MODE, "a\\Z", "a\na\n", &[(CLOSING, 3)]);
    finds(LINE_MODE, "a\\z", "a\na", &[(CLOSING, 3)]);
    finds(LINE_MODE, "a$\\n^b", "a\nb", &[(3, 3)]);
}

#[test]
fn some_wait_for_the_next_byte_and_then_for_the_end() {
    finds(0, "a\\b$", "a\n", &[(CLOSING, 1)]);
    finds(0, "a\\b$", "a", &[(CLOSING, 1)]);
    finds(0, "a\\B$", "a\n", &[]);
    finds(LINE_MODE, "a\\b$", "a\n", &[(2, 1)]);
    finds(0, "a$|a\\b", "a\n", &[(2, 1)]);
    finds(0, "a\\z|a\\b", "a", &[(CLOSING, 1)]);
}

#[test]
fn single_match_is_the_first_delivered() {
    finds(SINGLE_MATCH, "a\\b|a-", "a-", &[(2, 1)]);
    finds(0, "a\\b|a-", "a-", &[(2, 1), (2, 2)]);
    finds(SINGLE_MATCH, "a\\b|-", "a-a-", &[(2, 1)]);
    finds(SINGLE_MATCH | LINE_MODE, "a$|\\n", "a\n\n", &[(2, 1)]);
    finds(SINGLE_MATCH, "(?:a|a\\n)\\b", "a\nb", &[(2, 1)]);
}

#[test]
fn the_option_lasts_as_any_other() {
    finds(0, "(?m)^a", "\na", &[(2, 2)]);
    finds(LINE_MODE, "(?-m)^a", "\na", &[]);
    finds(0, "(?m:^a)|^b", "\nb\na", &[(4, 4)]);
    finds(0, "((?m)^a|^b)", "\nb\na", &[(2, 2), (4, 4)]);
    finds(0, "((?m)x|^a)|^b", "\nb\na", &[(4, 4)]);
    equal(&[("(?m)^a$", "(?ms)^a$"), ("(?m-)^a", "(?m)^a"), ("(?m-m)^a$", "^a$")]);
    assert_eq!(
        format!("{:?}", rule(LINE_MODE, "^a$").tree),
        format!("{:?}", rule(0, "(?m)^a$").tree)
    );
}

#[test]
fn the_subset() {
    refused(&[
        ("\\b", 15, 2),
        ("\\B", 15, 2),
        ("(?m)^$", 15, 6),
        ("\\b*", 10, 2),
        ("a\\B{2}", 10, 3),
        ("(?m)^*", 10, 5),
        ("(?m)a$+", 10, 6),
        ("(?m)*", 10, 4),
        ("[\\B]", 14, 1),
        ("[a-\\B]", 14, 1),
        ("(?mx)a", 14, 0),
        ("(?m", 14, 0),
        ("\\b{2}+", 10, 2),
        ("\\bb\\y", 14, 3),
    ]);
    assert_eq!(members(0, "[\\b]"), [8]);
    assert_eq!(rule(0, "\\b(\\b){9}a\\B").positions, 1);
    for flags in [4, 5, 6, 7, 12, 13, 14, 15, 256, 263] {
        rule(flags, "a");
    }
    let number = |flags| check(&[], 1, flags, b"a").map_err(|refusal| refusal.number).err();
    for flags in [16, 20, 32, 64, 128, 272, 512, 0x8000_0000] {
        assert_eq!(number(flags), Some(2));
    }
    assert_eq!(number(256 + SINGLE_MATCH), Some(24));
}

#[test]
fn what_waits_for_the_next_byte_is_not_busy_before_it() {
    let figures = |flags: u32, pattern: &str, log: &[u8]| -> Vec<usize> {
        let rules = [rule(flags, pattern)];
        (0..=log.len()).map(|n| busy(&rules, &log[..n])).collect()
    };
    assert_eq!(figures(0, "a\\b-", b"a-a"), [0, 1, 1, 1]);
    assert_eq!(figures(0, "a\\bb", b"ab"), [0, 1, 0]);
    assert_eq!(figures(0, "\\b[ab]", b"ab-b"), [0, 1, 0, 0, 1]);
    assert_eq!(figures(LINE_MODE, "a$\\n^b", b"a\nb"), [0, 1, 1, 1]);
}
