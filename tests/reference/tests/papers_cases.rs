//! The cases that the product's rules write out: the marked ones and the others, as short as there.
//! Each one is asked of the definition and of the model of the calls.

use reference::calls::{Table, NO_LIMIT};
use reference::ordered::{ordered, Moment, Pair};
use reference::refusal::TABLE_WORDS;
use reference::rule::{check, Rule};

/// End offsets by scanning and at closing, of one rule on blocks.
struct Found {
    scanning: Vec<u64>,
    closing: Vec<u64>,
}

fn by_definition(flags: u32, pattern: &[u8], blocks: &[&[u8]]) -> Found {
    let rule = check(&[], 1, flags, pattern).expect("accepted");
    let list = ordered(&[rule], &blocks.concat());
    let (scanning, closing): (Vec<Pair>, Vec<Pair>) =
        list.iter().partition(|pair| pair.moment != Moment::Closing);
    assert!(scanning.iter().all(|pair| pair.moment == Moment::After(pair.offset)));
    let offsets = |pairs: Vec<Pair>| pairs.iter().map(|p| p.offset).collect();
    Found { scanning: offsets(scanning), closing: offsets(closing) }
}

fn by_calls(flags: u32, pattern: &[u8], blocks: &[&[u8]]) -> Found {
    let mut table = Table::lent(TABLE_WORDS);
    assert_eq!(table.empty(), 0);
    table.add(1, flags, pattern).expect("accepted");
    let (number, mut stream) = table.open();
    assert_eq!(number, 0);
    let mut found = Found { scanning: Vec::new(), closing: Vec::new() };
    let (mut ids, mut offsets) = ([0; 20], [0; 20]);
    for block in blocks {
        let answer = stream.scan(&table, NO_LIMIT, block, &mut ids, &mut offsets);
        assert_eq!((answer.number, answer.taken), (0, block.len()));
        found.scanning.extend(&offsets[..answer.count]);
        stream = answer.stream;
    }
    let answer = stream.close(&table, &mut ids, &mut offsets);
    assert_eq!(answer.number, 0);
    found.closing.extend(&offsets[..answer.count]);
    found
}

fn finds(flags: u32, pattern: &str, blocks: &[&str], scanning: &[u64], closing: &[u64]) {
    let blocks: Vec<&[u8]> = blocks.iter().map(|block| block.as_bytes()).collect();
    for found in [
        by_definition(flags, pattern.as_bytes(), &blocks),
        by_calls(flags, pattern.as_bytes(), &blocks),
    ] {
        assert_eq!(found.scanning, scanning, "{pattern} by scanning");
        assert_eq!(found.closing, closing, "{pattern} at closing");
    }
}

fn answer(there: &[Rule], pattern: &str) -> (u32, usize) {
    match check(there, 9, 0, pattern.as_bytes()) {
        Ok(_) => (0, 0),
        Err(refusal) => (refusal.number, refusal.place),
    }
}

#[test]
fn dot_star_over_blocks() {
    finds(0, "foo.*bar", &["fooxyzbar", "baz", "qbar"], &[9, 16], &[]);
}

#[test]
fn all_ends_and_single_match() {
    finds(0, "ab+", &["abbb"], &[2, 3, 4], &[]);
    finds(8, "ab+", &["abbb"], &[2], &[]);
}

#[test]
fn option_inside_a_group() {
    finds(0, "(a(?i)b|c)", &["aBC"], &[2, 3], &[]);
    finds(0, "(a(?i)b|c)", &["AB"], &[], &[]);
}

#[test]
fn braces() {
    finds(0, "{,}", &["{,}"], &[3], &[]);
    finds(0, "aX{,4}", &["aXX"], &[1, 2, 3], &[]);
}

#[test]
fn the_very_end() {
    finds(0, "a\\z", &["aa"], &[], &[2]);
    finds(0, "a|a\\z", &["aa"], &[1, 2], &[]);
}

#[test]
fn before_a_last_newline() {
    finds(0, "a$", &["a\n"], &[], &[1]);
    finds(0, "a\\Z", &["a\n"], &[], &[1]);
    finds(0, "a\\z", &["a\n"], &[], &[]);
    finds(0, "a$", &["a\n", "\n"], &[], &[]);
    finds(0, "\\n$", &["\n\n"], &[], &[1, 2]);
}

#[test]
fn a_dollar_inside_a_match() {
    finds(0, "a$\\n", &["a\na\n"], &[], &[4]);
    finds(0, "a\\Z\\n", &["a\na\n"], &[], &[4]);
    finds(0, "$\\n", &["\n\n"], &[], &[2]);
    finds(0, "(?:xa$)?\\n$", &["xa\n"], &[], &[3]);
}

#[test]
fn single_match_is_the_first_delivered() {
    finds(8, "(a|a\\n)$", &["a\n"], &[], &[1]);
    finds(8, "a$|a\\n", &["a\n"], &[2], &[]);
    finds(0, "a$|a\\n", &["a\n"], &[2], &[1]);
}

#[test]
fn the_start_and_a_class() {
    finds(0, "^a", &["aa"], &[1], &[]);
    finds(0, "[]a]", &["]"], &[1], &[]);
}

#[test]
fn position_limits() {
    assert_eq!(answer(&[], "a{256}"), (0, 0));
    assert_eq!(answer(&[], "(ab){128}"), (0, 0));
    assert_eq!(answer(&[], "a{257}"), (16, 6));
    let two_hundred = check(&[], 1, 0, b"a{200}").expect("accepted");
    assert_eq!(answer(std::slice::from_ref(&two_hundred), "a{56}"), (0, 0));
    assert_eq!(answer(&[two_hundred], "a{57}"), (17, 5));
}

#[test]
fn refusals_with_places() {
    for (pattern, number, place) in [
        ("[z-a]", 9, 1),
        ("a*+", 14, 1),
        ("a)", 12, 1),
        ("(a", 12, 2),
        ("\\x{100}", 7, 0),
        ("X{,4}", 15, 5),
        ("", 15, 0),
        ("a**", 10, 2),
        ("\\Z", 15, 2),
        ("\\Z*", 10, 2),
        ("[\\Z]", 14, 1),
    ] {
        assert_eq!(answer(&[], pattern), (number, place), "{pattern}");
    }
}

#[test]
fn nested_groups() {
    let nested = |n: usize| "(".repeat(n) + "a" + &")".repeat(n);
    assert_eq!(answer(&[], &nested(16)), (0, 0));
    assert_eq!(answer(&[], &nested(17)), (13, 16));
}

#[test]
fn the_program_writes() {
    let out = reference::program::run(b"7 0 foo.*bar\n8 0 a**\n", b"fooxyzbarbar");
    assert_eq!(String::from_utf8(out).unwrap(), "rule 2 refused 10 at 2\n7 9\n7 12\nend 12\n");
}

#[test]
fn counts_over_nothing_are_quick_and_right() {
    finds(0, "((^){65535}){65535}a", &["aa"], &[1], &[]);
    finds(0, "a(($){65535}){65535}", &["aa"], &[], &[2]);
    assert_eq!(answer(&[], "((((a{65535}){65535}){65535}){65535}){65535}"), (16, 44));
    assert_eq!(answer(&[], "((a{65535}){65535}){0}b"), (0, 0));
}
