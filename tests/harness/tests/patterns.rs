//! The random patterns hold enough of what is easily missed: named classes, quotes and comments,
//! blanks in braces, raw control bytes, long patterns, assertions of the last line, line mode and word
//! edges, in all their corners, accepted and refused.

use std::collections::BTreeMap;

use harness::patterns::pattern;
use harness::rng::Rng;
use reference::rule::check;
use reference::token::is_control;

fn has(pattern: &[u8], part: &str) -> bool {
    pattern.windows(part.len()).any(|window| window == part.as_bytes())
}

/// Does a comment end right before this index? A `(?#` after which the first `)` is the last byte.
fn after_comment(before: &[u8]) -> bool {
    let inner = before.strip_suffix(b")").unwrap_or_default();
    let text = inner.rsplit(|&byte| byte == b')').next().unwrap_or_default();
    has(text, "(?#")
}

/// What this pattern, accepted or refused with a number at a place, is an example of.
fn kinds(pattern: &[u8], number: u32, place: usize) -> Vec<&'static str> {
    let (before, from) = pattern.split_at(place);
    let after_nothing = before.ends_with(b"\\E") || after_comment(before);
    let kind = |name, is| if is { Some(name) } else { None };
    let long = kind("place beyond 255", place > 255);
    let found = match number {
        0 => vec![
            kind("name", has(pattern, "[:") && has(pattern, "t:]")),
            kind("negated name", has(pattern, "[:^")),
            kind("name of one case", has(pattern, "upper:]") || has(pattern, "lower:]")),
            kind("quote", has(pattern, "\\Q")),
            kind("quoted special byte", has(pattern, "\\Q*") || has(pattern, "\\Q(")),
            kind("quote then hyphen", has(pattern, "\\E-")),
            kind("hyphen then quote", has(pattern, "-\\Q")),
            kind("hyphen then lone end", has(pattern, "-\\E")),
            kind("class that starts with nothing", has(pattern, "[\\E") || has(pattern, "[\\Q\\E")),
            kind("negation after nothing", has(pattern, "[\\E^") || has(pattern, "[\\Q\\E^")),
            kind("quote then quantifier", has(pattern, "\\E*") || has(pattern, "\\E{2}")),
            kind("comment", has(pattern, "(?#")),
            kind(
                "comment then quantifier",
                (1..pattern.len())
                    .any(|at| after_comment(&pattern[..at]) && b"*+?".contains(&pattern[at])),
            ),
            kind("blank in a quantifier", has(pattern, "{ 2}") || has(pattern, "{2 }")),
            kind("blank before a comma", has(pattern, "1 ,2}") || has(pattern, "0 ,2 }")),
            kind("blank after a comma", has(pattern, "{1, 2}") || has(pattern, "{2, }")),
            kind("blank without a lower number", has(pattern, "{ ,2}") || has(pattern, "{, 3 }")),
            kind("blank in an escape", has(pattern, "\\x{ 61}") || has(pattern, "\\o{ 7 }")),
            kind("blanks alone", has(pattern, "{ }") || has(pattern, "{ , }")),
            kind("blank between digits", has(pattern, "{2 3}")),
            kind("over 256 bytes", pattern.len() > 256),
            kind("last line by its letter", has(pattern, "\\Z")),
            kind("last line then newline", has(pattern, "$\\n") || has(pattern, "\\Z\\s")),
            kind("newline then last line", has(pattern, "\\n$")),
            kind("word edge", has(pattern, "\\b") && !has(pattern, "[")),
            kind("no word edge", has(pattern, "\\B")),
            kind("either of them", has(pattern, "(?:\\b|\\B)")),
            kind("word edge then last line", has(pattern, "\\b$")),
            kind("line mode on", has(pattern, "(?m)") || has(pattern, "(?im-s)")),
            kind("line mode off", has(pattern, "(?-m)") || has(pattern, "(?s-m)")),
            kind("group in line mode", has(pattern, "(?m:")),
            kind("line start", has(pattern, "(?m)^") || has(pattern, "\\n^")),
            kind("line end", has(pattern, "(?m)$")),
            kind("byte 8 in a class", has(pattern, "[\\b") || has(pattern, "a\\b]")),
        ],
        5 => vec![kind("over 1,024 bytes", true)],
        6 => vec![
            kind(
                "blank and no number",
                from.starts_with(b"\\x{ }") || from.starts_with(b"\\x{4 1"),
            ),
            kind("6 before 23", from.starts_with(b"\\c\t") || from.starts_with(b"\\x{\t}")),
        ],
        7 => vec![kind("7 before 23", from.starts_with(b"\\o{400\t}"))],
        8 => vec![kind("open quote in a class", has(pattern, "[\\Q"))],
        9 => vec![
            kind("name at the start of a range", from.starts_with(b"[:")),
            kind("name at the end of a range", from[1..].starts_with(b"-[:")),
            kind("quoted end of a falling range", before.ends_with(b"\\Q")),
            kind("9 before 23", from.starts_with(b"a-\t") || from.starts_with(b"\\d-\t")),
        ],
        10 => vec![
            kind(
                "quantifier after the last line",
                before.ends_with(b"\\Z") || before.ends_with(b"$"),
            ),
            kind("quantifier after a word edge", before.ends_with(b"\\b")),
            kind("quantifier after no word edge", before.ends_with(b"\\B")),
            kind("quantifier after line mode", before.ends_with(b"(?m)")),
            kind("quantifier after nothing", after_nothing),
            kind("lone mark after nothing", after_nothing && b"?+".contains(&from[0])),
            kind("group that starts with nothing", before.ends_with(b"(\\E")),
            kind("quantifier with a blank", from.starts_with(b"{ ")),
            kind("10 before 23", from.starts_with(b"{\t2}") || from.starts_with(b"{2,\t3}")),
        ],
        11 => vec![
            kind("number with a blank", from.starts_with(b"{ ")),
            kind("11 before 23", from.starts_with(b"{3,\t1}") || from.starts_with(b"{\t65536}")),
        ],
        12 => vec![kind("open comment", place == pattern.len() && has(pattern, "(?#"))],
        14 => vec![
            kind("last line in a class", from.starts_with(b"\\Z")),
            kind("no word edge in a class", from.starts_with(b"\\B")),
            kind("no word edge at the end of a range", from.starts_with(b"\\b-\\B")),
            kind("other letter after line mode", from.starts_with(b"(?mx)")),
            kind("no name of the list", from.starts_with(b"[:")),
            kind("other bracket", from.starts_with(b"[.") || from.starts_with(b"[=")),
            kind("14 before 23", from.starts_with(b"{2\t}+") || from.starts_with(b"(?i\t)")),
        ],
        23 => vec![
            kind("raw byte by itself", is_control(from[0]) && !before.ends_with(b"\\Q")),
            kind("raw byte in a quote", is_control(from[0]) && before.ends_with(b"\\Q")),
            kind("raw byte in an escape", from[0] == b'\\'),
            kind("raw byte in a quantifier", from[0] == b'{'),
            kind("raw byte in a range", from.len() > 2 && !is_control(from[0]) && from[1] == b'-'),
            kind("raw byte in a comment", from.starts_with(b"(?#")),
            kind("raw byte in an open comment", from.starts_with(b"(?#") && !from.contains(&b')')),
        ],
        _ => vec![],
    };
    found.into_iter().chain([long]).flatten().collect()
}

#[test]
fn every_corner_comes_often() {
    let mut count: BTreeMap<&str, usize> = BTreeMap::new();
    for index in 0..100_000 {
        let pattern = pattern(&mut Rng::for_case(1, index));
        let (number, place) = match check(&[], 1, 0, &pattern) {
            Ok(_) => (0, 0),
            Err(refusal) => (refusal.number, refusal.place),
        };
        for kind in kinds(&pattern, number, place) {
            *count.entry(kind).or_default() += 1;
        }
    }
    assert_eq!(count.len(), 70, "{count:?}");
    assert!(count.values().all(|&n| n >= 100), "{count:?}");
}
