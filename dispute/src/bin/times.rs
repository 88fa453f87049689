//! How long the plain matcher takes on a log of 1,024 bytes: ordinary patterns, the largest ones, and
//! those that are made to be slow. Prints a table with the best of ten calls, each with its reading.

use std::time::{Duration, Instant};

use watcher::{plain, Flags, Windows, PLAIN_LOG};

const CALLS: usize = 10;

fn main() {
    let a = vec![b'a'; PLAIN_LOG];
    let mixed: Vec<u8> = b"a-b\n".iter().copied().cycle().take(PLAIN_LOG).collect();
    let text: Vec<u8> = b"12:03 foo tension=412 bar state=slack\n"
        .iter()
        .copied()
        .cycle()
        .take(PLAIN_LOG)
        .collect();
    let nested = |inner: &str, each: &str, levels: usize| {
        let mut pattern = inner.to_string();
        for _ in 0..levels {
            pattern = format!("({pattern}){each}");
        }
        pattern
    };
    let rows: Vec<(&str, String, &[u8])> = vec![
        ("foo.*bar", "foo.*bar".into(), &text),
        ("state=slack", "state=slack".into(), &text),
        ("(?i)tension=[4-9]\\d\\d", "(?i)tension=[4-9]\\d\\d".into(), &text),
        ("a{256}", "a{256}".into(), &a),
        ("(ab){128}", "(ab){128}".into(), &a),
        ("(a{2,}){128}", "(a{2,}){128}".into(), &a),
        ("(a?){255}a", "(a?){255}a".into(), &a),
        ("((a?){16}){15}a", "((a?){16}){15}a".into(), &a),
        ("((a+b|a)+c|a)+", "((a+b|a)+c|a)+".into(), &a),
        ("((^){65535}){65535}a", "((^){65535}){65535}a".into(), &a),
        ("((\\ba|\\Ba)+(\\ba|\\Ba)*){60}", "((\\ba|\\Ba)+(\\ba|\\Ba)*){60}".into(), &mixed),
        ("(^ x1015, a){256}", format!("({}a){{256}}", "^".repeat(1015)), &a),
        ("(\\B x507, a){256}", format!("({}a){{256}}", "\\B".repeat(507)), &mixed),
        ("x(| x1013, a){255}", format!("x({}a){{255}}", "|".repeat(1013)), &a),
        ("(a x1018){0}b", format!("({}){{0}}b", "a".repeat(1018)), &mixed),
        ("(15 nested pluses){256}", format!("({}){{256}}", nested("a", "+", 15)), &a),
        ("15 nested a?)*, {240}", format!("({}){{15}}a", nested("a?", "*a?", 15)), &a),
        ("15 nested )+a, {15}", format!("({}){{15}}", nested("a", "+a", 15)), &a),
        ("a{240} under 15 )+a", nested("a{240}", "+a", 15), &a),
        ("8 nested {2,}", nested("a", "{2,}", 8), &a),
    ];
    println!("{:>9} {:>8}  pattern", "ms", "reports");
    for (name, pattern, log) in rows {
        let mut best = Duration::MAX;
        let mut outcome = String::new();
        for _ in 0..CALLS {
            let mut reports = 0;
            let start = Instant::now();
            let answer =
                plain(pattern.as_bytes(), Flags::NONE, Windows::NONE, log, |_| reports += 1);
            best = best.min(start.elapsed());
            outcome = answer
                .map_or_else(|error| format!("no {}", error.number()), |()| reports.to_string());
        }
        println!("{:>9.3} {outcome:>8}  {name}", best.as_secs_f64() * 1000.0);
    }
}
