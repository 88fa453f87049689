//! The command against the second matcher's model of the program, on random rules files and logs:
//! in the plain mode the same bytes, with `--check` the same refusals, with `--show` the same hits,
//! each with the line that it lies in, and marked from its start where the rule reports it.

use std::fs;
use std::io::Write;
use std::path::{Path, PathBuf};
use std::process::{Command, Output, Stdio};

use reference::ordered::{ordered, Pair};
use reference::rule::{check, Rule};

/// So many rules files and logs.
const CASES: u64 = 150;

/// Rule lines without their ids, good and faulty.
const RULES: [&str; 29] = [
    "256 ab+",
    "258 a.*b",
    "257 b|AB|\\nab",
    "260 a.?$|b",
    "264 a",
    "0 a",
    "0 ab+",
    "8 ab+",
    "0 a.*b",
    "2 a.b",
    "4 ^b",
    "4 a$",
    "0 b$",
    "1 AB",
    "0 a\\b",
    "0 \\Bb",
    "0 [ab]{2}",
    "0 (?#named)a b",
    "0 \\n",
    "0 a\\z",
    "0 a**",
    "0 [z-a]",
    "0 (a",
    "0 a\t",
    "16 a",
    "0 a*",
    "0",
    "",
    "x",
];

/// A small random generator (splitmix64).
struct Rng(u64);

impl Rng {
    fn below(&mut self, bound: usize) -> usize {
        self.0 = self.0.wrapping_add(0x9e37_79b9_7f4a_7c15);
        let mut z = self.0;
        z = (z ^ (z >> 30)).wrapping_mul(0xbf58_476d_1ce4_e5b9);
        z = (z ^ (z >> 27)).wrapping_mul(0x94d0_49bb_1331_11eb);
        ((z ^ (z >> 31)) % bound as u64) as usize
    }

    fn rules(&mut self) -> String {
        let mut text = String::new();
        for line in 0..self.below(6) {
            let id = if self.below(5) == 0 { 1 } else { line + 1 };
            text.push_str(&format!("{id} {}", RULES[self.below(RULES.len())]));
            text.push_str(["\n", "\n", "\n", "\r\n"][self.below(4)]);
        }
        let whole = text.len() - usize::from(self.below(4) == 0).min(text.len());
        text[..whole].to_string()
    }

    /// Lines are short enough to be shown whole.
    fn log(&mut self) -> Vec<u8> {
        let mut log = vec![];
        while log.len() < 120 && self.below(100) > 0 {
            let byte = b"aaabbbAB \n\xff"[self.below(11)];
            log.push(if log.len() % 25 == 24 { b'\n' } else { byte });
        }
        log
    }
}

fn program() -> PathBuf {
    Path::new(env!("CARGO_MANIFEST_DIR")).join("../../target/bin/watcher")
}

/// The command on the rules of a folder and a log on standard input.
fn run(words: &[&str], folder: &Path, log: &[u8]) -> Output {
    let mut child = Command::new(env!("CARGO_BIN_EXE_watch"))
        .args(words)
        .arg(folder)
        .env("WATCH_PROGRAM", program())
        .stdin(Stdio::piped())
        .stdout(Stdio::piped())
        .stderr(Stdio::piped())
        .spawn()
        .expect("the command starts");
    // A command that reads rules only ends before it has taken the log.
    let _ = child.stdin.take().expect("a pipe").write_all(log);
    child.wait_with_output().expect("the command ends")
}

/// The lines of the program's output of one kind.
fn lines(out: &str, kept: impl Fn(&str) -> bool) -> Vec<&str> {
    out.lines().filter(|line| kept(line)).collect()
}

/// The rules of a file that are accepted, by rising id.
fn accepted(text: &str) -> Vec<Rule> {
    let mut rules = vec![];
    for line in text.split('\n') {
        let mut parts = line.splitn(3, ' ');
        let mut number = || parts.next().and_then(|word| word.parse().ok());
        let (Some(id), Some(flags)) = (number(), number()) else { continue };
        let Some(pattern) = parts.next() else { continue };
        rules.extend(check(&rules, id, flags, pattern.as_bytes()));
    }
    rules.sort_by_key(|rule: &Rule| rule.id);
    rules
}

/// Bytes as they are shown.
fn text(bytes: &[u8]) -> String {
    let escape = |&byte: &u8| match byte {
        0xff => "\\xFF".to_string(),
        _ => char::from(byte).to_string(),
    };
    bytes.iter().map(escape).collect()
}

/// What `--show` must say of a hit, by the log alone: its head; its line, with a mark for a newline
/// at its end; and the marks under its last byte, or under what the line has of it if its start is
/// known.
fn shown(log: &[u8], &Pair { id, offset, start, .. }: &Pair, leftmost: bool) -> [String; 3] {
    let end = offset as usize;
    let before = &log[..end - 1];
    let first = before.iter().rposition(|&byte| byte == b'\n').map_or(0, |at| at + 1);
    let newlines = before.iter().filter(|&&byte| byte == b'\n').count();
    let length = log[first..].iter().position(|&byte| byte == b'\n').unwrap_or(log.len() - first);
    let from = if leftmost { (start as usize).max(first) } else { end - 1 };
    let known = if leftmost { format!("start {start}  ") } else { String::new() };
    let (line, column) = (newlines + 1, end - first);
    let head = format!("<stdin>:{line}:{column}  rule {id}  {known}end {end}  ");
    let newline = if log[end - 1] == b'\n' { "↵" } else { "" };
    let matched = text(&log[from..end - newline.len().min(1)]).len() + newline.len().min(1);
    let tail = if leftmost { "~".repeat(matched - 1) } else { String::new() };
    let marks = format!("{}{tail}^", " ".repeat(text(&log[first..from]).len()));
    [head, format!("    {}{newline}", text(&log[first..first + length])), format!("    {marks}")]
}

#[test]
fn the_command_agrees_with_the_model() {
    let folder = std::env::temp_dir().join(format!("watch-second-{}", std::process::id()));
    fs::create_dir_all(&folder).expect("a folder");
    let mut starts = 0;
    for case in 0..CASES {
        let mut rng = Rng(case);
        let (rules, log) = (rng.rules(), rng.log());
        fs::write(folder.join("rules.txt"), &rules).expect("the rules are written");
        let wanted = reference::program::run(rules.as_bytes(), &log);
        let told = format!("case {case}: {rules:?} on {:?}", String::from_utf8_lossy(&log));
        let plain = run(&[], &folder, &log);
        assert_eq!(plain.stdout, wanted, "{told}");
        let wanted = String::from_utf8(wanted).expect("the model writes text");
        let hits = lines(&wanted, |line| line.starts_with(|c: char| c.is_ascii_digit()));
        let refused = lines(&wanted, |line| line.starts_with("rule "));
        assert_eq!(plain.status.code(), Some(i32::from(hits.is_empty())), "{told}");
        let in_words = String::from_utf8_lossy(&plain.stderr).matches(": refused ").count();
        assert_eq!(in_words, refused.len(), "{told}");

        let check = run(&["--check"], &folder, b"");
        let written = String::from_utf8(check.stdout).expect("text");
        assert_eq!(lines(&written, |_| true), refused, "{told}");
        assert_eq!(check.status.code(), Some(i32::from(!refused.is_empty())), "{told}");

        let show = run(&["--show"], &folder, &log);
        let written = String::from_utf8(show.stdout).expect("text");
        let mut rest = written.lines();
        let watched = accepted(&rules);
        let pairs = ordered(&watched, &log);
        assert_eq!(pairs.len(), hits.len(), "{told}");
        for (pair, hit) in pairs.iter().zip(&hits) {
            assert_eq!(format!("{} {}", pair.id, pair.offset), *hit, "{told}");
            let rule = watched.iter().find(|rule| rule.id == pair.id).expect("its rule");
            let [head, line, marks] = shown(&log, pair, rule.leftmost_start());
            assert!(rest.next().unwrap_or_default().starts_with(&head), "{told}: {head}");
            assert_eq!(rest.next(), Some(&line[..]), "{told}");
            assert_eq!(rest.next(), Some(&marks[..]), "{told}");
            starts += u64::from(rule.leftmost_start());
        }
        let count = format!("{} hit", hits.len());
        assert!(rest.next().unwrap_or_default().starts_with(&count), "{told}");
        assert_eq!(show.status.code(), plain.status.code(), "{told}");
    }
    assert!(starts > 500, "only {starts} hits have a start");
    fs::remove_dir_all(&folder).expect("the folder goes");
}
