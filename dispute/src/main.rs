//! Settles a dispute: the rules of a file and a log of at most 1,024 bytes are given to both
//! matchers of the library, to the table with its scans and to the plain one. Each rule's two lists
//! are shown side by side, with the starts that the rule reports and the bytes that matched; the
//! last line says whether they agree.

use std::process::ExitCode;

use watch::bytes::of_pattern;
use watch::rules::{lines, parts, Line};
use watcher::{plain, Error, Flags, Match, Stream, Table, Windows, NO_LIMIT, PLAIN_LOG};

/// How many bytes of a match are shown.
const SHOWN: usize = 40;

/// The reports of one matcher, or why it refused the rule. The starts are 0 for a rule that reports
/// none.
type Reports = Result<Vec<Match>, Error>;

fn main() -> ExitCode {
    let words: Vec<String> = std::env::args().skip(1).collect();
    let [rules, log] = &words[..] else {
        eprintln!("usage: dispute RULES LOG");
        return ExitCode::from(2);
    };
    match (std::fs::read(rules), std::fs::read(log)) {
        (Ok(rules), Ok(log)) => settle(&rules, &log),
        (Err(error), _) => problem(rules, &error.to_string()),
        (_, Err(error)) => problem(log, &error.to_string()),
    }
}

fn problem(what: &str, why: &str) -> ExitCode {
    eprintln!("dispute: {what}: {why}");
    ExitCode::from(2)
}

fn settle(rules: &[u8], log: &[u8]) -> ExitCode {
    if log.len() > PLAIN_LOG {
        return problem("the log", "is longer than 1,024 bytes; cut out the disputed part");
    }
    let mut differing = 0;
    let mut compared = 0;
    for (index, text) in lines(rules).into_iter().enumerate() {
        let number = index + 1;
        let Some(line) = parts(text) else {
            println!("rule {number}: not a rule line");
            continue;
        };
        println!(
            "rule {number}: id {}, flags {}, {}",
            line.id,
            line.flags,
            of_pattern(line.pattern)
        );
        compared += 1;
        if show(&line, &scanned(&line, log), &plainly(&line, Flags(line.flags), log), log) {
            differing += 1;
        }
    }
    if differing == 0 {
        println!("the matchers agree on all {compared} rules");
        return ExitCode::SUCCESS;
    }
    println!("the matchers DIFFER on {differing} of {compared} rules");
    ExitCode::from(1)
}

/// The rule alone in a table, the log scanned and the stream closed.
fn scanned(line: &Line, log: &[u8]) -> Reports {
    let mut found = Vec::new();
    let mut table = Table::new();
    table.add(line.id, Flags(line.flags), line.pattern)?;
    let mut stream = Stream::open(&table);
    let mut keep = |report: watcher::Report| {
        found.push(Match { start: report.start, end: report.end });
    };
    stream.scan(NO_LIMIT, log, &mut keep)?;
    stream.close(&mut keep)?;
    Ok(found)
}

/// The plain matcher, asked with these flags.
fn plainly(line: &Line, flags: Flags, log: &[u8]) -> Reports {
    let mut found = Vec::new();
    plain(line.pattern, flags, Windows::NONE, log, |one| found.push(one))?;
    Ok(found)
}

/// Shows both lists, and says whether they differ.
fn show(line: &Line, by_table: &Reports, by_plain: &Reports, log: &[u8]) -> bool {
    let (scanned, plain) = match (by_table, by_plain) {
        (Ok(scanned), Ok(plain)) => (scanned, plain),
        (Err(one), Err(other)) if one == other => {
            println!("  {one}, by both");
            return false;
        }
        _ => {
            println!("  table: {}", outcome(by_table.as_ref().map(Vec::len)));
            println!("  plain: {}", outcome(by_plain.as_ref().map(Vec::len)));
            return true;
        }
    };
    let starts = line.flags & Flags::LEFTMOST_START.0 != 0;
    let shown = to_show(line, plain, log);
    println!("  {:>12} {:>12}  matched bytes", "table", "plain");
    let mut differ = false;
    for row in 0..scanned.len().max(plain.len()) {
        let (one, other) = (scanned.get(row), plain.get(row));
        let same = one == other;
        differ |= !same;
        let text = shown.get(row).map_or(String::new(), |one| matched(one, log));
        let mark = if same { "" } else { "   <- they differ here" };
        println!("  {:>12} {:>12}  {text}{mark}", cell(one, starts), cell(other, starts));
    }
    println!("  {} reports by the table, {} by the plain matcher", scanned.len(), plain.len());
    differ
}

/// The matches whose bytes are shown: the plain matcher is asked for starts too, where the rule can
/// have them.
fn to_show(line: &Line, plain: &[Match], log: &[u8]) -> Vec<Match> {
    let flags = Flags(line.flags) | Flags::LEFTMOST_START;
    plainly(line, flags, log).unwrap_or_else(|_| plain.to_vec())
}

fn outcome(reports: Result<usize, &Error>) -> String {
    match reports {
        Ok(count) => format!("accepted, {count} reports"),
        Err(error) => error.to_string(),
    }
}

/// A report: its end, and for a rule that reports starts its start before it.
fn cell(report: Option<&Match>, starts: bool) -> String {
    report.map_or("-".to_string(), |one| match starts {
        true => format!("{}..{}", one.start, one.end),
        false => one.end.to_string(),
    })
}

/// The bytes of a match; of a single-match rule, whose start is not asked for, those up to its end.
fn matched(one: &Match, log: &[u8]) -> String {
    let (start, end) = (one.start as usize, one.end as usize);
    let from = start.max(end.saturating_sub(SHOWN));
    let cut = if from > start { ".." } else { "" };
    format!("{cut}{}", of_pattern(&log[from..end]))
}
