//! The plain matcher of the library, compared with the definition and with table, scan and closing:
//! exhaustively on small patterns, and at random on the whole language, with windows and starts.
//!
//! The definition here is worked out once more, with starts and windows: at each moment every start is
//! tried, a pair is given at the first moment at which some start that the windows let through is
//! settled, with the smallest start that is settled then.

use reference::known::Known;
use reference::meaning::ends;
use reference::reader;
use reference::refusal::{Refusal, MAX_PATTERN, SINGLE_MATCH};
use reference::tree::Node;
use watcher::raw;
use watcher::{Error, Flags, Stream, Table, Windows, NO_LIMIT};

use crate::definition::add_all;
use crate::exhaustive::{all_logs, all_patterns, Alphabet};
use crate::patterns::pattern;
use crate::random::log;
use crate::rng::Rng;
use crate::scenario::Addition;

/// The flag for the leftmost start, and all flags that the matcher knows.
const LEFTMOST: u32 = 256;
const KNOWN: u32 = 271;

/// The longest log, and the least report space.
const LOG: usize = 1024;
const SPACE: usize = 1024;

/// What the lists hold before a call.
const BEFORE: u64 = 0x5A5A;

#[derive(Clone, Debug)]
pub struct Question {
    pub pattern: Vec<u8>,
    pub flags: u32,
    pub windows: (u64, u64, u64),
    pub log: Vec<u8>,
    pub slots: (usize, usize),
}

const NO_WINDOWS: (u64, u64, u64) = (0, u64::MAX, 0);

#[derive(Clone, Debug, Default)]
pub struct Count {
    pub questions: u64,
    pub accepted: u64,
    pub reports: u64,
    /// Those that were asked of table, scan and closing too.
    pub scanned: u64,
}

type Reports = Vec<(u64, u64)>;

/// The answer by the rules: end offsets and starts, or the refusal.
fn expected(question: &Question) -> Result<Reports, Refusal> {
    let flags = question.flags;
    let (lowest, highest, _) = question.windows;
    if flags & !KNOWN != 0 {
        return Err(Refusal::at(2, 0));
    }
    if flags & LEFTMOST != 0 && flags & SINGLE_MATCH != 0 {
        return Err(Refusal::at(24, 0));
    }
    if question.pattern.len() > MAX_PATTERN {
        return Err(Refusal::at(5, 0));
    }
    if lowest > highest {
        return Err(Refusal::at(26, 0));
    }
    if question.log.len() > LOG {
        return Err(Refusal::at(28, 0));
    }
    if question.slots.0.min(question.slots.1) < SPACE {
        return Err(Refusal::at(20, 0));
    }
    let tree = reader::read(&question.pattern, flags & !LEFTMOST)?;
    let mut reports = by_definition(&tree, question.windows, &question.log);
    if flags & SINGLE_MATCH != 0 {
        reports.truncate(1);
    }
    if flags & LEFTMOST == 0 {
        reports.iter_mut().for_each(|report| report.1 = 0);
    }
    Ok(reports)
}

fn by_definition(tree: &Node, (lowest, highest, shortest): (u64, u64, u64), log: &[u8]) -> Reports {
    let mut given = vec![false; log.len() + 1];
    let mut reports = Reports::new();
    for moment in 1..=log.len() + 1 {
        let known =
            if moment > log.len() { Known::at_closing(log) } else { Known::after(&log[..moment]) };
        let mut least: Vec<Option<u64>> = vec![None; log.len() + 1];
        let mut inside = vec![false; log.len() + 1];
        for start in 0..known.bytes.len() {
            for end in ends(tree, &[start], &known).into_iter().filter(|&end| end > start) {
                let (from, to) = (start as u64, end as u64);
                least[end].get_or_insert(from);
                inside[end] |= lowest <= to && to <= highest && shortest <= to - from;
            }
        }
        for end in 1..=log.len().min(moment) {
            if inside[end] && !given[end] {
                given[end] = true;
                reports.push((end as u64, least[end].expect("a start is inside")));
            }
        }
    }
    reports
}

/// Asks the plain matcher, and table, scan and closing where they take the rule; says what differs.
fn ask(question: &Question, count: &mut Count) -> Result<(), String> {
    let (mut offsets, mut starts) =
        (vec![BEFORE; question.slots.0], vec![BEFORE; question.slots.1]);
    let answer = raw::plain(
        &question.pattern,
        question.flags,
        question.windows,
        &question.log,
        &mut offsets,
        &mut starts,
    );
    count.questions += 1;
    let want = expected(question);
    let (refusal, reports) = match &want {
        Ok(reports) => (Refusal::at(0, 0), reports.clone()),
        Err(refusal) => (*refusal, Reports::new()),
    };
    let got: Reports =
        offsets.iter().copied().zip(starts.iter().copied()).take(answer.reports).collect();
    let rest = offsets.iter().chain(&starts).filter(|&&word| word != BEFORE).count();
    let written = 2 * answer.reports - same_as_before(&got);
    if (answer.number, answer.place) != (refusal.number, refusal.place)
        || got != reports
        || rest != written
    {
        return Err(format!(
            "{question:?}\n  plain: number {} place {} {got:?}\n  rules: {want:?}",
            answer.number, answer.place
        ));
    }
    if want.is_ok() {
        count.accepted += 1;
        count.reports += reports.len() as u64;
        scan_too(question, &reports, count)?;
    }
    Ok(())
}

/// How many reported words happen to be what the lists held before.
fn same_as_before(reports: &Reports) -> usize {
    reports.iter().map(|&(end, start)| (end == BEFORE) as usize + (start == BEFORE) as usize).sum()
}

/// The log again and again, up to the longest that there may be.
fn lengthen(question: &mut Question) {
    if question.log.is_empty() {
        question.log.push(b'a');
    }
    question.log = question.log.iter().copied().cycle().take(LOG).collect();
    question.flags &= KNOWN;
    question.slots = (SPACE, SPACE);
}

/// A long log, on which the definition would take too long: compared with table, scan and closing
/// alone.
fn ask_long(question: &Question, count: &mut Count) -> Result<(), String> {
    let Question { pattern, flags, windows, log, .. } = question;
    let (mut offsets, mut starts) = (vec![BEFORE; SPACE], vec![BEFORE; SPACE]);
    let answer = raw::plain(pattern, *flags, *windows, log, &mut offsets, &mut starts);
    count.questions += 1;
    if answer.number == 0 {
        count.accepted += 1;
        count.reports += answer.reports as u64;
        let reports = offsets.into_iter().zip(starts).take(answer.reports).collect();
        return scan_too(question, &reports, count);
    }
    match added(question, &mut Table::new()) {
        Err(error) if (error.number(), error.place()) == (answer.number, answer.place) => Ok(()),
        other => Err(format!("{question:?}\n  plain: {answer:?}\n  table: {other:?}")),
    }
}

/// The rule, in a table.
fn added(question: &Question, table: &mut Table) -> Result<(), Error> {
    let Question { pattern, flags, windows: (lowest, highest, shortest), .. } = question;
    let windows = Windows::new().ends_from(*lowest).ends_to(*highest).at_least(*shortest);
    table.add_within(1, Flags(*flags), windows, pattern)
}

/// The same rule by table, scan and closing.
fn scan_too(question: &Question, reports: &Reports, count: &mut Count) -> Result<(), String> {
    let mut table = Table::new();
    added(question, &mut table).map_err(|error| format!("{question:?}: {error}"))?;
    let mut scanned = Reports::new();
    let mut stream = Stream::open(&table);
    stream
        .scan(NO_LIMIT, &question.log, |report| scanned.push((report.end, report.start)))
        .and_then(|_| stream.close(|report| scanned.push((report.end, report.start))))
        .map_err(|error| format!("{question:?}: {error}"))?;
    count.scanned += 1;
    if scanned != *reports {
        return Err(format!("{question:?}\n  table: {scanned:?}\n  plain: {reports:?}"));
    }
    Ok(())
}

/// All patterns of up to so many tokens on all logs of up to so many bytes, plain, as single matches and
/// with starts, and with three windows.
pub fn exhaustive(alphabet: Alphabet, tokens: usize, bytes: usize) -> Result<Count, String> {
    let mut count = Count::default();
    let logs = all_logs(alphabet.bytes, bytes);
    for pattern in all_patterns(alphabet.tokens, tokens) {
        let flags = alphabet.flags;
        let rule = |flags, windows, log: &[u8]| Question {
            pattern: pattern.clone(),
            flags,
            windows,
            log: log.to_vec(),
            slots: (SPACE, SPACE),
        };
        if reader::read(&pattern, flags).is_err() {
            ask(&rule(flags, NO_WINDOWS, b""), &mut count)?;
            continue;
        }
        for log in &logs {
            ask(&rule(flags | LEFTMOST, NO_WINDOWS, log), &mut count)?;
            ask(&rule(flags | SINGLE_MATCH, NO_WINDOWS, log), &mut count)?;
            ask(&rule(flags | LEFTMOST, (2, u64::MAX, 0), log), &mut count)?;
            ask(&rule(flags | SINGLE_MATCH, (0, 2, 2), log), &mut count)?;
            ask(&rule(flags | LEFTMOST, (1, 3, 2), log), &mut count)?;
        }
    }
    Ok(count)
}

/// Random rules over the whole language, malformed ones among them, on random logs.
pub fn random(seed: u64, first: u64, cases: u64) -> Result<Count, String> {
    let mut count = Count::default();
    for index in first..first + cases {
        let mut question = question(&mut Rng::for_case(seed, index));
        let asked = if index % 20 == 19 {
            lengthen(&mut question);
            ask_long(&question, &mut count)
        } else {
            ask(&question, &mut count)
        };
        asked.map_err(|text| format!("# plain random seed {seed}, case {index}\n{text}"))?;
    }
    Ok(count)
}

fn question(rng: &mut Rng) -> Question {
    let pattern = pattern(rng);
    let flags = match rng.below(30) {
        0 => rng.word() as u32,
        1 => 16,
        2 => LEFTMOST | SINGLE_MATCH,
        _ => {
            let flags = *rng.pick(&[0, 0, 0, 1, 2, 4, 4, 8, 8, 3, 5, 7, 9, 12]);
            let leftmost = flags & SINGLE_MATCH == 0 && rng.once_in(2);
            flags | if leftmost { LEFTMOST } else { 0 }
        }
    };
    let (rules, _) = add_all(&[Addition::new(1, flags & !LEFTMOST, &pattern)]);
    let mut log = log(rng, &rules);
    if rng.once_in(200) {
        log.resize(LOG + 1, b'a');
    }
    let windows = match rng.below(4) {
        0 => (rng.word() % 12, rng.word() % 40, rng.word() % 6),
        1 => (rng.word() % 8, u64::MAX, rng.word() % 5),
        _ => NO_WINDOWS,
    };
    let slot = |rng: &mut Rng| {
        if rng.once_in(40) {
            SPACE - 1 - rng.below(2)
        } else {
            SPACE + rng.below(3)
        }
    };
    Question { pattern, flags, windows, log, slots: (slot(rng), slot(rng)) }
}
