//! A model of the calls: emptying, adding, opening, scanning, closing, the busy figure. It answers
//! as the rules of the product say, refusals and lent lists included, but keeps its tables and
//! states in the plainest shape: a table is the list of its rules, a state is the bytes taken.
//!
//! At each byte the rules are matched anew, looking back from that byte over the bytes taken so
//! far, and looking back from the byte before it once more, with this byte known and without. Nothing
//! is carried from byte to byte but the bytes and the marks of single-match rules. What waits for the
//! next byte or for the end is not carried either: a closing looks back from the last byte and from
//! the one before it, once as the end is known and once as it was not.
//!
//! What a byte costs is found in the same way: the busy figure of the state before it, looked back
//! for anew, and one unit.
//!
//! A start is found in the same way too: of the offsets that looking back finds at the moment of a
//! report, the smallest. There are two forms of a stream's state. `Stream` has two lists and no
//! starts, so it is refused on a table in which a rule needs them; `Traced` has four lists, and its
//! calls are otherwise those of the stream in it.
//!
//! A state may be handed to a table it was not opened on. If the counts agree it is valid, and its
//! bytes count as bytes of that table's stream; for a state that has taken bytes under other rules
//! this is not what a scanner that keeps live positions would say, so no comparison asks for it.

use std::rc::Rc;

use crate::backward::{is_live, starts_of_matches, starts_up_to};
use crate::known::Known;
use crate::refusal::{least_space, Refusal, MAX_STREAM, TABLE_WORDS};
use crate::rule::{check_within, positions_of, Rule};
use crate::windows::Windows;

/// The allowance of a caller who sets no limit to a scan's work.
pub const NO_LIMIT: u64 = u64::MAX;

/// Lent words: how many, and the rules they hold if they are a table.
#[derive(Clone, Debug, PartialEq)]
pub struct Table {
    words: usize,
    rules: Option<Rc<Vec<Rule>>>,
}

/// A stream state.
#[derive(Clone, Debug, PartialEq)]
pub struct Stream {
    rule_count: usize,
    position_count: usize,
    /// The rules of the table it was opened on, of which the live positions are positions.
    rules: Rc<Vec<Rule>>,
    /// Bytes taken before the ones kept here: 0, unless set by hand.
    base: u64,
    /// The last of those, if there are any: one that is neither a word byte nor a newline, unless set
    /// by hand.
    before: u8,
    bytes: Vec<u8>,
    /// Indices of the rules marked "already reported", in the order of rising ids.
    marks: Vec<usize>,
    /// Live positions set by hand, of which none is among the table's.
    stray_live: Vec<usize>,
    /// Held positions set by hand, likewise.
    stray_held: Vec<usize>,
    /// Rules with a pair held for the offset before the last byte by hand, besides those that the
    /// bytes give; the next byte taken ends it.
    held_pairs: Vec<usize>,
    closed: bool,
}

/// A stream state with starts.
#[derive(Clone, Debug, PartialEq)]
pub struct Traced {
    stream: Stream,
    /// Starts set by hand where no start is, or not below the bytes taken.
    wrong_starts: Vec<(Kept, usize, u64)>,
}

/// What a state keeps a start for, each by an index: a live position, a held one, a rule with a pair
/// held for the offset before the last byte.
#[derive(Clone, Copy, Debug, PartialEq, Eq)]
pub enum Kept {
    Live,
    Held,
    Pair,
}

/// The four lent lists of a traced call.
pub struct Columns<'l> {
    pub ids: &'l mut [u32],
    pub offsets: &'l mut [u64],
    pub starts: &'l mut [u64],
    pub relatives: &'l mut [i64],
}

impl Columns<'_> {
    /// The slots that all four have.
    fn space(&self) -> usize {
        let lengths = [self.ids.len(), self.offsets.len(), self.starts.len(), self.relatives.len()];
        lengths.into_iter().min().unwrap_or(0)
    }

    /// Writes reports from the front. The relative starts are measured from the offset of the first
    /// byte lent.
    fn write(&mut self, reports: &[Report], first: u64) {
        write(reports, self.ids, self.offsets);
        for (slot, report) in reports.iter().enumerate() {
            self.starts[slot] = report.start.unwrap_or(0);
            self.relatives[slot] = report.start.map_or(0, |start| start as i64 - first as i64);
        }
    }
}

/// A report; the start is of a rule that reports starts.
#[derive(Clone, Copy, Debug, PartialEq, Eq)]
struct Report {
    id: u32,
    offset: u64,
    start: Option<u64>,
}

/// The answer of a scan or a closing. A closing takes no bytes and no allowance.
#[derive(Clone, Debug, PartialEq)]
pub struct Answer<S = Stream> {
    pub number: u32,
    pub taken: usize,
    pub count: usize,
    /// Units of work.
    pub used: u64,
    pub stream: S,
}

impl Table {
    /// So many words that were never emptied: no table.
    pub fn lent(words: usize) -> Table {
        Table { words, rules: None }
    }

    /// The first words of these, or these and further ones.
    pub fn resized(&self, words: usize) -> Table {
        let rules = if words < TABLE_WORDS { None } else { self.rules.clone() };
        Table { words, rules }
    }

    pub fn empty(&mut self) -> u32 {
        if self.words < TABLE_WORDS {
            return 1;
        }
        self.rules = Some(Rc::new(Vec::new()));
        0
    }

    /// Check 1: the rules, kept by rising id, if enough words are lent and they are a table.
    fn rules(&self) -> Result<&Rc<Vec<Rule>>, u32> {
        if self.words < TABLE_WORDS {
            return Err(1);
        }
        self.rules.as_ref().ok_or(1)
    }

    pub fn add(&mut self, id: u32, flags: u32, pattern: &[u8]) -> Result<(), Refusal> {
        self.add_within(id, flags, Windows::NONE, pattern)
    }

    /// An addition with windows.
    pub fn add_within(
        &mut self,
        id: u32,
        flags: u32,
        windows: Windows,
        pattern: &[u8],
    ) -> Result<(), Refusal> {
        let rules = self.rules().map_err(|number| Refusal::at(number, 0))?;
        let rule = check_within(rules, id, flags, windows, pattern)?;
        let mut more = rules.to_vec();
        more.push(rule);
        more.sort_by_key(|rule| rule.id);
        self.rules = Some(Rc::new(more));
        Ok(())
    }

    /// The number, and a fresh state, or for a refusal a closed state with all else zero.
    pub fn open(&self) -> (u32, Stream) {
        match self.rules() {
            Ok(rules) => (0, Stream::new(rules.clone(), false)),
            Err(number) => (number, Stream::new(Rc::new(Vec::new()), true)),
        }
    }

    /// The same with starts.
    pub fn trace(&self) -> (u32, Traced) {
        let (number, stream) = self.open();
        (number, Traced { stream, wrong_starts: Vec::new() })
    }
}

impl Stream {
    fn new(rules: Rc<Vec<Rule>>, closed: bool) -> Stream {
        Stream {
            rule_count: rules.len(),
            position_count: positions_of(&rules),
            rules,
            base: 0,
            before: b' ',
            bytes: Vec::new(),
            marks: Vec::new(),
            stray_live: Vec::new(),
            stray_held: Vec::new(),
            held_pairs: Vec::new(),
            closed,
        }
    }

    fn total(&self) -> u64 {
        self.base.saturating_add(self.bytes.len() as u64)
    }

    /// The number of live positions. Held ones are none of them.
    pub fn busy(&self) -> usize {
        let known = self.known(self.bytes.len(), false);
        let live =
            |rule: &Rule| (0..rule.positions).filter(|&p| is_live(&rule.form, p, &known)).count();
        self.rules.iter().map(live).sum::<usize>() + self.stray_live.len()
    }

    /// This fresh state with another total, set by hand.
    pub fn with_total(&self, total: u64) -> Option<Stream> {
        self.bytes.is_empty().then(|| Stream { base: total, ..self.clone() })
    }

    /// This fresh state with another byte before its own, set by hand: 1 a word byte, 2 a newline, and
    /// any other number neither.
    pub fn with_last(&self, last: u64) -> Option<Stream> {
        let before = match last {
            1 => b'a',
            2 => b'\n',
            _ => b' ',
        };
        self.bytes.is_empty().then(|| Stream { before, ..self.clone() })
    }

    /// This state with a live position that none of its table's rules has, set by hand.
    pub fn with_stray_live(&self, position: usize) -> Option<Stream> {
        let mut next = self.clone();
        next.stray_live.push(position);
        (position >= self.position_count).then_some(next)
    }

    /// This state with a held position that none of its table's rules has, set by hand.
    pub fn with_stray_held(&self, position: usize) -> Option<Stream> {
        let mut next = self.clone();
        next.stray_held.push(position);
        (position >= self.position_count).then_some(next)
    }

    /// This state with a pair held for the offset before the last byte, set by hand.
    pub fn with_held_pair(&self, rule: usize) -> Option<Stream> {
        let mut next = self.clone();
        next.held_pairs.push(rule);
        Some(next)
    }

    /// This state with a mark "already reported", set by hand.
    pub fn with_mark(&self, rule: usize) -> Option<Stream> {
        let mut next = self.clone();
        next.marks.push(rule);
        Some(next)
    }

    /// Check 18: is the state valid for these rules?
    fn valid_for(&self, rules: &[Rule]) -> bool {
        self.rule_count == rules.len()
            && self.position_count == positions_of(rules)
            && self.stray_live.iter().all(|&p| p < self.position_count)
            && self.marks.iter().all(|&i| rules.get(i).is_some_and(Rule::single_match))
            && self.total() <= MAX_STREAM
            && self.stray_held.iter().all(|&p| p < self.position_count)
            && self.held_pairs.iter().all(|&i| i < rules.len() && self.total() >= 2)
    }

    /// The checks of a scan in their order 1, 18, 19, 21, 20. An empty block never gets 21, so a
    /// closing has the same checks with an empty block.
    fn checked<'t>(
        &self,
        table: &'t Table,
        block: usize,
        space: usize,
        starts: Starts,
    ) -> Result<&'t [Rule], u32> {
        let rules = table.rules()?;
        let started = match starts {
            Starts::None => !rules.iter().any(Rule::needs_starts),
            Starts::Kept(valid) => valid,
        };
        if !self.valid_for(rules) || !started {
            return Err(18);
        }
        if self.closed {
            return Err(19);
        }
        if block as u64 > MAX_STREAM - self.total() {
            return Err(21);
        }
        if space < least_space(rules.len()) {
            return Err(20);
        }
        Ok(rules)
    }

    /// The answer of a refused call, which has no reports.
    fn refused(self, number: u32) -> (Answer, Vec<Report>) {
        (Answer { number, taken: 0, count: 0, used: 0, stream: self }, Vec::new())
    }

    pub fn scan(
        self,
        table: &Table,
        allowance: u64,
        block: &[u8],
        ids: &mut [u32],
        offsets: &mut [u64],
    ) -> Answer {
        let space = ids.len().min(offsets.len());
        let (answer, reports) = self.scanned(table, allowance, block, space, Starts::None);
        write(&reports, ids, offsets);
        answer
    }

    pub fn close(self, table: &Table, ids: &mut [u32], offsets: &mut [u64]) -> Answer {
        let space = ids.len().min(offsets.len());
        let (answer, reports) = self.closed(table, space, Starts::None);
        write(&reports, ids, offsets);
        answer
    }

    /// Takes bytes one at a time and stops before the first that the allowance does not pay for, or
    /// whose reports would not all fit.
    fn scanned(
        mut self,
        table: &Table,
        allowance: u64,
        block: &[u8],
        space: usize,
        starts: Starts,
    ) -> (Answer, Vec<Report>) {
        let rules = match self.checked(table, block.len(), space, starts) {
            Ok(rules) => rules,
            Err(number) => return self.refused(number),
        };
        let mut taken = 0;
        let mut all = Vec::new();
        let mut used = 0;
        for &byte in block {
            let cost = 1 + self.busy() as u64;
            if cost > allowance - used {
                break;
            }
            self.bytes.push(byte);
            let (reports, marks) = delivered(self.byte_runs(rules), rules, &self.marks);
            if reports.len() > space - all.len() {
                self.bytes.pop();
                break;
            }
            all.extend(reports);
            self.marks = marks;
            self.held_pairs.clear();
            taken += 1;
            used += cost;
        }
        (Answer { number: 0, taken, count: all.len(), used, stream: self }, all)
    }

    /// Reports the pairs that need the end, those before the last byte first, and sets the closed
    /// mark; nothing else changes.
    fn closed(mut self, table: &Table, space: usize, starts: Starts) -> (Answer, Vec<Report>) {
        let rules = match self.checked(table, 0, space, starts) {
            Ok(rules) => rules,
            Err(number) => return self.refused(number),
        };
        let (reports, _) = delivered(self.closing_runs(rules), rules, &self.marks);
        self.closed = true;
        (Answer { number: 0, taken: 0, count: reports.len(), used: 0, stream: self }, reports)
    }

    /// What is known when so many of the bytes were just taken, or at closing.
    fn known(&self, bytes: usize, end: bool) -> Known<'_> {
        Known { base: self.base, before: self.before, bytes: &self.bytes[..bytes], end }
    }

    /// The two runs of the byte just taken: the pairs before it that needed it, and those that end
    /// with it.
    fn byte_runs(&self, rules: &[Rule]) -> [Run; 2] {
        let now = self.bytes.len();
        let (then, known) = (self.known(now - 1, false), self.known(now, false));
        let own = matching(rules, now, &known);
        [(self.total() - 1, newly(rules, now - 1, &then, &known)), (self.total(), own)]
    }

    /// The two runs of a closing: the pairs before the last byte that needed the end, and those
    /// behind it. A pair that is held by hand alone has the start 0.
    fn closing_runs(&self, rules: &[Rule]) -> [Run; 2] {
        let now = self.bytes.len();
        let (then, closing) = (self.known(now, false), self.known(now, true));
        let waiting = |gap: usize| newly(rules, gap, &then, &closing);
        let before = self.total().saturating_sub(1);
        let mut held = now.checked_sub(1).map_or(Vec::new(), waiting);
        for &index in &self.held_pairs {
            let there = held.iter().any(|&(other, _)| other == index);
            if !there && rules[index].windows.hold_at(before) {
                held.push((index, 0));
            }
        }
        held.sort_unstable();
        [(before, held), (self.total(), waiting(now))]
    }

    /// The smallest start of what is kept, if it is there.
    fn start_of(&self, kept: Kept, index: usize) -> Option<u64> {
        let now = self.bytes.len();
        let after_newline = self.bytes.last() == Some(&b'\n');
        let known = self.known(now, kept != Kept::Live);
        if kept == Kept::Pair {
            let [(_, held), _] = self.closing_runs(&self.rules);
            return held.iter().find(|pair| pair.0 == index).map(|pair| pair.1);
        }
        let of = |rule: &&Rule| (rule.from..rule.from + rule.positions).contains(&index);
        let rule = self.rules.iter().find(of)?;
        let starts = starts_up_to(&rule.form, index - rule.from, &known);
        let start = starts.first().map(|&start| self.base + start as u64);
        start.filter(|_| kept == Kept::Live || after_newline)
    }

    /// Does the rule need a start of what is kept? A pair is held once it is known to be long
    /// enough, so its start is only to be reported.
    fn is_needed(&self, kept: Kept, index: usize) -> bool {
        let of = |rule: &&Rule| (rule.from..rule.from + rule.positions).contains(&index);
        match kept {
            Kept::Pair => self.rules.get(index).is_some_and(Rule::leftmost_start),
            Kept::Live | Kept::Held => self.rules.iter().find(of).is_some_and(Rule::needs_starts),
        }
    }
}

/// What a call knows of starts: nothing, or whether those of its state are valid.
#[derive(Clone, Copy)]
enum Starts {
    None,
    Kept(bool),
}

impl Traced {
    pub fn busy(&self) -> usize {
        self.stream.busy()
    }

    pub fn scan(
        self,
        table: &Table,
        allowance: u64,
        block: &[u8],
        mut lists: Columns,
    ) -> Answer<Traced> {
        let (first, starts) = (self.stream.total(), Starts::Kept(self.wrong_starts.is_empty()));
        let (answer, reports) = self.stream.scanned(table, allowance, block, lists.space(), starts);
        lists.write(&reports, first);
        Traced::answer(answer, self.wrong_starts)
    }

    pub fn close(self, table: &Table, mut lists: Columns) -> Answer<Traced> {
        let (end, starts) = (self.stream.total(), Starts::Kept(self.wrong_starts.is_empty()));
        let (answer, reports) = self.stream.closed(table, lists.space(), starts);
        lists.write(&reports, end);
        Traced::answer(answer, self.wrong_starts)
    }

    fn answer(answer: Answer, wrong_starts: Vec<(Kept, usize, u64)>) -> Answer<Traced> {
        let Answer { number, taken, count, used, stream } = answer;
        Answer { number, taken, count, used, stream: Traced { stream, wrong_starts } }
    }

    /// The state with a change of the stream in it, if that can be made.
    pub fn changed(&self, change: impl Fn(&Stream) -> Option<Stream>) -> Option<Traced> {
        let stream = change(&self.stream)?;
        Some(Traced { stream, wrong_starts: self.wrong_starts.clone() })
    }

    /// The state with a start set by hand. What a rule needs no start for may have any that is below
    /// the bytes taken; a start that is needed, and then is another one, is not followed here.
    pub fn with_start(&self, kept: Kept, index: usize, start: u64) -> Option<Traced> {
        let mut next = self.clone();
        match self.stream.start_of(kept, index) {
            Some(there) if start < self.stream.total() => {
                let same = start == there || !self.stream.is_needed(kept, index);
                return same.then_some(next);
            }
            None if start == 0 => return Some(next),
            _ => next.wrong_starts.push((kept, index, start)),
        }
        Some(next)
    }
}

/// A run of pairs: their end offset, and their rules by rising id, each with the smallest start of a
/// match.
type Run = (u64, Vec<(usize, u64)>);

/// The rules that match up to this gap within their windows, each with the smallest start of a match.
/// A start further to the left is longer, so the windows hold of it too.
fn matching(rules: &[Rule], gap: usize, known: &Known) -> Vec<(usize, u64)> {
    let mut found = Vec::new();
    for (index, rule) in rules.iter().enumerate() {
        let end = known.base + gap as u64;
        let starts = starts_of_matches(&rule.form, gap, known);
        let mut starts = starts.iter().map(|&start| known.base + start as u64);
        let smallest = starts.clone().next();
        if starts.any(|start| rule.windows.hold(start, end)) {
            found.extend(smallest.map(|start| (index, start)));
        }
    }
    found
}

/// The rules that match up to this gap by what is known now, and did not by what was known then.
fn newly(rules: &[Rule], gap: usize, then: &Known, now: &Known) -> Vec<(usize, u64)> {
    let before = matching(rules, gap, then);
    let mut found = matching(rules, gap, now);
    found.retain(|&(index, _)| before.iter().all(|&(other, _)| other != index));
    found
}

/// The reports of some runs, one after the other, and the marks after them: a marked rule has none, and
/// a single-match rule that reports is marked for all that follows.
fn delivered(runs: [Run; 2], rules: &[Rule], marks: &[usize]) -> (Vec<Report>, Vec<usize>) {
    let mut reports = Vec::new();
    let mut marks = marks.to_vec();
    for (offset, run) in runs {
        for (index, start) in run {
            if marks.contains(&index) {
                continue;
            }
            let rule = &rules[index];
            let start = rule.leftmost_start().then_some(start);
            reports.push(Report { id: rule.id, offset, start });
            if rule.single_match() {
                marks.push(index);
            }
        }
    }
    (reports, marks)
}

/// Writes reports from the front of both lists.
fn write(reports: &[Report], ids: &mut [u32], offsets: &mut [u64]) {
    for (slot, report) in reports.iter().enumerate() {
        ids[slot] = report.id;
        offsets[slot] = report.offset;
    }
}
