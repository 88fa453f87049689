//! Carries a case out on a watcher and compares each answer with the one that the case writes.
//! Besides what the lines say, every refusal is held to its promise: table, state and lists stay
//! as they were; and every scan to what it owes for its work, for which a line's scan with an allowance
//! is made a second time without limit.

use std::borrow::Cow;

use corpus::{Call, Case, Line, Lists, Report, Starts, Work};
use reference::refusal::{least_space, LEFTMOST_START, MAX_RULES, TABLE_WORDS};

use crate::definition::windows;
use crate::slices::{carried_further, in_bounds, Scanned, MOST_UNITS};
use crate::watcher::{Answer, Change, Watcher, NO_LIMIT};

/// What a case came to, if no answer was wrong.
#[derive(Clone, Copy, Debug, PartialEq, Eq)]
pub enum Outcome {
    Passed,
    /// It changes a state in a way that this watcher's states do not allow.
    Skipped,
}

/// Is the case for this watcher's streams?
pub fn is_for<W: Watcher>(watcher: &W, case: &Case) -> bool {
    if watcher.traces() {
        !case.is_untraced()
    } else {
        !case.is_traced()
    }
}

/// Plays a case; an error says which line was answered wrongly, and how.
pub fn play<W: Watcher>(watcher: &W, case: &Case) -> Result<Outcome, String> {
    if !is_for(watcher, case) {
        return Ok(Outcome::Skipped);
    }
    if case.has_calls() {
        play_calls(watcher, case)
    } else {
        play_whole(watcher, case)
    }
}

/// What the lines of a case hand on from one to the next.
struct Player<'w, W: Watcher> {
    watcher: &'w W,
    table: W::Table,
    stream: Option<W::Stream>,
    /// How many words are lent, none for words that are no table.
    lent: Option<usize>,
    kept: Vec<(W::Table, Option<W::Stream>)>,
}

impl<'w, W: Watcher> Player<'w, W> {
    fn new(watcher: &'w W) -> Result<Self, String> {
        let mut table = watcher.words(TABLE_WORDS);
        expect("emptying", watcher.empty(&mut table), 0)?;
        Ok(Player { watcher, table, stream: None, lent: Some(TABLE_WORDS), kept: Vec::new() })
    }

    /// The words that the next call is lent.
    fn lent_table(&self) -> Cow<'_, W::Table> {
        match self.lent {
            Some(words) if words < TABLE_WORDS => {
                Cow::Owned(self.watcher.resized(&self.table, words))
            }
            Some(_) => Cow::Borrowed(&self.table),
            None => Cow::Owned(self.watcher.words(TABLE_WORDS)),
        }
    }

    /// Keeps what a call left in the lent words, which a refusal must have left alone.
    fn take_back(&mut self, before: &W::Table, after: W::Table, number: u32) -> Result<(), String> {
        if number != 0 && after != *before {
            return Err(format!("refusal {number} changed the table"));
        }
        if number == 0 {
            self.table = after;
        }
        Ok(())
    }

    /// None if the watcher cannot follow.
    fn add(
        &mut self,
        id: u32,
        flags: u32,
        within: &corpus::Windows,
        pattern: &[u8],
    ) -> Result<Option<(u32, usize)>, String> {
        let before = self.lent_table().into_owned();
        let mut words = before.clone();
        let answer = self.watcher.add_within(&mut words, id, flags, windows(within), pattern);
        let Some(answer) = answer else { return Ok(None) };
        self.take_back(&before, words, answer.0)?;
        Ok(Some(answer))
    }

    fn present(&self) -> Result<W::Stream, String> {
        self.stream.clone().ok_or("no stream was opened".to_string())
    }

    /// A scan of a block with an allowance, or a closing, on the present state; the lists as they are
    /// lent and left.
    fn call(
        &mut self,
        scan: Option<(&[u8], u64)>,
        lists: &mut Lists,
    ) -> Result<Answer<W::Stream>, String> {
        let stream = self.present()?;
        let answer = match scan {
            Some((block, allowance)) => {
                let answer = self.scan(&stream, allowance, block, lists);
                let busy = self.watcher.busy(&stream) as u64;
                in_bounds(&scanned(&answer, lists), allowance, busy)?;
                answer
            }
            None => self.watcher.close_into(&self.lent_table(), stream.clone(), lists),
        };
        if answer.number != 0 && answer.stream != stream {
            return Err(format!("refusal {} changed the state", answer.number));
        }
        self.stream = Some(answer.stream.clone());
        Ok(answer)
    }

    fn scan(
        &self,
        stream: &W::Stream,
        allowance: u64,
        block: &[u8],
        lists: &mut Lists,
    ) -> Answer<W::Stream> {
        self.watcher.scan_into(&self.lent_table(), stream.clone(), allowance, block, lists)
    }

    /// One line of a case with calls. Gives false if the watcher cannot follow.
    fn line(&mut self, line: &Line) -> Result<bool, String> {
        match line {
            Line::Rule { id, flags, pattern, number, place, windows } => {
                let Some(answer) = self.add(*id, *flags, windows, pattern)? else {
                    return Ok(false);
                };
                expect("number and place", answer, (*number, *place))?;
            }
            Line::Open(number) => {
                let (answer, stream) = self.watcher.open(&self.lent_table());
                expect("number", answer, *number)?;
                self.stream = Some(stream);
            }
            Line::Call(call) => self.expect_call(call)?,
            Line::Figure(n) => expect("busy figure", self.watcher.busy(&self.present()?), *n)?,
            Line::Empty(number) => {
                let before = self.lent_table().into_owned();
                let mut words = before.clone();
                let answer = self.watcher.empty(&mut words);
                expect("number", answer, *number)?;
                self.take_back(&before, words, answer)?;
            }
            Line::Lend(words) => {
                self.lent = *words;
                if let Some(words) = words.filter(|&words| words >= TABLE_WORDS) {
                    self.table = self.watcher.resized(&self.table, words);
                }
            }
            Line::Keep => self.kept.push((self.table.clone(), self.stream.clone())),
            Line::Back => {
                (self.table, self.stream) = self.kept.pop().ok_or("nothing was kept")?;
            }
            Line::StateTotal(n) => return self.change(Change::Total(*n)),
            Line::StateLive(n) => return self.change(Change::Live(*n)),
            Line::StateMark(n) => return self.change(Change::Mark(*n)),
            Line::StateHeld(n) => return self.change(Change::Held(*n)),
            Line::StatePair(n) => return self.change(Change::Pair(*n)),
            Line::StateLast(n) => return self.change(Change::Last(*n)),
            Line::StateStart(kept, n, start) => {
                return self.change(Change::Start(*kept, *n, *start));
            }
            Line::Block(_) | Line::Report(_) | Line::Busy(_) => {
                return Err("a case has either blocks or calls".to_string());
            }
        }
        Ok(true)
    }

    fn change(&mut self, change: Change) -> Result<bool, String> {
        let changed = self.watcher.changed(&self.present()?, change);
        let able = changed.is_some();
        self.stream = changed;
        Ok(able)
    }

    fn expect_call(&mut self, call: &Call) -> Result<(), String> {
        let mut lists = call.before.clone();
        let allowance = call.work.and_then(|work| work.allowance).unwrap_or(NO_LIMIT);
        let stream = self.present()?;
        let scan = call.block.as_deref().map(|block| (block, allowance));
        let answer = self.call(scan, &mut lists)?;
        if let Some((block, _)) = scan.filter(|_| allowance < NO_LIMIT) {
            let mut others = call.before.clone();
            let unlimited = self.scan(&stream, NO_LIMIT, block, &mut others);
            carried_further(&scanned(&answer, &lists), &scanned(&unlimited, &others))?;
        }
        expect("number", answer.number, call.number)?;
        expect("bytes taken", answer.taken, call.taken)?;
        expect("count", answer.count, call.count)?;
        expect("lists", &lists, &call.after)?;
        match call.work {
            Some(Work { used, .. }) => expect("units used", answer.used, used),
            None => Ok(()),
        }
    }
}

fn scanned<'l, S>(answer: &Answer<S>, lists: &'l Lists) -> Scanned<'l> {
    let &Answer { number, taken, count, used, .. } = answer;
    let Lists { ids, offsets, starts } = lists;
    Scanned { number, taken, count, used, ids, offsets, starts: starts.as_ref() }
}

fn expect<T: PartialEq + std::fmt::Debug>(what: &str, got: T, wanted: T) -> Result<(), String> {
    if got == wanted {
        return Ok(());
    }
    Err(format!("{what}: got {got:?}, wanted {wanted:?}"))
}

fn play_calls<W: Watcher>(watcher: &W, case: &Case) -> Result<Outcome, String> {
    let mut player = Player::new(watcher)?;
    for line in &case.lines {
        if !player.line(line).map_err(|e| format!("{line}: {e}"))? {
            return Ok(Outcome::Skipped);
        }
    }
    Ok(Outcome::Passed)
}

/// A case without calls: its additions, and then its stream four times: block by block with the least
/// report space, at once with much, in the smallest slices of work that always take a byte, and byte
/// by byte with the moments and busy figures. Where a rule needs a start and this watcher's streams
/// keep none, every call is refused instead.
fn play_whole<W: Watcher>(watcher: &W, case: &Case) -> Result<Outcome, String> {
    let mut player = Player::new(watcher)?;
    let mut rules = 0;
    for line in case.lines.iter().filter(|line| matches!(line, Line::Rule { .. })) {
        if !player.line(line).map_err(|e| format!("{line}: {e}"))? {
            return Ok(Outcome::Skipped);
        }
        rules += usize::from(matches!(line, Line::Rule { number: 0, .. }));
    }
    let blocks = case.blocks();
    let joined: Vec<u8> = blocks.concat();
    let bytes: Vec<Vec<u8>> = joined.iter().map(|&b| vec![b]).collect();
    let wanted = case.reports();
    let least = least_space(rules);
    let much = least_space(MAX_RULES) * (joined.len() + 1);
    if case.needs_starts() && !watcher.traces() {
        keeps_no_starts(&mut player, &joined, much)?;
        return Ok(Outcome::Passed);
    }
    let without_moments = |reports: &[Report]| -> Vec<Report> {
        reports.iter().map(|report| Report { moment: None, ..*report }).collect()
    };
    let leftmost = leftmost_ids(case);
    let at_once = vec![joined];
    for (blocks, space, allowance) in
        [(&blocks, least, NO_LIMIT), (&at_once, much, NO_LIMIT), (&at_once, least, MOST_UNITS)]
    {
        let got = whole_stream(&mut player, blocks, space, allowance, &leftmost)?;
        expect("reports", without_moments(&got.reports), without_moments(&wanted))?;
    }
    let got = whole_stream(&mut player, &bytes, least, NO_LIMIT, &leftmost)?;
    expect("reports with moments", &got.reports, &wanted)?;
    if let Some(figures) = case.busy() {
        expect("busy figures", got.busy, figures)?;
    }
    Ok(Outcome::Passed)
}

/// The ids of the accepted rules that report starts.
fn leftmost_ids(case: &Case) -> Vec<u32> {
    let leftmost = |line: &Line| match line {
        Line::Rule { id, flags, number: 0, .. } if flags & LEFTMOST_START != 0 => Some(*id),
        _ => None,
    };
    case.lines.iter().filter_map(leftmost).collect()
}

/// A state without starts on a table in which a rule needs them: it is opened, and refused with 18 in
/// each call.
fn keeps_no_starts<W: Watcher>(
    player: &mut Player<W>,
    block: &[u8],
    space: usize,
) -> Result<(), String> {
    player.line(&Line::Open(0))?;
    for scan in [Some((block, NO_LIMIT)), Some((&b""[..], 0)), None] {
        let before = lent(player.watcher, space);
        let mut lists = before.clone();
        let answer = player.call(scan, &mut lists)?;
        expect("number without starts", answer.number, 18)?;
        expect("lists", &lists, &before)?;
    }
    Ok(())
}

struct Whole {
    reports: Vec<Report>,
    /// The busy figure after the opening and after each block.
    busy: Vec<usize>,
}

/// Opens a stream, offers each block until it is taken, and closes.
fn whole_stream<W: Watcher>(
    player: &mut Player<W>,
    blocks: &[Vec<u8>],
    space: usize,
    allowance: u64,
    leftmost: &[u32],
) -> Result<Whole, String> {
    player.line(&Line::Open(0))?;
    let mut whole = Whole { reports: Vec::new(), busy: Vec::new() };
    let mut total = 0;
    whole.busy.push(player.watcher.busy(&player.present()?));
    for block in blocks {
        let mut offered = 0;
        loop {
            let rest = &block[offered..];
            let scan = Some((rest, allowance));
            let (taken, reports) = accepted_call(player, scan, space, total, leftmost)?;
            if taken == 0 && !rest.is_empty() || taken > rest.len() {
                return Err(format!("a scan took {taken} of {} bytes", rest.len()));
            }
            offered += taken;
            total += taken as u64;
            let moment = |report| Report { moment: Some(total), ..report };
            whole.reports.extend(reports.into_iter().map(moment));
            if offered == block.len() {
                break;
            }
        }
        whole.busy.push(player.watcher.busy(&player.present()?));
    }
    let (_, reports) = accepted_call(player, None, space, total, leftmost)?;
    whole.reports.extend(reports);
    Ok(whole)
}

/// Lists with so many slots and old contents, as many lists as the watcher's calls have.
fn lent<W: Watcher>(watcher: &W, space: usize) -> Lists {
    let starts = Starts { starts: vec![u64::MAX - 7; space], relatives: vec![i64::MIN; space + 2] };
    Lists {
        ids: vec![0xdead_beef; space],
        offsets: vec![u64::MAX - 5; space + 1],
        starts: watcher.traces().then_some(starts),
    }
}

/// A call that must be accepted, its bytes taken and its reports, as if all fell at closing. The slots
/// past the count must keep what they held, and the relative starts be measured from this first byte.
fn accepted_call<W: Watcher>(
    player: &mut Player<W>,
    scan: Option<(&[u8], u64)>,
    space: usize,
    first: u64,
    leftmost: &[u32],
) -> Result<(usize, Vec<Report>), String> {
    let before = lent(player.watcher, space);
    let mut lists = before.clone();
    let answer = player.call(scan, &mut lists)?;
    expect("number", answer.number, 0)?;
    let count = answer.count;
    if count > space {
        return Err(format!("{count} reports in a space of {space}"));
    }
    expect("ids past the count", &lists.ids[count..], &before.ids[count..])?;
    expect("offsets past the count", &lists.offsets[count..], &before.offsets[count..])?;
    if let (Some(of), Some(old)) = (&lists.starts, &before.starts) {
        expect("starts past the count", &of.starts[count..], &old.starts[count..])?;
        let (relatives, old) = (&of.relatives[count..], &old.relatives[count..]);
        expect("relative starts past the count", relatives, old)?;
    }
    let mut reports = Vec::new();
    for slot in 0..count {
        let (id, offset) = (lists.ids[slot], lists.offsets[slot]);
        let (start, relative) =
            lists.starts.as_ref().map_or((0, 0), |of| (of.starts[slot], of.relatives[slot]));
        let wanted = if leftmost.contains(&id) { start as i64 - first as i64 } else { 0 };
        expect("relative start", relative, wanted)?;
        reports.push(Report { moment: None, offset, id, start });
    }
    Ok((answer.taken, reports))
}
