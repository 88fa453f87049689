//! Words of any content: tables and states that are damaged here and there, or made up from
//! nothing, and calls on them, compared with the interpreter of table words: the answer, and every
//! lent word afterwards. States start anywhere in a stream, also past 65,535 and 4,294,967,296
//! bytes and at its limit, with live and held positions, marks and held pairs, after a byte of any
//! kind. Rules have windows near these offsets, and smallest lengths where states keep starts.
//! Each scan is made a second time, with no smaller an allowance. Case i of a run depends on the
//! seed and on i alone.
//! States that keep starts have them at all their positions and pairs, now and then one too many or
//! too large. On a table in which no rule needs a start each call is made on a state without starts
//! too, and must be the same.

use std::collections::BTreeMap;

use corpus::Starts;
use reference::windows::Windows;
use words::calls::{Answer, Calls, Traces, NO_LIMIT};
use words::gaps::{FIRST_GAPS, FOLLOW_GAPS, LAST_GAPS};
use words::interpreter::Interpreter;
use words::layout::*;

use crate::patterns::pattern;
use crate::rng::Rng;
use crate::slices::{carried_further, in_bounds, Scanned};
use crate::traced::{ample, columns};

/// How many starts a state keeps.
const STARTS: usize = TRACED_WORDS - STATE_WORDS;

#[derive(Clone, Debug, Default)]
pub struct Count {
    pub cases: u64,
    pub calls: u64,
    pub reports: u64,
    pub taken: u64,
    /// Units of work.
    pub used: u64,
    /// Calls by their number, and additions.
    pub by_number: BTreeMap<u32, u64>,
    pub additions: BTreeMap<u32, u64>,
    /// Calls with starts that were made without them too.
    pub alike: u64,
    /// By region: words that were changed, and first calls that they gave another outcome.
    pub changed: BTreeMap<Region, u64>,
    pub decided: BTreeMap<Region, u64>,
}

/// Everything that a call is lent.
#[derive(Clone, Debug, PartialEq)]
struct Lent {
    table: Vec<u64>,
    state: Vec<u64>,
    ids: Vec<u32>,
    offsets: Vec<u64>,
    /// Of calls with four lists.
    starts: Option<Starts>,
}

impl Lent {
    /// What a call without starts is lent: the words and slots that both forms have.
    fn without_starts(&self) -> Lent {
        let lengths = self.starts.as_ref().map(|of| of.starts.len().min(of.relatives.len()));
        let space = self.ids.len().min(self.offsets.len()).min(lengths.unwrap_or(usize::MAX));
        Lent {
            table: self.table.clone(),
            state: self.state[..STATE_WORDS].to_vec(),
            ids: self.ids[..space].to_vec(),
            offsets: self.offsets[..space].to_vec(),
            starts: None,
        }
    }

    fn scanned(&self, answer: &Answer) -> Scanned<'_> {
        let &Answer { number, taken, count, used } = answer;
        let (ids, offsets) = (&self.ids[..], &self.offsets[..]);
        Scanned { number, taken, count, used, ids, offsets, starts: self.starts.as_ref() }
    }
}

/// The calls on one form of a state.
trait Form {
    type Calls: Calls;

    /// Does a state keep starts?
    const TRACES: bool;

    fn calls(&self) -> &Self::Calls;

    fn open(&self, table: &[u64], state: &mut [u64]) -> u32;

    /// A scan of a block with an allowance, or a closing.
    fn call(&self, lent: &mut Lent, scan: Option<(&[u8], u64)>) -> Answer;

    fn busy(&self, state: &[u64]) -> u32;
}

/// States without starts.
struct Untraced<'c, C>(&'c C);

impl<C: Calls> Form for Untraced<'_, C> {
    type Calls = C;
    const TRACES: bool = false;

    fn calls(&self) -> &C {
        self.0
    }

    fn open(&self, table: &[u64], state: &mut [u64]) -> u32 {
        self.0.open(table, state)
    }

    fn call(&self, lent: &mut Lent, scan: Option<(&[u8], u64)>) -> Answer {
        let Lent { table, state, ids, offsets, .. } = lent;
        match scan {
            Some((block, allowance)) => self.0.scan(table, state, allowance, block, ids, offsets),
            None => self.0.close(table, state, ids, offsets),
        }
    }

    fn busy(&self, state: &[u64]) -> u32 {
        self.0.busy(state)
    }
}

/// States that keep starts.
struct Traced<'c, C>(&'c C);

impl<C: Calls + Traces> Form for Traced<'_, C> {
    type Calls = C;
    const TRACES: bool = true;

    fn calls(&self) -> &C {
        self.0
    }

    fn open(&self, table: &[u64], state: &mut [u64]) -> u32 {
        self.0.trace_open(table, state)
    }

    fn call(&self, lent: &mut Lent, scan: Option<(&[u8], u64)>) -> Answer {
        let Lent { table, state, ids, offsets, starts } = lent;
        let lists = columns(ids, offsets, starts.get_or_insert_with(|| ample(0)));
        match scan {
            Some((block, allowance)) => self.0.trace_scan(table, state, allowance, block, lists),
            None => self.0.trace_close(table, state, lists),
        }
    }

    fn busy(&self, state: &[u64]) -> u32 {
        self.0.trace_busy(state)
    }
}

/// Runs the cases from `first` on; the first disagreement is the error.
pub fn run<C: Calls>(calls: &C, seed: u64, first: u64, cases: u64) -> Result<Count, String> {
    run_on(&Untraced(calls), &Untraced(&Interpreter), seed, first, cases)
}

/// The same on states that keep starts.
pub fn run_traced<C>(calls: &C, seed: u64, first: u64, cases: u64) -> Result<Count, String>
where
    C: Calls + Traces,
{
    run_on(&Traced(calls), &Traced(&Interpreter), seed, first, cases)
}

fn run_on<F: Form, I: Form>(
    calls: &F,
    interpreter: &I,
    seed: u64,
    first: u64,
    cases: u64,
) -> Result<Count, String> {
    let mut count = Count::default();
    for index in first..first + cases {
        let mut rng = Rng::for_case(seed, index);
        one_case(calls, interpreter, &mut rng, &mut count)
            .map_err(|message| format!("damaged, seed {seed}, case {index}: {message}"))?;
        count.cases += 1;
    }
    Ok(count)
}

fn one_case<F: Form, I: Form>(
    calls: &F,
    interpreter: &I,
    rng: &mut Rng,
    count: &mut Count,
) -> Result<(), String> {
    let Damaged { table, changed } = damaged(rng, F::TRACES);
    changed.iter().for_each(|&(at, _)| one_more(&mut count.changed, region(at)));
    same("test", calls.calls().test(&table), Interpreter.test(&table))?;
    needed(calls.calls(), &table)?;
    let state = if F::TRACES { traced_state(rng, &table) } else { state(rng, &table) };
    let mut lent = Lent { table, state, ids: Vec::new(), offsets: Vec::new(), starts: None };
    for turn in 0..1 + rng.below(4) {
        if turn > 0 && rng.once_in(4) {
            one_more(&mut count.additions, added(calls.calls(), rng, &mut lent)?);
        }
        if rng.once_in(8) || (turn > 0 && rng.once_in(4)) {
            opened(calls, interpreter, &mut lent)?;
        }
        lent.ids = (0..space(rng)).map(|_| rng.word() as u32).collect();
        lent.offsets = (0..space(rng)).map(|_| rng.word()).collect();
        if F::TRACES {
            lent.starts = Some(Starts {
                starts: (0..space(rng)).map(|_| rng.word()).collect(),
                relatives: (0..space(rng)).map(|_| rng.word() as i64).collect(),
            });
        }
        let longest = *rng.pick(&[2, 3, 40, 40, 40]);
        let block: Vec<u8> = (0..rng.below(longest)).map(|_| byte(rng, &lent.table)).collect();
        let scan = (!rng.once_in(6)).then(|| (&block[..], allowance(rng)));
        let before = lent.clone();
        let answer = called(calls, interpreter, rng, &mut lent, scan)
            .map_err(|message| format!("{scan:?} on state {:?}: {message}", before.state))?;
        count.alike += u64::from(alike(calls, before.clone(), &lent, scan, answer)?);
        if turn == 0 {
            let outcome = (answer, lent.clone());
            let deciding = deciding(interpreter, &changed, &before, scan, &outcome);
            deciding.into_iter().for_each(|region| one_more(&mut count.decided, region));
        }
        count.calls += 1;
        one_more(&mut count.by_number, answer.number);
        count.reports += answer.count as u64;
        count.taken += answer.taken as u64;
        count.used += answer.used;
    }
    Ok(())
}

fn one_more<K: Ord>(counts: &mut BTreeMap<K, u64>, of: K) {
    *counts.entry(of).or_default() += 1;
}

/// One call, with what it owes: the interpreter's answer and words; a scan also its units, and that
/// more of them carry it further.
fn called<F: Form, I: Form>(
    calls: &F,
    interpreter: &I,
    rng: &mut Rng,
    lent: &mut Lent,
    scan: Option<(&[u8], u64)>,
) -> Result<Answer, String> {
    same("busy figure", calls.busy(&lent.state), interpreter.busy(&lent.state))?;
    let before = lent.clone();
    let mut wanted = before.clone();
    let answer = calls.call(lent, scan);
    same("answer", answer, interpreter.call(&mut wanted, scan))?;
    if *lent != wanted {
        return Err("other words were left".to_string());
    }
    if answer.number != 0 && *lent != before {
        return Err("a refusal changed a word".to_string());
    }
    if let Some((block, allowance)) = scan {
        let more = allowance.saturating_add(*rng.pick(&[1, 2, 300, NO_LIMIT]));
        let busy = u64::from(calls.busy(&before.state));
        let mut others = before;
        let another = calls.call(&mut others, Some((block, more)));
        in_bounds(&lent.scanned(&answer), allowance, busy)?;
        carried_further(&lent.scanned(&answer), &others.scanned(&another))?;
    }
    Ok(answer)
}

/// Does a rule of these words need a start?
fn needed<C: Calls>(calls: &C, table: &[u64]) -> Result<(), String> {
    same("needs starts", calls.needs_starts(table), Interpreter.needs_starts(table))
}

/// A call with starts that left these words, made without them: where no rule needs a start, it
/// gives the same answer, reports and words, and the call with starts left no start but 0. Says
/// whether there was something to compare; a state may be refused for its starts alone.
fn alike<F: Form>(
    calls: &F,
    before: Lent,
    after: &Lent,
    scan: Option<(&[u8], u64)>,
    answer: Answer,
) -> Result<bool, String> {
    let whole = F::TRACES && before.state.len() >= TRACED_WORDS;
    if !whole || answer.number == 18 || Interpreter.needs_starts(&before.table) != 0 {
        return Ok(false);
    }
    let form = Untraced(calls.calls());
    let mut short = before.without_starts();
    same("busy figure without starts", form.busy(&short.state), calls.busy(&before.state))?;
    same("answer without starts", form.call(&mut short, scan), answer)?;
    if short != after.without_starts() {
        return Err("without starts other words were left".to_string());
    }
    let zero = after.starts.iter().all(|of| {
        of.starts[..answer.count].iter().all(|&start| start == 0)
            && of.relatives[..answer.count].iter().all(|&start| start == 0)
    });
    let kept = answer.taken == 0 || after.state[STATE_WORDS..TRACED_WORDS] == [0; STARTS];
    if !zero || !kept {
        return Err("a start other than 0 where no rule needs one".to_string());
    }
    Ok(true)
}

/// The regions whose changed words gave a call this outcome: with what they were before, it is
/// another.
fn deciding<I: Form>(
    interpreter: &I,
    changed: &[(usize, u64)],
    before: &Lent,
    scan: Option<(&[u8], u64)>,
    outcome: &(Answer, Lent),
) -> Vec<Region> {
    let mut regions: Vec<Region> = changed.iter().map(|&(at, _)| region(at)).collect();
    regions.sort_unstable();
    regions.dedup();
    regions.retain(|&of| {
        let mut whole = before.clone();
        for &(at, was) in changed.iter().rev().filter(|&&(at, _)| region(at) == of) {
            if let Some(word) = whole.table.get_mut(at) {
                *word = was;
            }
        }
        let answer = interpreter.call(&mut whole, scan);
        whole.table.clone_from(&before.table);
        (answer, whole) != *outcome
    });
    regions
}

fn opened<F: Form, I: Form>(calls: &F, interpreter: &I, lent: &mut Lent) -> Result<(), String> {
    let mut wanted = lent.clone();
    let number = calls.open(&lent.table, &mut lent.state);
    same("opening", number, interpreter.open(&wanted.table, &mut wanted.state))?;
    if *lent != wanted {
        return Err("an opening left other words".to_string());
    }
    Ok(())
}

/// An addition, after which the state may be valid no more; its number.
fn added<C: Calls>(calls: &C, rng: &mut Rng, lent: &mut Lent) -> Result<u32, String> {
    let flags = if rng.once_in(8) { LEFTMOST_START } else { *rng.pick(&[0, 1, 4, 8]) };
    let (id, pattern) = (rng.below(40) as u32, pattern(rng));
    let lengths = rng.once_in(2);
    let windows = rng.once_in(2).then(|| windows(rng, lengths));
    let mut wanted = lent.clone();
    let answer = match windows {
        Some(windows) => calls.add_within(&mut lent.table, id, flags, windows, &pattern),
        None => calls.add(&mut lent.table, id, flags, &pattern),
    };
    let within = windows.unwrap_or(Windows::NONE);
    let by_words = Interpreter.add_within(&mut wanted.table, id, flags, within, &pattern);
    same("addition", answer, by_words)?;
    if *lent != wanted {
        let other: Vec<usize> =
            (0..lent.table.len()).filter(|&at| lent.table[at] != wanted.table[at]).collect();
        let pattern = pattern.escape_ascii();
        return Err(format!(
            "the addition of {pattern}, {within:?}, left other words at {other:?}"
        ));
    }
    needed(calls, &lent.table)?;
    Ok(answer.0)
}

/// What was got is what was wanted.
pub(crate) fn same<T>(what: &str, got: T, wanted: T) -> Result<(), String>
where
    T: PartialEq + std::fmt::Debug,
{
    if got == wanted {
        return Ok(());
    }
    Err(format!("{what}: got {got:?}, wanted {wanted:?}"))
}

/// Half the time no limit; nothing, a little, about what a byte costs here, or more than 32 bits hold.
fn allowance(rng: &mut Rng) -> u64 {
    match rng.below(10) {
        0 => 0,
        1 => 1 + rng.word() % 20,
        2 => 250 + rng.word() % 20,
        3 => rng.word() % 3_000,
        4 => (rng.word() % 4) << 32 | rng.word() % 40,
        _ => NO_LIMIT,
    }
}

/// Mostly enough for all rules, each at two offsets.
fn space(rng: &mut Rng) -> usize {
    match rng.below(6) {
        0 => rng.below(12),
        1..=3 => 2 * MAX_RULES,
        _ => 2 * MAX_RULES + rng.below(300),
    }
}

/// A byte that means something in patterns or logs, or one that some position takes.
fn byte(rng: &mut Rng, table: &[u64]) -> u8 {
    let byte = *rng.pick(&[b'a', b'b', b'c', b'A', b'0', b'_', b'-', b' ', 10, 10, 10, 0, 255]);
    if table.len() < TABLE_WORDS || byte == b'\n' || rng.once_in(3) {
        return byte;
    }
    let (q, from) = (position(rng, table), rng.byte());
    let takes = |byte: &u8| has(table, takers(*byte), q);
    (0..=255u8).map(|step| from.wrapping_add(step)).find(takes).unwrap_or(byte)
}

/// A table, and what its changed words were: each change with its place, in their order.
struct Damaged {
    table: Vec<u64>,
    changed: Vec<(usize, u64)>,
}

/// Patterns that match nearly everywhere, some only where the next byte allows it.
const SHORT: [&[u8]; 10] =
    [b"a", b"[ab]+", b"[^c]", br"\b.", br".\b", br"\w\B", b".$", b"^[^c]", br"-$\n", br".*\n\B"];

/// A table of a few rules, or of made-up sets, and then damaged.
fn damaged(rng: &mut Rng, traced: bool) -> Damaged {
    let mut table = vec![0; TABLE_WORDS];
    table.extend((0..rng.below(3)).map(|_| rng.word()));
    Interpreter.empty(&mut table);
    for _ in 0..rng.below(6) {
        let flags = *rng.pick(&[0, 1, 2, 4, 4, 8, 8, 11, 12]);
        let often = if traced { 2 } else { 40 };
        let flags = if rng.once_in(often) { LEFTMOST_START | flags & !SINGLE_MATCH } else { flags };
        let id = rng.below(9) as u32;
        let pattern = if rng.once_in(2) { pattern(rng) } else { rng.pick(&SHORT).to_vec() };
        let lengths = rng.once_in(often);
        Interpreter.add_within(&mut table, id, flags, windows(rng, lengths), &pattern);
    }
    if rng.once_in(4) {
        made_up(rng, &mut table);
        if traced {
            for at in words_in(&[Region::Leftmosts, Region::Keepers]) {
                table[at] = rng.word() | rng.word();
            }
        }
    }
    let mut changed = Vec::new();
    for _ in 0..rng.below(4) {
        let of = rng.pick(&REGIONS).0;
        let most = *rng.pick(&[1, 1, 10, 60]);
        for _ in 0..1 + rng.below(most) {
            changed.push(change(rng, &mut table, of));
        }
    }
    if rng.once_in(40) {
        table.truncate(TABLE_WORDS - 1 - rng.below(2) * rng.below(TABLE_WORDS));
    }
    Damaged { table, changed }
}

/// The words of such a table.
pub fn table(rng: &mut Rng) -> Vec<u64> {
    damaged(rng, false).table
}

/// Some counts and ids that pass the test, and all else of any content: sets thick or thin, owners that
/// are mostly rules, openers that are mostly set, single-match bits past the rules, and sometimes
/// words where a table has none.
fn made_up(rng: &mut Rng, words: &mut [u64]) {
    let rules = *rng.pick(&[1, 2, 5, 32, 33, 63, 64]);
    words[RULES] = rules;
    words[POSITIONS] = *rng.pick(&[0, 1, 63, 64, 65, 128, 255, 256]);
    words[SINGLES] = rng.word();
    words[WINDOWED] = rng.word() & rng.word();
    let mut rising = 0;
    for place in 0..rules as usize {
        rising += 1 + rng.word() % 0x0380_0000;
        words[id(place)] = rising;
        words[lowest(place)] = rng.word() % 4;
        words[highest(place)] = rng.word() % 8;
    }
    let thin = rng.below(6);
    let sets = [Region::Lasts, Region::Lates, Region::Firsts, Region::Takers, Region::Follows];
    for at in words_in(&sets) {
        words[at] = (0..thin).fold(rng.word(), |word, _| word & rng.word());
    }
    for at in words_in(&[Region::Owners]) {
        let (near, any) = (rng.word() % 70, rng.word());
        words[at] = *rng.pick(&[any % rules, any % rules, any % rules, any % rules, near, any]);
    }
    for at in words_in(&[Region::Openers]) {
        let any = rng.word();
        words[at] = *rng.pick(&[0, 1, any]);
    }
    if rng.once_in(2) {
        words_in(&[Region::Lengths]).into_iter().for_each(|at| words[at] = length(rng));
    }
    if rng.once_in(2) {
        words_in(&[Region::Unused]).into_iter().for_each(|at| words[at] = rng.word());
    }
}

/// Mostly no end offsets, else some about the offsets at which states stand, which may fall; and a
/// smallest length if there may be one.
fn windows(rng: &mut Rng, lengths: bool) -> Windows {
    let mut windows = Windows::NONE;
    let any = rng.word() % MAX_STREAM;
    let near = *rng.pick(&[0, 0, 65_500, 4_294_967_260, MAX_STREAM - 50, any]);
    if rng.once_in(8) {
        windows.smallest_end = near + rng.word() % 60;
    }
    if rng.once_in(8) {
        windows.largest_end = near + rng.word() % 60;
    }
    if lengths && rng.once_in(2) {
        windows.smallest_length = length(rng);
    }
    windows
}

/// A smallest length: mostly one that some matches have and others have not.
fn length(rng: &mut Rng) -> u64 {
    match rng.below(10) {
        0 => 0,
        1..=6 => 1 + rng.word() % 3,
        7 => 1 + rng.word() % 30,
        8 => rng.word() % MAX_STREAM,
        _ => u64::MAX - rng.word() % 30,
    }
}

/// One word of a region changed: its place, and what it was.
fn change(rng: &mut Rng, words: &mut [u64], of: Region) -> (usize, u64) {
    let at = if rng.once_in(4) { *rng.pick(&words_in(&[of])) } else { in_use(rng, words, of) };
    let was = words[at];
    words[at] = match rng.below(10) {
        _ if of == Region::Lengths && rng.once_in(2) => length(rng),
        0 | 1 => 0,
        2 | 3 => was ^ 1 << (position(rng, words) % 64),
        4 => was.wrapping_add(1),
        5 => was | 1 << *rng.pick(&[16, 32]),
        6 => rng.word() % 70,
        7 => words[RULES],
        8 => rng.word(),
        _ => u64::MAX,
    };
    (at, was)
}

/// A word of a region that the table's rules, or the bytes of a block, make use of.
fn in_use(rng: &mut Rng, words: &[u64], of: Region) -> usize {
    let (p, q) = (position(rng, words), position(rng, words) / 64);
    match of {
        Region::Lasts => last(rng.below(LAST_GAPS)) + q,
        Region::Lates => LATES + q,
        Region::Firsts => first(rng.below(FIRST_GAPS)) + q,
        Region::Ids => id(rng.below(6)),
        Region::Openers => opener(byte(rng, words)),
        Region::Owners => owner(p),
        Region::Windows => {
            let place = rng.below(6);
            *rng.pick(&[WINDOWED, lowest(place), highest(place)])
        }
        Region::Lengths => *rng.pick(&[LENGTHS, shortest(p), shortest(p)]),
        Region::Keepers => KEEPERS + q,
        Region::Takers => takers(byte(rng, words)) + q,
        Region::Follows => follow(rng.below(FOLLOW_GAPS), p) + q,
        _ => *rng.pick(&words_in(&[of])),
    }
}

/// A position that the table has, or one of the first.
fn position(rng: &mut Rng, words: &[u64]) -> usize {
    rng.below(words[POSITIONS].clamp(1, MAX_POSITIONS as u64) as usize)
}

/// A state that was opened on the table, somewhere in its stream, and then perhaps damaged.
fn state(rng: &mut Rng, table: &[u64]) -> Vec<u64> {
    let mut state = vec![0x5a5a; STATE_WORDS + rng.below(2)];
    Interpreter.open(table, &mut state);
    let positions = state[STATE_POSITIONS].min(MAX_POSITIONS as u64) as usize;
    if positions > 0 {
        for _ in 0..rng.below(6) {
            put(&mut state, *rng.pick(&[0, 0, HELD]), rng.below(positions));
        }
    }
    state[TAKEN] = match rng.below(9) {
        0 | 1 => 0,
        2 => 1 + rng.word() % 2,
        3 => 65_535 - rng.word() % 40,
        4 => 4_294_967_296 - rng.word() % 40,
        5 => MAX_STREAM - rng.word() % 40,
        6 => MAX_STREAM,
        _ => rng.word() % MAX_STREAM,
    };
    state[SIDE] = *rng.pick(&[0, 0, 1, 1, 2, 2, 3, (1 << 32) + 1, u64::MAX]);
    if state[TAKEN] == 0 && !rng.once_in(8) {
        state[..2 * 4].fill(0);
    }
    let pairs = if state[TAKEN] < 2 { rng.once_in(8) } else { rng.once_in(2) };
    for place in 0..state[STATE_RULES].min(MAX_RULES as u64) as usize {
        if table[SINGLES] >> place & 1 == 1 && rng.once_in(8) {
            state[MARKS] |= 1 << place;
        }
        if pairs && rng.once_in(4) {
            state[PENDING] |= 1 << place;
        }
    }
    if rng.once_in(6) {
        damage_state(rng, &mut state);
    }
    if rng.once_in(40) {
        state.truncate(rng.below(STATE_WORDS));
    }
    state
}

/// The same with starts: of each live and held position and each held pair, below the bytes taken, and
/// sometimes at or above them, or where nothing is.
fn traced_state(rng: &mut Rng, table: &[u64]) -> Vec<u64> {
    let mut state = state(rng, table);
    if state.len() < STATE_WORDS || rng.once_in(40) {
        return state;
    }
    state.truncate(STATE_WORDS);
    state.resize(TRACED_WORDS, 0);
    state.extend((0..rng.below(2)).map(|_| rng.word()));
    let taken = state[TAKEN];
    let near = *rng.pick(&[2, 20, u64::MAX]);
    let start = |rng: &mut Rng| match taken {
        0 => 0,
        _ => taken - 1 - rng.word() % taken.min(near),
    };
    for p in 0..MAX_POSITIONS {
        if has(&state, 0, p) {
            state[LIVE_STARTS + p] = start(rng);
        }
        if has(&state, HELD, p) {
            state[HELD_STARTS + p] = start(rng);
        }
    }
    for a in (0..MAX_RULES).filter(|a| state[PENDING] >> a & 1 == 1).collect::<Vec<_>>() {
        state[PAIR_STARTS + a] = start(rng);
    }
    if rng.once_in(8) {
        let at = LIVE_STARTS + rng.below(TRACED_WORDS - LIVE_STARTS);
        state[at] = *rng.pick(&[1, taken, taken.saturating_add(1), 1 << 63, u64::MAX]);
    }
    if rng.once_in(40) {
        state.truncate(rng.below(TRACED_WORDS));
    }
    state
}

fn damage_state(rng: &mut Rng, state: &mut [u64]) {
    let at = rng.below(STATE_WORDS);
    state[at] = match rng.below(6) {
        0 => rng.word(),
        1 => state[at] ^ 1 << rng.below(64),
        2 => state[at].wrapping_add(1 << 32),
        3 => state[at].wrapping_add(1),
        4 => MAX_STREAM + 1,
        _ => u64::MAX,
    };
}
