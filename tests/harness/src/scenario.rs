//! A scenario: additions, a log, and what a caller does with them. `predict` turns it into a case
//! whose answers come from the definition alone: the ordered list of the rules and the bytes, the
//! busy figure before each byte, and the order of the checks. So a scenario can be played on any
//! watcher, made smaller, or printed.

use corpus::{Call, Case, Line, Lists, Starts, Work};
use reference::ordered::{ordered, Moment, Pair};
use reference::refusal::{least_space, TABLE_WORDS};
use reference::rule::{check_within, Rule};
use reference::ways::busy;
use reference::windows::Windows;

use crate::definition::{add_all, written};

#[derive(Clone, Debug, PartialEq, Eq)]
pub struct Addition {
    pub id: u32,
    pub flags: u32,
    pub windows: Windows,
    pub pattern: Vec<u8>,
}

impl Addition {
    /// One without windows.
    pub fn new(id: u32, flags: u32, pattern: &[u8]) -> Addition {
        Addition { id, flags, windows: Windows::NONE, pattern: pattern.to_vec() }
    }
}

/// The units that a scan may use.
#[derive(Clone, Copy, Debug, PartialEq, Eq)]
pub enum Allowance {
    NoLimit,
    Units(u64),
    /// What so many of the bytes offered cost, or all of them if they are fewer.
    Cost(usize),
    /// One unit less than that.
    OneLess(usize),
}

impl Allowance {
    /// The units, for an offer of bytes that cost so many; none for no limit.
    fn units(self, costs: &[u64]) -> Option<u64> {
        let cost = |bytes: usize| costs.iter().take(bytes).sum::<u64>();
        match self {
            Allowance::NoLimit => None,
            Allowance::Units(units) => Some(units),
            Allowance::Cost(bytes) => Some(cost(bytes)),
            Allowance::OneLess(bytes) => Some(cost(bytes).saturating_sub(1)),
        }
    }
}

/// One thing that the caller does. Sizes are those of the two lent lists; of four, two have these sizes and
/// two are no shorter.
#[derive(Clone, Debug, PartialEq, Eq)]
pub enum Step {
    /// Offers so many of the log's next bytes; `drop` leaves out for good those not taken.
    Scan {
        bytes: usize,
        ids: usize,
        offsets: usize,
        allowance: Allowance,
        drop: bool,
    },
    /// Offers so many of the log's next bytes until they are taken, or a call takes none of them.
    Offer {
        bytes: usize,
        space: usize,
        allowance: Allowance,
    },
    Close {
        ids: usize,
        offsets: usize,
    },
    Figure,
    /// Opens a new stream and starts the log again.
    Again,
    /// An emptying and a scan with one word too few.
    ShortTable,
    /// An addition and a closing with words that are no table.
    NoTable,
    /// A scan with the state of a refused opening.
    RefusedState,
    /// A scan with the state of this table on the table with one more rule.
    GrownTable,
    /// An addition that is refused.
    Add(Addition),
}

#[derive(Clone, Debug, PartialEq, Eq)]
pub struct Scenario {
    pub additions: Vec<Addition>,
    pub log: Vec<u8>,
    pub steps: Vec<Step>,
    /// Do the streams keep starts?
    pub traced: bool,
}

/// The case that the definition makes of a scenario. After its steps, if no closing was accepted,
/// the rest of the log is offered with ample space and the stream is closed.
pub fn predict(scenario: &Scenario) -> Case {
    let (rules, answers) = add_all(&scenario.additions);
    predict_with(scenario, &rules, &answers)
}

/// The same for additions whose rules and answers are known already.
pub fn predict_with(scenario: &Scenario, rules: &[Rule], answers: &[(u32, usize)]) -> Case {
    let mut caller = Caller {
        rules,
        log: &scenario.log,
        log_list: ordered(rules, &scenario.log),
        log_costs: costs(rules, &scenario.log, 0),
        next: 0,
        stream: Vec::new(),
        joined: Vec::new(),
        closed: false,
        traced: scenario.traced,
        lines: Vec::new(),
    };
    for (addition, (number, place)) in scenario.additions.iter().zip(answers) {
        caller.lines.push(rule_line(addition, *number, *place));
    }
    caller.lines.push(Line::Open(0));
    for step in &scenario.steps {
        caller.step(step);
    }
    if !caller.closed {
        let least = least_space(rules.len());
        let allowance = Allowance::NoLimit;
        caller.step(&Step::Offer { bytes: usize::MAX, space: least + 3, allowance });
        caller.step(&Step::Close { ids: least, offsets: least });
        caller.step(&Step::Figure);
    }
    Case { name: "generated".to_string(), origin: "generated".to_string(), lines: caller.lines }
}

fn rule_line(addition: &Addition, number: u32, place: usize) -> Line {
    let Addition { id, flags, windows, pattern } = addition.clone();
    Line::Rule { id, flags, pattern, number, place, windows: written(&windows) }
}

/// What each byte of the stream costs by definition, from this one on: a unit, and the busy figure
/// before it.
fn costs(rules: &[Rule], stream: &[u8], from: usize) -> Vec<u64> {
    (from..stream.len()).map(|n| 1 + busy(rules, &stream[..n]) as u64).collect()
}

/// Lists of these lengths with old contents that no report has.
fn old_lists([ids, offsets, starts, relatives]: [usize; 4], traced: bool) -> Lists {
    let beyond = || Starts {
        starts: (0..starts).map(|i| u64::MAX - 1_000 - i as u64).collect(),
        relatives: (0..relatives).map(|i| i64::MIN + i as i64).collect(),
    };
    Lists {
        ids: (0..ids).map(|i| 3_000_000_000 + i as u32).collect(),
        offsets: (0..offsets).map(|i| u64::MAX - i as u64).collect(),
        starts: traced.then(beyond),
    }
}

struct Caller<'s> {
    rules: &'s [Rule],
    log: &'s [u8],
    /// The ordered list of the whole log.
    log_list: Vec<Pair>,
    /// What each byte of the log costs.
    log_costs: Vec<u64>,
    /// The log's next byte to offer.
    next: usize,
    /// The bytes taken.
    stream: Vec<u8>,
    /// The reports of the calls so far, joined.
    joined: Vec<Pair>,
    closed: bool,
    traced: bool,
    lines: Vec<Line>,
}

impl Caller<'_> {
    fn step(&mut self, step: &Step) {
        match step {
            Step::Scan { bytes, ids, offsets, allowance, drop } => {
                self.scan(*bytes, *ids, *offsets, *allowance, *drop)
            }
            Step::Offer { bytes, space, allowance } => {
                let until = self.next.saturating_add(*bytes).min(self.log.len());
                let mut taken = true;
                while taken && self.next < until && self.number(*space) == 0 {
                    let before = self.next;
                    self.scan(until - self.next, *space, *space, *allowance, false);
                    taken = self.next > before;
                }
            }
            Step::Close { ids, offsets } => self.close(*ids, *offsets),
            Step::Figure => self.lines.push(Line::Figure(busy(self.rules, &self.stream))),
            Step::Again => {
                self.lines.push(Line::Open(0));
                self.next = 0;
                self.stream.clear();
                self.joined.clear();
                self.closed = false;
            }
            Step::ShortTable => {
                self.lines.extend([Line::Lend(Some(TABLE_WORDS - 1)), Line::Empty(1)]);
                self.refused_scan(1);
                self.lines.push(Line::Lend(Some(TABLE_WORDS)));
            }
            Step::NoTable => {
                let addition = Addition::new(0, 16, b")");
                self.lines.extend([Line::Lend(None), rule_line(&addition, 1, 0)]);
                let space = least_space(self.rules.len());
                self.answer(None, self.lists(space, space), 1, &[], 0, None);
                self.lines.push(Line::Lend(Some(TABLE_WORDS)));
            }
            Step::RefusedState => {
                self.lines.extend([Line::Keep, Line::Lend(Some(0)), Line::Open(1)]);
                self.lines.push(Line::Lend(Some(TABLE_WORDS)));
                self.refused_scan(if self.rules.is_empty() { 19 } else { 18 });
                self.lines.push(Line::Back);
            }
            Step::GrownTable => self.grown_table(),
            Step::Add(addition) => {
                let Addition { id, flags, windows, pattern } = addition;
                let added = check_within(self.rules, *id, *flags, *windows, pattern);
                if let Err(refusal) = added {
                    self.lines.push(rule_line(addition, refusal.number, refusal.place));
                }
            }
        }
    }

    fn grown_table(&mut self) {
        let id = (0..).find(|id| self.rules.iter().all(|rule| rule.id != *id)).unwrap_or(0);
        if check_within(self.rules, id, 0, Windows::NONE, b"a").is_ok() {
            let addition = Addition::new(id, 0, b"a");
            self.lines.extend([Line::Keep, rule_line(&addition, 0, 0)]);
            self.refused_scan(18);
            self.lines.push(Line::Back);
        }
    }

    fn refused_scan(&mut self, number: u32) {
        let space = least_space(self.rules.len()) + 1;
        let work = Work { allowance: Some(1), used: 0 };
        self.answer(Some(b"a".to_vec()), self.lists(space, space), number, &[], 0, Some(work));
    }

    /// Lists of these two lengths. Where there are four, the other two are no shorter, and it goes by
    /// turns which they are.
    fn lists(&self, ids: usize, offsets: usize) -> Lists {
        let longer = ids.max(offsets);
        let mut lengths = [ids, offsets, longer + 1, longer];
        if self.traced {
            lengths.rotate_right(self.lines.len() % 4);
        }
        old_lists(lengths, self.traced)
    }

    /// The number of an accepted or refused call on the present state with this space.
    fn number(&self, space: usize) -> u32 {
        if !self.traced && self.rules.iter().any(Rule::needs_starts) {
            return 18;
        }
        match (self.closed, space < least_space(self.rules.len())) {
            (true, _) => 19,
            (false, true) => 20,
            (false, false) => 0,
        }
    }

    fn scan(&mut self, bytes: usize, ids: usize, offsets: usize, allowance: Allowance, drop: bool) {
        let until = self.next.saturating_add(bytes).min(self.log.len());
        let block = self.log[self.next..until].to_vec();
        let space = ids.min(offsets);
        let number = self.number(space);
        let (coming, costs) = self.coming(&block);
        let allowance = allowance.units(&costs);
        let mut reports: Vec<Pair> = Vec::new();
        let (mut taken, mut used) = (0, 0);
        if number == 0 {
            for (of_byte, cost) in coming.into_iter().zip(costs) {
                let paid = allowance.map_or(true, |units| used + cost <= units);
                if !paid || reports.len() + of_byte.len() > space {
                    break;
                }
                reports.extend(of_byte);
                taken += 1;
                used += cost;
            }
        }
        self.next = if drop && number == 0 { until } else { self.next + taken };
        let work = Some(Work { allowance, used });
        let bytes = block[..taken].to_vec();
        self.answer(Some(block), self.lists(ids, offsets), number, &reports, taken, work);
        self.stream.extend(bytes);
    }

    /// What the definition lists at each byte of the block, were all of it taken next, and what each
    /// costs. A byte's moment and cost have to do with the bytes up to it only.
    fn coming(&self, block: &[u8]) -> (Vec<Vec<Pair>>, Vec<u64>) {
        let before = self.stream.len();
        let longer: Vec<u8> = [&self.stream[..], block].concat();
        let other;
        let (list, costs) = if self.log.starts_with(&longer) {
            (&self.log_list, self.log_costs[before..longer.len()].to_vec())
        } else {
            other = ordered(self.rules, &longer);
            (&other, costs(self.rules, &longer, before))
        };
        let reports = (1..=block.len())
            .map(|n| {
                let moment = Moment::After((before + n) as u64);
                list.iter().filter(|pair| pair.moment == moment).copied().collect()
            })
            .collect();
        (reports, costs)
    }

    fn close(&mut self, ids: usize, offsets: usize) {
        let number = self.number(ids.min(offsets));
        let mut reports = Vec::new();
        if number == 0 {
            let other;
            let list = if self.log == self.stream {
                &self.log_list
            } else {
                other = ordered(self.rules, &self.stream);
                &other
            };
            reports = list.iter().filter(|p| p.moment == Moment::Closing).copied().collect();
            let joined = [&self.joined[..], &reports].concat();
            assert_eq!(&joined, list, "the calls' reports, joined, are the ordered list");
            self.closed = true;
        }
        self.answer(None, self.lists(ids, offsets), number, &reports, 0, None);
    }

    /// Writes a call down, made before its bytes are those of the stream: so the bytes so far are how
    /// far its first byte, or the end, is from the start.
    fn answer(
        &mut self,
        block: Option<Vec<u8>>,
        before: Lists,
        number: u32,
        reports: &[Pair],
        taken: usize,
        work: Option<Work>,
    ) {
        let mut after = before.clone();
        for (slot, pair) in reports.iter().enumerate() {
            after.ids[slot] = pair.id;
            after.offsets[slot] = pair.offset;
            if let Some(Starts { starts, relatives }) = &mut after.starts {
                starts[slot] = pair.start;
                relatives[slot] = self.relative(pair);
            }
        }
        self.joined.extend(reports);
        let count = reports.len();
        self.lines.push(Line::Call(Call { block, before, number, taken, count, after, work }));
    }

    /// The start measured from the bytes taken before the present call.
    fn relative(&self, pair: &Pair) -> i64 {
        let leftmost = |rule: &Rule| rule.id == pair.id && rule.leftmost_start();
        if self.rules.iter().any(leftmost) {
            pair.start as i64 - self.stream.len() as i64
        } else {
            0
        }
    }
}
