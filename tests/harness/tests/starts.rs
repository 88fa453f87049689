//! Streams that keep starts, with one slip each, made from the model. The corpus and the random mode
//! must find every one of them.

mod finding;

use corpus::Lists;
use harness::exhaustive::MEANING;
use harness::model::Model;
use harness::traced::{self, ample};
use harness::watcher::{Answer, Change, Watcher};
use reference::calls::{Table, Traced};
use reference::known::Known;
use reference::meaning::ends;
use reference::rule::{check, Rule};

/// What the slips are made from.
const MODEL: traced::Traced<Model> = traced::Traced(Model);

#[derive(Clone, Copy, Debug, PartialEq)]
enum Slip {
    LargestStart,
    StartThatTheWholeBlockSettles,
    StartWithoutTheFlag,
    RelativeFromTheLastByte,
    RelativeAtClosingFromTheLastByte,
    RelativeOfARuleWithoutTheFlag,
    HeldPairsForgetTheirStarts,
    HeldPositionsForgetTheirStarts,
    LatePairsStartWithTheirByte,
    SpaceOfTwoLists,
    WritesStartsPastTheCount,
    AnyStartIsValid,
    TwentyFourAfterThree,
    FlagIsUnknown,
    FlagBesidesSingleMatch,
}

use Slip::*;

const SLIPS: [Slip; 15] = [
    LargestStart,
    StartThatTheWholeBlockSettles,
    StartWithoutTheFlag,
    RelativeFromTheLastByte,
    RelativeAtClosingFromTheLastByte,
    RelativeOfARuleWithoutTheFlag,
    HeldPairsForgetTheirStarts,
    HeldPositionsForgetTheirStarts,
    LatePairsStartWithTheirByte,
    SpaceOfTwoLists,
    WritesStartsPastTheCount,
    AnyStartIsValid,
    TwentyFourAfterThree,
    FlagIsUnknown,
    FlagBesidesSingleMatch,
];

/// The model's table, and its rules.
#[derive(Clone, PartialEq)]
struct Rules {
    table: Table,
    rules: Vec<Rule>,
}

/// The model's state, and the bytes taken.
#[derive(Clone, PartialEq)]
struct Bytes {
    stream: Traced,
    bytes: Vec<u8>,
}

/// The starts of all matches of the rule up to this offset, by what is known.
fn starts(rule: &Rule, offset: u64, known: &Known) -> Vec<u64> {
    let matches = |start: &usize| ends(&rule.tree, &[*start], known).contains(&(offset as usize));
    (0..offset as usize).filter(matches).map(|start| start as u64).collect()
}

impl Slip {
    /// The report of a rule at an offset with this start and relative start, as the slip has it. The
    /// call began with the first of these bytes, and they are all that it has taken, or at closing all.
    fn start(
        self,
        rule: &Rule,
        offset: u64,
        (start, relative): (u64, i64),
        (first, bytes, closing): (u64, &[u8], bool),
    ) -> (u64, i64) {
        let leftmost = rule.leftmost_start();
        let length = bytes.len() as u64;
        let from = |start: u64| (start, start as i64 - first as i64);
        let at_last_line = closing && bytes.last() == Some(&b'\n');
        let now = Known { base: 0, before: 0, bytes, end: closing };
        match self {
            LargestStart if leftmost => {
                let moments = [offset, offset + 1].into_iter().filter(|&taken| taken <= length);
                let found = moments
                    .map(|taken| starts(rule, offset, &Known::after(&bytes[..taken as usize])))
                    .chain([starts(rule, offset, &now)])
                    .find(|found| !found.is_empty());
                from(found.and_then(|found| found.last().copied()).unwrap_or(start))
            }
            StartThatTheWholeBlockSettles if leftmost => from(
                starts(rule, offset, &Known::at_closing(bytes)).first().copied().unwrap_or(start),
            ),
            StartWithoutTheFlag if !leftmost => {
                from(starts(rule, offset, &now).first().copied().unwrap_or(start))
            }
            RelativeFromTheLastByte if leftmost && !closing => {
                (start, start as i64 - length as i64)
            }
            RelativeAtClosingFromTheLastByte if leftmost && closing => (start, relative + 1),
            RelativeOfARuleWithoutTheFlag if !leftmost => (start, -(first as i64)),
            HeldPairsForgetTheirStarts if leftmost && at_last_line && offset + 1 == length => {
                from(0)
            }
            HeldPositionsForgetTheirStarts if leftmost && at_last_line && offset == length => {
                from(starts(rule, offset, &now).last().copied().unwrap_or(start))
            }
            LatePairsStartWithTheirByte if leftmost && !closing && offset == first => {
                from(offset - 1)
            }
            _ => (start, relative),
        }
    }

    /// The reports in the lists, as the slip has them.
    fn written(
        self,
        rules: &[Rule],
        answer: &Answer<Traced>,
        call: (u64, &[u8], bool),
        lists: &mut Lists,
    ) {
        let Some(of) = &mut lists.starts else { return };
        let slots = of.starts.len().min(of.relatives.len());
        for slot in 0..answer.count.min(slots) {
            let rule = rules.iter().find(|rule| rule.id == lists.ids[slot]);
            let pair = (of.starts[slot], of.relatives[slot]);
            let Some(rule) = rule else { continue };
            (of.starts[slot], of.relatives[slot]) =
                self.start(rule, lists.offsets[slot], pair, call);
        }
        if self == WritesStartsPastTheCount && answer.number == 0 {
            if let Some(past) = of.starts.get_mut(answer.count) {
                *past = 0;
            }
        }
    }

    /// A call of the model; for one slip with start lists that are long enough, cut off afterwards.
    fn called(
        self,
        lists: &mut Lists,
        call: impl FnOnce(&mut Lists) -> Answer<Traced>,
    ) -> Answer<Traced> {
        let Some(of) = lists.starts.clone().filter(|_| self == SpaceOfTwoLists) else {
            return call(lists);
        };
        lists.starts = Some(ample(lists.ids.len().min(lists.offsets.len())));
        let answer = call(lists);
        let long = lists.starts.replace(of);
        if let (Some(of), Some(long)) = (&mut lists.starts, long) {
            of.starts.iter_mut().zip(&long.starts).take(answer.count).for_each(|(a, b)| *a = *b);
            let relatives = of.relatives.iter_mut().zip(&long.relatives);
            relatives.take(answer.count).for_each(|(a, b)| *a = *b);
        }
        answer
    }
}

fn answer(answer: Answer<Traced>, bytes: Vec<u8>) -> Answer<Bytes> {
    let Answer { number, taken, count, used, stream } = answer;
    Answer { number, taken, count, used, stream: Bytes { stream, bytes } }
}

impl Watcher for Slip {
    type Table = Rules;
    type Stream = Bytes;

    fn words(&self, count: usize) -> Rules {
        Rules { table: MODEL.words(count), rules: Vec::new() }
    }

    fn resized(&self, table: &Rules, count: usize) -> Rules {
        Rules { table: MODEL.resized(&table.table, count), rules: table.rules.clone() }
    }

    fn empty(&self, table: &mut Rules) -> u32 {
        let number = MODEL.empty(&mut table.table);
        if number == 0 {
            table.rules.clear();
        }
        number
    }

    fn add(&self, table: &mut Rules, id: u32, flags: u32, pattern: &[u8]) -> (u32, usize) {
        let answer = MODEL.add(&mut table.table, id, flags, pattern);
        match (self, answer.0) {
            (TwentyFourAfterThree, 24) if table.rules.iter().any(|rule| rule.id == id) => {
                return (3, 0);
            }
            (FlagIsUnknown, 24) => return (2, 0),
            (FlagBesidesSingleMatch, 24) => return self.add(table, id, flags & !8, pattern),
            _ => {}
        }
        if answer.0 == 0 {
            table.rules.extend(check(&table.rules, id, flags, pattern));
        }
        answer
    }

    fn traces(&self) -> bool {
        true
    }

    fn open(&self, table: &Rules) -> (u32, Bytes) {
        let (number, stream) = MODEL.open(&table.table);
        (number, Bytes { stream, bytes: Vec::new() })
    }

    fn scan(
        &self,
        table: &Rules,
        stream: Bytes,
        allowance: u64,
        block: &[u8],
        ids: &mut [u32],
        offsets: &mut [u64],
    ) -> Answer<Bytes> {
        let mut bytes = stream.bytes;
        let of = MODEL.scan(&table.table, stream.stream, allowance, block, ids, offsets);
        bytes.extend(&block[..of.taken]);
        answer(of, bytes)
    }

    fn close(
        &self,
        table: &Rules,
        stream: Bytes,
        ids: &mut [u32],
        offsets: &mut [u64],
    ) -> Answer<Bytes> {
        let of = MODEL.close(&table.table, stream.stream, ids, offsets);
        answer(of, stream.bytes)
    }

    fn scan_into(
        &self,
        table: &Rules,
        stream: Bytes,
        allowance: u64,
        block: &[u8],
        lists: &mut Lists,
    ) -> Answer<Bytes> {
        let Bytes { stream, mut bytes } = stream;
        let first = bytes.len() as u64;
        let of = self
            .called(lists, |lists| MODEL.scan_into(&table.table, stream, allowance, block, lists));
        bytes.extend(&block[..of.taken]);
        self.written(&table.rules, &of, (first, &bytes, false), lists);
        answer(of, bytes)
    }

    fn close_into(&self, table: &Rules, stream: Bytes, lists: &mut Lists) -> Answer<Bytes> {
        let Bytes { stream, bytes } = stream;
        let of = self.called(lists, |lists| MODEL.close_into(&table.table, stream, lists));
        self.written(&table.rules, &of, (bytes.len() as u64, &bytes, true), lists);
        answer(of, bytes)
    }

    fn busy(&self, stream: &Bytes) -> usize {
        MODEL.busy(&stream.stream)
    }

    fn changed(&self, stream: &Bytes, change: Change) -> Option<Bytes> {
        if *self == AnyStartIsValid && matches!(change, Change::Start(..)) {
            return Some(stream.clone());
        }
        // Far into a stream the bytes before are not there.
        if matches!(change, Change::Total(_)) {
            return None;
        }
        let changed = MODEL.changed(&stream.stream, change)?;
        Some(Bytes { stream: changed, bytes: stream.bytes.clone() })
    }
}

#[test]
fn every_slip_is_found_by_the_corpus() {
    finding::by_the_corpus(&SLIPS);
}

#[test]
fn every_slip_is_found_at_random() {
    // No random state has starts set by hand.
    let random: Vec<Slip> = SLIPS.into_iter().filter(|&slip| slip != AnyStartIsValid).collect();
    finding::at_random(&random, 20_000);
}

#[test]
fn some_are_found_among_all_small_patterns() {
    let slips = [LargestStart, RelativeFromTheLastByte, HeldPairsForgetTheirStarts];
    finding::among_all(&slips, MEANING, 3, 3);
}
