//! A case and its lines, read and written. The format:
//!
//! ```text
//! case NAME                       ends at an empty line; (P) marks one to be proved as well
//! rule ID FLAGS HEX NUMBER PLACE  an addition; HEX '-' is the empty pattern
//! rule .. within LOW HIGH LENGTH  an addition with windows: smallest and largest end offset and
//!                                 smallest length, '-' for one that is left out
//! ```
//!
//! then either what a whole stream gives, whatever the calls are like:
//!
//! ```text
//! block HEX                       offered in turn until taken; then the stream is closed
//! report MOMENT OFFSET ID         the ordered list; MOMENT is the count of bytes taken,
//!                                 or 'closing'
//! report MOMENT OFFSET ID START   with a start other than 0
//! busy F0 F1 ..                   the busy figure after 0, 1, .. bytes of the joined blocks
//! ```
//!
//! or calls, carried out in turn, with further `rule` lines between them if wanted:
//!
//! ```text
//! open NUMBER                     opens a stream; its state is the one that the next calls get
//! scan HEX IDS OFFSETS NUMBER TAKEN COUNT IDS OFFSETS
//! close IDS OFFSETS NUMBER COUNT IDS OFFSETS
//!                                 the two lent lists before, the answer, the lists afterwards;
//!                                 a list is numbers with commas between, '-' when it has no slot
//! scan .. used N of ALLOWANCE     a scan that may use so many units of work, and uses N
//! scan .. used N                  a scan without limit, as the one above, that uses N units
//! traced scan .., traced close .. a scan or a closing with four lists wherever there are two above:
//!                                 IDS OFFSETS STARTS RELATIVES
//! figure N                        the busy figure of the present state
//! empty NUMBER                    empties the table
//! lend N                          lends N words from here on: the table's first ones, or more
//! lend none                       lends 16,384 words that are no table, until the next 'lend'
//! keep, back                      sets table and state aside, and takes them up again
//! state total N, state live N, state mark N, state held N, state pair N, state last N
//!                                 the present state, changed by hand: another byte total, one
//!                                 more live position, one more rule marked "already reported",
//!                                 one more held position, one more rule with a pair held for the
//!                                 offset before the last byte, another kind of last byte: 1 a
//!                                 word byte, 2 a newline, any other number neither
//! state start live N START, state start held N START, state start pair N START
//!                                 another start of a live position, of a held position, of a
//!                                 rule's held pair
//! ```
//!
//! A case with traced calls, or with starts set by hand, is for streams that keep starts. Any other is
//! for all streams, but for one of calls in which a rule needs a start: that is for streams that keep
//! none.
//!
//! Every case starts with 16,384 words lent and emptied. Numbers are decimal. A line that starts
//! with '#' is a comment.

use std::fmt;

use crate::hex;

/// The lent lists.
#[derive(Clone, Debug, PartialEq, Eq)]
pub struct Lists {
    pub ids: Vec<u32>,
    pub offsets: Vec<u64>,
    /// Those of a traced call.
    pub starts: Option<Starts>,
}

/// The two further lists of a traced call: starts in the stream, and measured from the first byte lent.
#[derive(Clone, Debug, PartialEq, Eq)]
pub struct Starts {
    pub starts: Vec<u64>,
    pub relatives: Vec<i64>,
}

/// The windows of an addition, each of which may be left out.
#[derive(Clone, Copy, Debug, Default, PartialEq, Eq)]
pub struct Windows {
    pub smallest_end: Option<u64>,
    pub largest_end: Option<u64>,
    pub smallest_length: Option<u64>,
}

/// What a state keeps a start for.
#[derive(Clone, Copy, Debug, PartialEq, Eq)]
pub enum Kept {
    Live,
    Held,
    Pair,
}

/// The flag of a rule that reports starts.
const LEFTMOST_START: u32 = 256;

/// The work of a scan: the units that it may use, none for no limit, and those that it uses.
#[derive(Clone, Copy, Debug, PartialEq, Eq)]
pub struct Work {
    pub allowance: Option<u64>,
    pub used: u64,
}

/// A scan (with a block) or a closing (without): what is lent and what comes back.
#[derive(Clone, Debug, PartialEq, Eq)]
pub struct Call {
    pub block: Option<Vec<u8>>,
    pub before: Lists,
    pub number: u32,
    pub taken: usize,
    pub count: usize,
    pub after: Lists,
    /// None for a closing, and for a scan without limit whose units are not written.
    pub work: Option<Work>,
}

/// One pair of the ordered list; without a moment it falls at closing.
#[derive(Clone, Copy, Debug, PartialEq, Eq)]
pub struct Report {
    pub moment: Option<u64>,
    pub offset: u64,
    pub id: u32,
    /// 0 for a rule that reports none.
    pub start: u64,
}

#[derive(Clone, Debug, PartialEq, Eq)]
pub enum Line {
    Rule {
        id: u32,
        flags: u32,
        pattern: Vec<u8>,
        number: u32,
        place: usize,
        windows: Windows,
    },
    Block(Vec<u8>),
    Report(Report),
    Busy(Vec<usize>),
    Open(u32),
    Call(Call),
    Figure(usize),
    Empty(u32),
    /// None: words that are no table.
    Lend(Option<usize>),
    Keep,
    Back,
    StateTotal(u64),
    StateLive(usize),
    StateMark(usize),
    StateHeld(usize),
    StatePair(usize),
    StateLast(u64),
    StateStart(Kept, usize, u64),
}

#[derive(Clone, Debug)]
pub struct Case {
    pub name: String,
    /// File and line, for messages.
    pub origin: String,
    pub lines: Vec<Line>,
}

impl Case {
    /// Does it spell out calls?
    pub fn has_calls(&self) -> bool {
        let plain = |l: &Line| {
            matches!(l, Line::Rule { .. } | Line::Block(_) | Line::Report(_) | Line::Busy(_))
        };
        !self.lines.iter().all(plain)
    }

    /// Is it for streams that keep starts?
    pub fn is_traced(&self) -> bool {
        self.lines.iter().any(|line| match line {
            Line::Call(call) => call.before.starts.is_some(),
            Line::StateStart(..) => true,
            _ => false,
        })
    }

    /// Is it for streams that keep no starts?
    pub fn is_untraced(&self) -> bool {
        self.has_calls() && !self.is_traced() && self.needs_starts()
    }

    /// Does one of its rules need starts?
    pub fn needs_starts(&self) -> bool {
        self.lines.iter().any(|line| match line {
            Line::Rule { flags, number: 0, windows, .. } => {
                flags & LEFTMOST_START != 0
                    || windows.smallest_length.is_some_and(|least| least > 0)
            }
            _ => false,
        })
    }

    pub fn blocks(&self) -> Vec<Vec<u8>> {
        let block = |l: &Line| if let Line::Block(b) = l { Some(b.clone()) } else { None };
        self.lines.iter().filter_map(block).collect()
    }

    pub fn reports(&self) -> Vec<Report> {
        let report = |l: &Line| if let Line::Report(r) = l { Some(*r) } else { None };
        self.lines.iter().filter_map(report).collect()
    }

    /// The figures of the busy line, if there is one.
    pub fn busy(&self) -> Option<Vec<usize>> {
        self.lines.iter().find_map(|l| if let Line::Busy(f) = l { Some(f.clone()) } else { None })
    }
}

/// One line of a case, by its words.
pub fn line(text: &str) -> Result<Line, String> {
    let words: Vec<&str> = text.split(' ').collect();
    Ok(match words[..] {
        ["rule", id, flags, pattern, number, place, ref end @ ..] => Line::Rule {
            id: hex::number(id)?,
            flags: hex::number(flags)?,
            pattern: hex::bytes(pattern)?,
            number: hex::number(number)?,
            place: hex::number(place)?,
            windows: windows(end)?,
        },
        ["block", block] => Line::Block(hex::bytes(block)?),
        ["report", moment, offset, id] => report(moment, offset, id, "0")?,
        ["report", moment, offset, id, start] => report(moment, offset, id, start)?,
        ["busy", ref figures @ ..] => {
            Line::Busy(figures.iter().map(|f| hex::number(f)).collect::<Result<_, _>>()?)
        }
        ["open", number] => Line::Open(hex::number(number)?),
        ["scan", block, ref rest @ ..] => call(Some(block), 2, rest, text)?,
        ["close", ref rest @ ..] => call(None, 2, rest, text)?,
        ["traced", "scan", block, ref rest @ ..] => call(Some(block), 4, rest, text)?,
        ["traced", "close", ref rest @ ..] => call(None, 4, rest, text)?,
        ["figure", n] => Line::Figure(hex::number(n)?),
        ["empty", number] => Line::Empty(hex::number(number)?),
        ["lend", "none"] => Line::Lend(None),
        ["lend", words] => Line::Lend(Some(hex::number(words)?)),
        ["keep"] => Line::Keep,
        ["back"] => Line::Back,
        ["state", "total", n] => Line::StateTotal(hex::number(n)?),
        ["state", "live", n] => Line::StateLive(hex::number(n)?),
        ["state", "mark", n] => Line::StateMark(hex::number(n)?),
        ["state", "held", n] => Line::StateHeld(hex::number(n)?),
        ["state", "pair", n] => Line::StatePair(hex::number(n)?),
        ["state", "last", n] => Line::StateLast(hex::number(n)?),
        ["state", "start", kept, n, start] => {
            let kept = match kept {
                "live" => Kept::Live,
                "held" => Kept::Held,
                "pair" => Kept::Pair,
                _ => return Err(format!("'{kept}' keeps no start")),
            };
            Line::StateStart(kept, hex::number(n)?, hex::number(start)?)
        }
        _ => return Err(format!("'{text}' is no line of a case")),
    })
}

fn report(moment: &str, offset: &str, id: &str, start: &str) -> Result<Line, String> {
    Ok(Line::Report(Report {
        moment: if moment == "closing" { None } else { Some(hex::number(moment)?) },
        offset: hex::number(offset)?,
        id: hex::number(id)?,
        start: hex::number(start)?,
    }))
}

/// The last words of a rule's line.
fn windows(words: &[&str]) -> Result<Windows, String> {
    let window = |word: &str| if word == "-" { Ok(None) } else { hex::number(word).map(Some) };
    Ok(match *words {
        [] => Windows::default(),
        ["within", low, high, length] => Windows {
            smallest_end: window(low)?,
            largest_end: window(high)?,
            smallest_length: window(length)?,
        },
        _ => return Err(format!("'{}' does not end a rule", words.join(" "))),
    })
}

/// A scan or a closing from its lists on, of which it has so many.
fn call(block: Option<&str>, count: usize, words: &[&str], text: &str) -> Result<Line, String> {
    let none = || format!("'{text}' is no call");
    let (before, rest) = words.split_at_checked(count).ok_or_else(none)?;
    let numbers = if block.is_some() { 3 } else { 2 };
    let (answer, rest) = rest.split_at_checked(numbers).ok_or_else(none)?;
    let (after, end) = rest.split_at_checked(count).ok_or_else(none)?;
    if block.is_none() && !end.is_empty() {
        return Err(none());
    }
    Ok(Line::Call(Call {
        block: block.map(hex::bytes).transpose()?,
        before: lists(before)?,
        number: hex::number(answer[0])?,
        taken: if block.is_some() { hex::number(answer[1])? } else { 0 },
        count: hex::number(answer[numbers - 1])?,
        after: lists(after)?,
        work: work(end)?,
    }))
}

fn lists(words: &[&str]) -> Result<Lists, String> {
    let starts = match words[2..] {
        [starts, relatives] => {
            Some(Starts { starts: hex::list(starts)?, relatives: hex::list(relatives)? })
        }
        _ => None,
    };
    Ok(Lists { ids: hex::list(words[0])?, offsets: hex::list(words[1])?, starts })
}

/// The last words of a scan's line.
fn work(words: &[&str]) -> Result<Option<Work>, String> {
    Ok(match *words {
        [] => None,
        ["used", used] => Some(Work { allowance: None, used: hex::number(used)? }),
        ["used", used, "of", allowance] => {
            let allowance = Some(hex::number(allowance)?);
            Some(Work { allowance, used: hex::number(used)? })
        }
        _ => return Err(format!("'{}' does not end a scan", words.join(" "))),
    })
}

impl fmt::Display for Work {
    fn fmt(&self, f: &mut fmt::Formatter<'_>) -> fmt::Result {
        write!(f, "used {}", self.used)?;
        self.allowance.map_or(Ok(()), |allowance| write!(f, " of {allowance}"))
    }
}

impl fmt::Display for Windows {
    fn fmt(&self, f: &mut fmt::Formatter<'_>) -> fmt::Result {
        let shown = |window: Option<u64>| window.map_or("-".to_string(), |n| n.to_string());
        let Windows { smallest_end, largest_end, smallest_length } = *self;
        let (low, high) = (shown(smallest_end), shown(largest_end));
        write!(f, "within {low} {high} {}", shown(smallest_length))
    }
}

impl fmt::Display for Lists {
    fn fmt(&self, f: &mut fmt::Formatter<'_>) -> fmt::Result {
        write!(f, "{} {}", hex::write_list(&self.ids), hex::write_list(&self.offsets))?;
        match &self.starts {
            Some(Starts { starts, relatives }) => {
                write!(f, " {} {}", hex::write_list(starts), hex::write_list(relatives))
            }
            None => Ok(()),
        }
    }
}

impl fmt::Display for Line {
    fn fmt(&self, f: &mut fmt::Formatter<'_>) -> fmt::Result {
        match self {
            Line::Rule { id, flags, pattern, number, place, windows } => {
                write!(f, "rule {id} {flags} {} {number} {place}", hex::write_bytes(pattern))?;
                let left_out = *windows == Windows::default();
                if left_out {
                    Ok(())
                } else {
                    write!(f, " {windows}")
                }
            }
            Line::Block(block) => write!(f, "block {}", hex::write_bytes(block)),
            Line::Report(Report { moment, offset, id, start }) => {
                let moment = moment.map_or("closing".to_string(), |m| m.to_string());
                write!(f, "report {moment} {offset} {id}")?;
                if *start == 0 {
                    Ok(())
                } else {
                    write!(f, " {start}")
                }
            }
            Line::Busy(figures) => {
                write!(f, "busy")?;
                figures.iter().try_for_each(|figure| write!(f, " {figure}"))
            }
            Line::Open(number) => write!(f, "open {number}"),
            Line::Call(Call { block: Some(b), before, number, taken, count, after, work }) => {
                let (traced, block) = (traced(before), hex::write_bytes(b));
                write!(f, "{traced}scan {block} {before} {number} {taken} {count} {after}")?;
                work.map_or(Ok(()), |work| write!(f, " {work}"))
            }
            Line::Call(Call { block: None, before, number, count, after, .. }) => {
                let traced = traced(before);
                write!(f, "{traced}close {before} {number} {count} {after}")
            }
            Line::Figure(n) => write!(f, "figure {n}"),
            Line::Empty(number) => write!(f, "empty {number}"),
            Line::Lend(None) => write!(f, "lend none"),
            Line::Lend(Some(words)) => write!(f, "lend {words}"),
            Line::Keep => write!(f, "keep"),
            Line::Back => write!(f, "back"),
            Line::StateTotal(n) => write!(f, "state total {n}"),
            Line::StateLive(n) => write!(f, "state live {n}"),
            Line::StateMark(n) => write!(f, "state mark {n}"),
            Line::StateHeld(n) => write!(f, "state held {n}"),
            Line::StatePair(n) => write!(f, "state pair {n}"),
            Line::StateLast(n) => write!(f, "state last {n}"),
            Line::StateStart(kept, n, start) => {
                let kept = match kept {
                    Kept::Live => "live",
                    Kept::Held => "held",
                    Kept::Pair => "pair",
                };
                write!(f, "state start {kept} {n} {start}")
            }
        }
    }
}

/// How the line of a call with these lists begins.
fn traced(lists: &Lists) -> &'static str {
    if lists.starts.is_some() {
        "traced "
    } else {
        ""
    }
}

impl fmt::Display for Case {
    fn fmt(&self, f: &mut fmt::Formatter<'_>) -> fmt::Result {
        writeln!(f, "case {}", self.name)?;
        self.lines.iter().try_for_each(|line| writeln!(f, "{line}"))
    }
}
