//! The hits of a log with what stands around them. The log is read in blocks and scanned by the
//! library; of what was read only the bytes that a hit may still need are kept, so a log may be of
//! any length, and so may its lines.

use std::collections::VecDeque;
use std::io::{self, Read};

use watcher::{Error, Report, Stream, NO_LIMIT};

use crate::rules::Rules;

/// So many columns are shown before the end of a match, and after it, where the line is long.
const BEFORE: usize = 120;
const AFTER: usize = 60;

/// So many bytes are shown of the line above and the line below.
const BESIDE: usize = 160;

/// A block read at once, and the part of it that is scanned before its hits are given: a byte may
/// bring two reports for each rule.
const BLOCK: usize = 65_536;
const PART: usize = 4_096;

/// The bytes that a stream may have.
const STREAM_LIMIT: u64 = 1_099_511_627_775;

/// A match, with the line around it.
#[derive(Clone, Debug, PartialEq, Eq)]
pub struct Hit {
    /// The id of its rule.
    pub id: u32,
    /// The offset after its last byte.
    pub end: u64,
    /// The offset of its first byte, for a rule that reports it.
    pub start: Option<u64>,
    /// The line that its last byte lies in, from 1.
    pub line: u64,
    /// Which byte of that line this is, from 1.
    pub column: u64,
    /// The line, or the part of it around the match's end.
    pub around: Around,
}

/// A part of a line, without its newline.
#[derive(Clone, Debug, PartialEq, Eq)]
pub struct Around {
    pub bytes: Vec<u8>,
    /// The offset of its first byte.
    pub from: u64,
    /// Whether the line has more before and after it.
    pub cut_before: bool,
    pub cut_after: bool,
    /// The lines above and below, where they are asked for and are there.
    pub above: Option<Beside>,
    pub below: Option<Beside>,
}

/// A line beside that of a hit: the end of the one above, the start of the one below.
#[derive(Clone, Debug, PartialEq, Eq)]
pub struct Beside {
    pub bytes: Vec<u8>,
    /// Whether the line is longer.
    pub cut: bool,
}

/// What is given around a hit: its line, at once; or also the lines above and below, for which it
/// waits.
#[derive(Clone, Copy, Debug, Default, PartialEq, Eq)]
pub enum Wish {
    #[default]
    Line,
    Lines,
}

/// What a whole log gave.
#[derive(Clone, Copy, Debug, Default, PartialEq, Eq)]
pub struct Total {
    pub bytes: u64,
    pub lines: u64,
    pub hits: u64,
}

/// Why a log was not read to its end.
#[derive(Debug)]
pub enum Failure {
    Read(io::Error),
    /// What the hits were given to failed.
    Given(io::Error),
    Refused(Error),
}

/// Scans a log to its end and gives each hit, in the order of delivery; after each block `so_far`
/// hears how far it is.
pub fn of_log(
    rules: &Rules,
    log: &mut impl Read,
    wish: Wish,
    mut give: impl FnMut(Hit) -> io::Result<()>,
    mut so_far: impl FnMut(Total),
) -> Result<Total, Failure> {
    let mut stream = Stream::open(&rules.table);
    let mut window = Window { wish, ..Window::default() };
    let known = |Report { id, start, end }: Report| {
        let start = rules.reports_starts(id).then_some(start);
        Found { id, start, end }
    };
    let mut waiting = VecDeque::new();
    let mut total = Total::default();
    let mut block = vec![0; BLOCK];
    loop {
        let size = read(log, &mut block, total.bytes).map_err(Failure::Read)?;
        if size == 0 {
            break;
        }
        window.push(&block[..size]);
        for part in block[..size].chunks(PART) {
            let found = |report| waiting.push_back(known(report));
            stream.scan(NO_LIMIT, part, found).map_err(Failure::Refused)?;
            total.bytes += part.len() as u64;
            window.give(&mut waiting, false, &mut total.hits, &mut give)?;
        }
        so_far(total);
        window.forget(waiting.front().map(|found: &Found| found.end));
    }
    stream.close(|report| waiting.push_back(known(report))).map_err(Failure::Refused)?;
    window.give(&mut waiting, true, &mut total.hits, &mut give)?;
    total.lines = window.lines();
    Ok(total)
}

/// A report as it is known here: its start, if its rule reports one.
#[derive(Clone, Copy)]
struct Found {
    id: u32,
    start: Option<u64>,
    end: u64,
}

/// Reads some bytes, none at the log's end or the stream's limit.
fn read(log: &mut impl Read, block: &mut [u8], taken: u64) -> io::Result<usize> {
    let most = block.len().min(usize::try_from(STREAM_LIMIT - taken).unwrap_or(usize::MAX));
    loop {
        match log.read(&mut block[..most]) {
            Err(error) if error.kind() == io::ErrorKind::Interrupted => continue,
            answer => return answer,
        }
    }
}

/// The last bytes that were read, and which line they are of.
#[derive(Default)]
struct Window {
    wish: Wish,
    bytes: Vec<u8>,
    /// The offset of the first of them.
    from: u64,
    /// Up to here the lines are counted: an offset, the newlines before it, and where its line begins.
    counted: Counted,
    /// The same for the window's first byte.
    front: Counted,
}

#[derive(Clone, Copy, Default)]
struct Counted {
    to: u64,
    newlines: u64,
    line_start: u64,
}

impl Window {
    fn push(&mut self, block: &[u8]) {
        self.bytes.extend_from_slice(block);
    }

    /// The offset after the last byte.
    fn end(&self) -> u64 {
        self.from + self.bytes.len() as u64
    }

    /// Lets go of what neither a waiting hit nor one to come can need.
    fn forget(&mut self, waiting: Option<u64>) {
        let needed = waiting.unwrap_or(self.end()).min(self.end());
        let keep = needed.saturating_sub((BEFORE + BESIDE) as u64 + 3).max(self.from);
        self.count(keep);
        self.front = self.counted;
        self.bytes.drain(..(keep - self.from) as usize);
        self.from = keep;
    }

    /// Counts the lines up to an offset.
    fn count(&mut self, to: u64) {
        if to < self.counted.to {
            self.counted = self.front;
        }
        let first = (self.counted.to - self.from) as usize;
        for (index, _) in self.bytes[first..(to - self.from) as usize]
            .iter()
            .enumerate()
            .filter(|(_, &byte)| byte == b'\n')
        {
            self.counted.newlines += 1;
            self.counted.line_start = self.from + (first + index) as u64 + 1;
        }
        self.counted.to = to;
    }

    /// How many lines there are; the last may lack its newline.
    fn lines(&mut self) -> u64 {
        self.count(self.end());
        self.counted.newlines + u64::from(self.counted.line_start < self.end())
    }

    /// Gives the hits that wait, as far as what follows them is known.
    fn give(
        &mut self,
        waiting: &mut VecDeque<Found>,
        ended: bool,
        hits: &mut u64,
        give: &mut impl FnMut(Hit) -> io::Result<()>,
    ) -> Result<(), Failure> {
        while let Some(&found) = waiting.front() {
            let Some(hit) = self.hit(found, ended) else { break };
            waiting.pop_front();
            *hits += 1;
            give(hit).map_err(Failure::Given)?;
        }
        Ok(())
    }

    /// A hit with its line; none while too little is known of what follows.
    fn hit(&mut self, Found { id, start, end }: Found, ended: bool) -> Option<Hit> {
        let last = (end - 1 - self.from) as usize;
        let (to, cut_after) = self.line_end(last, ended)?;
        let (first, cut_before) = self.line_start(last);
        let (mut above, mut below) = (None, None);
        if self.wish == Wish::Lines {
            below = self.below(to, cut_after, ended)?;
            above = self.above(first, cut_before);
        }
        self.count(end - 1);
        let around = Around {
            bytes: self.bytes[first..to].to_vec(),
            from: self.from + first as u64,
            cut_before,
            cut_after,
            above,
            below,
        };
        let Counted { newlines, line_start, .. } = self.counted;
        Some(Hit { id, end, start, line: newlines + 1, column: end - line_start, around })
    }

    /// Where the line of this byte ends, or is cut; none if that is not known yet.
    fn line_end(&self, last: usize, ended: bool) -> Option<(usize, bool)> {
        let mut room = AFTER;
        for (index, &byte) in self.bytes.iter().enumerate().skip(last) {
            if byte == b'\n' {
                return Some((index, false));
            }
            if room < columns(byte) && index > last {
                return Some((index, true));
            }
            room = room.saturating_sub(columns(byte));
        }
        ended.then_some((self.bytes.len(), false))
    }

    /// Where the line of this byte begins, or is cut.
    fn line_start(&self, last: usize) -> (usize, bool) {
        let mut room = BEFORE;
        let mut first = last;
        while first > 0 && self.bytes[first - 1] != b'\n' {
            let needed = columns(self.bytes[first - 1]);
            if room < needed {
                return (self.at_character(first), true);
            }
            room -= needed;
            first -= 1;
        }
        (first, first == 0 && self.from > self.front.line_start)
    }

    /// The line above the one that begins here, if there is one. Of a long one its end is shown.
    fn above(&self, first: usize, cut: bool) -> Option<Beside> {
        if cut || first == 0 {
            return None;
        }
        let end = first - 1;
        let least = end.saturating_sub(BESIDE);
        let newline = self.bytes[least..end].iter().rposition(|&byte| byte == b'\n');
        let start = newline.map_or(self.at_character(least), |at| least + at + 1);
        let whole = newline.is_some() || self.from + least as u64 == 0;
        Some(Beside { bytes: self.bytes[start..end].to_vec(), cut: !whole })
    }

    /// The line below the one that ends here; none as the outer answer while it is not known.
    fn below(&self, to: usize, cut: bool, ended: bool) -> Option<Option<Beside>> {
        if cut || (ended && to + 1 >= self.bytes.len()) {
            return Some(None);
        }
        let rest = self.bytes.get(to + 1..)?;
        let newline = rest.iter().take(BESIDE + 1).position(|&byte| byte == b'\n');
        let cut = newline.is_none() && rest.len() > BESIDE;
        let whole = newline.or(ended.then_some(rest.len()));
        let length = if cut { BESIDE } else { whole? };
        Some(Some(Beside { bytes: rest[..length].to_vec(), cut }))
    }

    /// The same place, or up to three bytes on, so that no character is cut.
    fn at_character(&self, first: usize) -> usize {
        let follows = |&&byte: &&u8| (0x80..0xC0).contains(&byte);
        first + self.bytes[first..].iter().take(3).take_while(follows).count()
    }
}

/// About how many columns a byte takes as text.
fn columns(byte: u8) -> usize {
    match byte {
        32..=126 => 1,
        128.. => 2,
        _ => 4,
    }
}

#[cfg(test)]
mod tests {
    use super::*;

    /// The hits of one rule, read from a log that comes in pieces of a size.
    fn hits(pattern: &str, log: &[u8], piece: usize) -> (Vec<Hit>, Total) {
        wished(pattern, log, piece, Wish::Line)
    }

    fn wished(pattern: &str, log: &[u8], piece: usize, wish: Wish) -> (Vec<Hit>, Total) {
        of_rules(&format!("1 0 {pattern}"), log, piece, wish)
    }

    fn of_rules(rules: &str, log: &[u8], piece: usize, wish: Wish) -> (Vec<Hit>, Total) {
        struct Pieces<'l>(&'l [u8], usize);
        impl Read for Pieces<'_> {
            fn read(&mut self, block: &mut [u8]) -> io::Result<usize> {
                let size = self.1.min(self.0.len()).min(block.len());
                block[..size].copy_from_slice(&self.0[..size]);
                self.0 = &self.0[size..];
                Ok(size)
            }
        }
        let rules = crate::rules::add(rules.as_bytes());
        assert!(rules.refused.is_empty());
        let mut found = vec![];
        let give = |hit| {
            found.push(hit);
            Ok(())
        };
        let total = of_log(&rules, &mut Pieces(log, piece), wish, give, |_| ()).unwrap();
        (found, total)
    }

    #[test]
    fn a_hit_has_its_line_whatever_the_pieces() {
        let log = b"first\nrope slack today\n\nslack";
        for piece in [1, 2, 3, 5, 7, 64] {
            let (found, total) = hits("slack", log, piece);
            let places: Vec<_> = found.iter().map(|hit| (hit.end, hit.line, hit.column)).collect();
            assert_eq!(places, [(16, 2, 10), (29, 4, 5)]);
            assert_eq!(found[0].around.bytes, b"rope slack today");
            assert_eq!((found[0].around.from, found[1].around.from), (6, 24));
            assert_eq!(found[1].around.bytes, b"slack");
            assert_eq!(total, Total { bytes: 29, lines: 4, hits: 2 });
        }
    }

    #[test]
    fn a_hit_has_its_start_if_its_rule_reports_it() {
        for piece in [1, 2, 5, 64] {
            let rules = "1 256 s.?lack\n2 0 slack\n3 258 rope.*today";
            let (found, _) = of_rules(rules, b"rope\nslack, slack today", piece, Wish::Line);
            let places: Vec<_> = found.iter().map(|hit| (hit.id, hit.start, hit.end)).collect();
            let first = [(1, Some(5), 10), (2, None, 10), (1, Some(12), 17), (2, None, 17)];
            assert_eq!(places[..4], first);
            assert_eq!(places[4..], [(3, Some(0), 23)]);
        }
    }

    #[test]
    fn a_match_that_ends_in_a_newline_is_of_the_line_that_it_ends() {
        for piece in [1, 4, 64] {
            let (found, total) = hits("b\\n$", b"a\nb\n", piece);
            assert_eq!((found[0].end, found[0].line, found[0].column), (4, 2, 2));
            assert_eq!(found[0].around.bytes, b"b");
            assert_eq!(total.lines, 2);
        }
    }

    #[test]
    fn a_long_line_is_cut_around_the_end() {
        let log = ["x".repeat(300), "slack".into(), "y".repeat(300)].concat();
        for piece in [1, 100, 1000] {
            let (found, _) = hits("slack", log.as_bytes(), piece);
            let Around { bytes, from, cut_before, cut_after, .. } = &found[0].around;
            assert_eq!((*from, *cut_before, *cut_after), (184, true, true));
            assert_eq!(bytes.len(), BEFORE + AFTER);
            assert_eq!((found[0].line, found[0].column), (1, 305));
        }
    }

    #[test]
    fn the_lines_above_and_below_are_given_where_they_are_asked_for() {
        let beside = |text: &str| {
            Some(Beside { bytes: text.as_bytes().to_vec(), cut: text.len() == BESIDE })
        };
        let long = "z".repeat(500);
        let log = format!("slack\nb\nslack\n\nd slack\n{long}\nslack\n{long}");
        for piece in [1, 3, 50, 1000] {
            let (found, _) = wished("slack", log.as_bytes(), piece, Wish::Lines);
            let lines: Vec<_> =
                found.into_iter().map(|hit| (hit.around.above, hit.around.below)).collect();
            let cut = &long[..BESIDE];
            let wanted = [
                (None, beside("b")),
                (beside("b"), beside("")),
                (beside(""), beside(cut)),
                (beside(cut), beside(cut)),
            ];
            assert_eq!(lines, wanted, "{piece}");
        }
        let (found, _) = wished("slack\\n", b"a\nslack\n", 1, Wish::Lines);
        assert_eq!((&found[0].around.above, &found[0].around.below), (&beside("a"), &None));
    }

    #[test]
    fn closing_may_go_back_one_offset() {
        for piece in [1, 64] {
            let (found, _) = hits("a$|a\\n$", b"\n\na\n", piece);
            let places: Vec<_> = found.iter().map(|hit| (hit.end, hit.line, hit.column)).collect();
            assert_eq!(places, [(3, 3, 1), (4, 3, 2)]);
        }
    }
}
