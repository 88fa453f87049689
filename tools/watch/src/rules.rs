//! The rules file: read as the program reads it, added to a table line by line.

use std::fs::File;
use std::io::{self, Read};
use std::os::unix::fs::FileTypeExt;
use std::path::{Path, PathBuf};

use watcher::{Error, Flags, Table};

/// The most bytes of a rules file.
const MOST: usize = 16_384;

/// The positions that the rules of a table share.
pub const POSITIONS: usize = 256;

/// The number for a malformed line, which the program gives and no call.
pub const MALFORMED: u32 = 22;

/// Why there are no rules.
#[derive(Debug)]
pub enum NoRules {
    /// The file could not be read; the program takes it for empty.
    Unread(io::Error),
    /// The file has more bytes than the program reads.
    TooLong,
}

/// A rule line's parts.
pub struct Line<'t> {
    pub id: u32,
    pub flags: u32,
    pub pattern: &'t [u8],
}

/// A rule that was accepted.
pub struct Rule {
    pub id: u32,
    pub flags: u32,
    pub pattern: Vec<u8>,
}

/// A line that was refused, counted from 1.
#[derive(Clone, Copy, Debug, PartialEq, Eq)]
pub struct Refused {
    pub line: usize,
    pub number: u32,
    pub place: usize,
}

/// The rules of a file, those that were refused, and the table of the others.
pub struct Rules {
    pub accepted: Vec<Rule>,
    pub refused: Vec<Refused>,
    pub table: Box<Table>,
}

/// Where the rules of a directory stand.
pub fn path(dir: &Path) -> PathBuf {
    dir.join("rules.txt")
}

/// Whether the rules file can be read but once, as a pipe can.
pub fn is_pipe(dir: &Path) -> bool {
    path(dir).metadata().is_ok_and(|about| about.file_type().is_fifo())
}

/// The bytes of a directory's rules file.
pub fn read(dir: &Path) -> Result<Vec<u8>, NoRules> {
    let mut text = vec![];
    let file = File::open(path(dir)).map_err(NoRules::Unread)?;
    file.take(MOST as u64 + 1).read_to_end(&mut text).map_err(NoRules::Unread)?;
    if text.len() > MOST {
        return Err(NoRules::TooLong);
    }
    Ok(text)
}

/// The lines of a rules file: they end at byte 10, which the last may lack.
pub fn lines(text: &[u8]) -> Vec<&[u8]> {
    let whole = text.strip_suffix(b"\n").unwrap_or(text);
    if text.is_empty() {
        return vec![];
    }
    whole.split(|&byte| byte == b'\n').collect()
}

/// The parts of a line; none if it is malformed.
pub fn parts(line: &[u8]) -> Option<Line<'_>> {
    let mut parts = line.splitn(3, |&byte| byte == b' ');
    let id = decimal(parts.next()?)?;
    let flags = decimal(parts.next()?)?;
    Some(Line { id, flags, pattern: parts.next()? })
}

/// A number of 1 to 10 digits that has 32 bits.
pub fn decimal(digits: &[u8]) -> Option<u32> {
    if digits.is_empty() || digits.len() > 10 || !digits.iter().all(u8::is_ascii_digit) {
        return None;
    }
    std::str::from_utf8(digits).ok()?.parse().ok()
}

/// Adds each line to a table.
pub fn add(text: &[u8]) -> Rules {
    let mut rules = Rules { accepted: vec![], refused: vec![], table: Box::default() };
    for (index, line) in lines(text).into_iter().enumerate() {
        let line_number = index + 1;
        let Some(Line { id, flags, pattern }) = parts(line) else {
            rules.refused.push(Refused { line: line_number, number: MALFORMED, place: 0 });
            continue;
        };
        match rules.table.add(id, Flags(flags), pattern) {
            Ok(()) => rules.accepted.push(Rule { id, flags, pattern: pattern.to_vec() }),
            Err(error) => {
                let (number, place) = (error.number(), error.place());
                rules.refused.push(Refused { line: line_number, number, place });
            }
        }
    }
    rules
}

impl Rules {
    /// Whether the rule of this id reports where its matches start.
    pub fn reports_starts(&self, id: u32) -> bool {
        self.accepted.iter().any(|rule| rule.id == id && rule.reports_starts())
    }

    /// How many positions the rules take: all but the longest run of bytes that could still be added.
    /// None if the table has no room for another rule.
    pub fn positions(&self) -> Option<usize> {
        let id = (0..).find(|id| self.accepted.iter().all(|rule| rule.id != *id))?;
        let fits = |length: usize| {
            let pattern = format!("a{{{length}}}");
            self.table.clone().add(id, Flags::NONE, pattern.as_bytes())
        };
        match fits(1) {
            Err(Error::LargeTable { .. }) => return Some(POSITIONS),
            answer => answer.ok()?,
        }
        let (mut least, mut most) = (1, POSITIONS);
        while least < most {
            let middle = (least + most).div_ceil(2);
            if fits(middle).is_ok() {
                least = middle;
            } else {
                most = middle - 1;
            }
        }
        Some(POSITIONS - least)
    }
}

impl Rule {
    /// Whether it reports where its matches start.
    pub fn reports_starts(&self) -> bool {
        self.flags & Flags::LEFTMOST_START.0 != 0
    }

    /// What a person calls the rule: the comment that begins its pattern, or else the pattern.
    pub fn name(&self) -> String {
        let comment = self.pattern.strip_prefix(b"(?#").and_then(|rest| {
            let end = rest.iter().position(|&byte| byte == b')')?;
            Some(rest[..end].trim_ascii())
        });
        crate::bytes::of_pattern(comment.filter(|name| !name.is_empty()).unwrap_or(&self.pattern))
    }

    /// The flags in words; empty without any.
    pub fn flags_in_words(&self) -> String {
        let words = [
            (1, "caseless"),
            (2, "dot-all"),
            (4, "line mode"),
            (8, "single match"),
            (256, "start of match"),
        ];
        let set: Vec<&str> =
            words.iter().filter(|(bit, _)| self.flags & bit != 0).map(|&(_, word)| word).collect();
        set.join(", ")
    }
}

#[cfg(test)]
mod tests {
    use super::*;

    #[test]
    fn lines_as_the_program_has_them() {
        assert!(lines(b"").is_empty());
        assert_eq!(lines(b"\n"), [b""]);
        assert_eq!(lines(b"a\n\nb"), [&b"a"[..], b"", b"b"]);
        assert_eq!(lines(b"a\n\n"), [&b"a"[..], b""]);
    }

    #[test]
    fn the_positions_that_are_taken_are_counted() {
        for (text, taken) in [("", 0), ("0 0 abc\n5 0 a{4}", 7), ("1 0 a{256}", 256)] {
            assert_eq!(add(text.as_bytes()).positions(), Some(taken));
        }
        let full: String = (0..64).map(|id| format!("{id} 0 a\n")).collect();
        assert_eq!(add(full.as_bytes()).positions(), None);
    }

    #[test]
    fn a_rule_with_starts_reports_them() {
        let rules = add(b"1 256 a\n2 264 a\n3 768 a\n4 0 a");
        assert_eq!((rules.accepted[0].id, rules.accepted[0].flags), (1, 256));
        assert_eq!(rules.refused.iter().map(|no| no.number).collect::<Vec<_>>(), [24, 2]);
        assert_eq!([1, 2, 3, 4].map(|id| rules.reports_starts(id)), [true, false, false, false]);
        let mut found = vec![];
        let mut stream = watcher::Stream::open(&rules.table);
        let give = |report: watcher::Report| found.push((report.id, report.start, report.end));
        stream.scan(watcher::NO_LIMIT, b"ba", give).unwrap();
        assert_eq!(found, [(1, 1, 2), (4, 0, 2)]);
    }

    #[test]
    fn a_line_is_id_flags_pattern() {
        let line = parts(b"4294967295 00 a b").unwrap();
        assert_eq!((line.id, line.flags, line.pattern), (u32::MAX, 0, &b"a b"[..]));
        for malformed in ["", "1", "1 0", "1  a", " 1 0 a", "x 0 a", "4294967296 0 a", "+1 0 a"] {
            assert!(parts(malformed.as_bytes()).is_none(), "{malformed}");
        }
    }

    #[test]
    fn a_leading_comment_is_the_name() {
        let named = |pattern: &[u8]| Rule { id: 1, flags: 0, pattern: pattern.to_vec() }.name();
        assert_eq!(named(b"(?#slack rope)state=slack"), "slack rope");
        assert_eq!(named(b"(?#)a"), "(?#)a");
        assert_eq!(named(b"a(?#b)"), "a(?#b)");
    }
}
