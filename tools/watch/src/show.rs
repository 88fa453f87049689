//! Hits one can look at: each with its rule, its place, and the line around it.

use std::io::{self, Write};

use crate::bytes::{self, counted, grouped};
use crate::colour::{Colour, Part};
use crate::hits::{Hit, Total};
use crate::notes;
use crate::rules::Rule;

/// A line of a log in three parts: what stands before the match, what is known of the match (its last
/// character, or all of it where its start is known), and what stands after it.
pub struct Parts {
    pub before: String,
    pub matched: String,
    pub after: String,
}

/// What stands for a newline that is the match's last byte.
const NEWLINE: &str = "↵";

/// The parts of the line around a hit.
pub fn parts(hit: &Hit) -> Parts {
    let around = &hit.around;
    let last = (hit.end - 1 - around.from) as usize;
    let end =
        if last < around.bytes.len() { bytes::character(&around.bytes, last) } else { last..last };
    let start = match hit.start {
        Some(start) => (start.saturating_sub(around.from) as usize).min(end.start),
        None => end.start,
    };
    let cut = |cut: bool| if cut { "…" } else { "" };
    let before = format!("{}{}", cut(around.cut_before), bytes::of_log(&around.bytes[..start], 0));
    let column = bytes::width(&before);
    let mut matched = bytes::of_log(&around.bytes[start..end.end], column);
    if end.is_empty() {
        matched.push_str(NEWLINE);
    }
    let column = column + bytes::width(&matched);
    let after = bytes::of_log(&around.bytes[end.end..], column);
    Parts { before, matched, after: format!("{after}{}", cut(around.cut_after)) }
}

/// Writes hits to a place.
pub struct Show<'r, W: Write> {
    pub out: W,
    pub colour: Colour,
    pub log: &'r str,
    pub rules: &'r [Rule],
}

impl<W: Write> Show<'_, W> {
    pub fn hit(&mut self, hit: &Hit) -> io::Result<()> {
        let colour = self.colour;
        let name = self.rules.iter().find(|rule| rule.id == hit.id).map(Rule::name);
        let place = format!(
            "{}:{}:{}",
            colour.paint(Part::File, self.log),
            colour.paint(Part::Number, &hit.line.to_string()),
            hit.column
        );
        let start = hit.start.map_or(String::new(), |start| format!("start {start}  "));
        writeln!(
            self.out,
            "{place}  rule {}  {start}end {}  {}",
            hit.id,
            hit.end,
            colour.paint(Part::Name, &name.unwrap_or_default())
        )?;
        let Parts { before, matched, after } = parts(hit);
        writeln!(self.out, "    {before}{}{after}", colour.paint(Part::Match, &matched))?;
        if !colour.is_on() {
            let width = bytes::width(&matched).max(1);
            // Of a match whose start is not known the caret stands under the last character.
            let tail = if hit.start.is_some() { "~".repeat(width - 1) } else { String::new() };
            writeln!(self.out, "    {}{tail}^", " ".repeat(bytes::width(&before)))?;
        }
        self.out.flush()
    }

    /// The last lines: how much was read, and how often each rule was found.
    pub fn end(&mut self, total: Total, found: impl Fn(u32) -> u64) -> io::Result<()> {
        let Total { bytes, lines, hits } = total;
        let (hits, bytes) = (counted(hits, "hit"), counted(bytes, "byte"));
        writeln!(self.out, "{hits} in {bytes}, {}", counted(lines, "line"))?;
        let width = self.rules.iter().map(|rule| grouped(found(rule.id)).len()).max().unwrap_or(0);
        for rule in self.rules {
            let count = grouped(found(rule.id));
            let name = self.colour.paint(Part::Name, &rule.name());
            writeln!(self.out, "  {count:>width$}  rule {}  {name}", rule.id)?;
            if let Some(note) = notes::of_rule(rule, found(rule.id)) {
                writeln!(self.out, "  {:width$}  {}", "", self.colour.paint(Part::Faint, note))?;
            }
        }
        self.out.flush()
    }
}

#[cfg(test)]
mod tests {
    use super::*;
    use crate::colour::When;
    use crate::hits::Around;

    fn shown(hit: &Hit) -> String {
        let rules = [Rule { id: 7, flags: 0, pattern: b"slack".to_vec() }];
        let mut out = vec![];
        let colour = Colour::of(When::Never, &io::stdout());
        Show { out: &mut out, colour, log: "log", rules: &rules }.hit(hit).unwrap();
        String::from_utf8(out).unwrap()
    }

    fn hit(line: &[u8], end: u64, start: Option<u64>) -> Hit {
        let around = Around {
            bytes: line.to_vec(),
            from: 100,
            cut_before: false,
            cut_after: true,
            above: None,
            below: None,
        };
        Hit { id: 7, end, start, line: 3, column: end - 100, around }
    }

    #[test]
    fn the_caret_stands_under_the_last_character() {
        assert_eq!(
            shown(&hit(b"rope slack.", 110, None)),
            "log:3:10  rule 7  end 110  slack\n    rope slack.…\n             ^\n"
        );
        assert_eq!(
            shown(&hit("\té".as_bytes(), 103, None)),
            "log:3:3  rule 7  end 103  slack\n            é…\n            ^\n"
        );
        assert!(shown(&hit(b"rope", 105, None)).contains("    rope↵…\n        ^\n"));
    }

    #[test]
    fn a_known_start_is_underlined_from_there() {
        assert_eq!(
            shown(&hit(b"rope slack.", 110, Some(105))),
            "log:3:10  rule 7  start 105  end 110  slack\n    rope slack.…\n         ~~~~^\n"
        );
        assert!(shown(&hit(b"slack", 105, Some(20))).contains("    ~~~~^"));
    }
}
