//! What surprises those who come from grep, told where it shows: a rule without hits whose `^` or `$`
//! looks for the ends of the log, and a rule that reports every byte because it ends in `.*`.

use crate::rules::Rule;

/// Line mode.
const LINES: u32 = 4;

/// What to say of a rule that was found so often, if anything.
pub fn of_rule(rule: &Rule, hits: u64) -> Option<&'static str> {
    let bare = bare(&rule.pattern);
    let anchored = bare.iter().any(|&(_, byte)| byte == b'^' || byte == b'$');
    let lines = rule.flags & LINES != 0 || rule.pattern.windows(3).any(|part| part == b"(?m");
    if hits == 0 && anchored && !lines {
        return Some("without flag 4 ^ and $ hold at the start and end of the log alone");
    }
    if hits > 0 && rule.flags & 8 == 0 && ends_open(&rule.pattern, &bare) {
        return Some("it ends in .* or .+, so each byte from there on is an end; leave that off");
    }
    None
}

/// Whether the pattern's last item is any number of any bytes.
fn ends_open(pattern: &[u8], bare: &[(usize, u8)]) -> bool {
    [&b".*"[..], b".+", b".*?", b".+?"]
        .into_iter()
        .any(|end| pattern.ends_with(end) && bare.contains(&(pattern.len() - end.len(), b'.')))
}

/// The bytes of a pattern that may mean something, with their places: none of an escape, a class, a
/// quote or a comment.
fn bare(pattern: &[u8]) -> Vec<(usize, u8)> {
    let mut found = vec![];
    let mut at = 0;
    while at < pattern.len() {
        let rest = &pattern[at..];
        let taken = match rest {
            [b'\\', b'Q', ..] => past(rest, b"\\E"),
            [b'\\', b'c', ..] => 3,
            [b'\\', ..] => 2,
            [b'[', ..] => class(rest),
            [b'(', b'?', b'#', ..] => past(rest, b")"),
            _ => {
                found.push((at, rest[0]));
                1
            }
        };
        at += taken;
    }
    found
}

/// How many bytes there are up to and with a mark; all if it is not there.
fn past(rest: &[u8], mark: &[u8]) -> usize {
    let place = rest.windows(mark.len()).position(|part| part == mark);
    place.map_or(rest.len(), |place| place + mark.len())
}

/// How many bytes a class has.
fn class(rest: &[u8]) -> usize {
    let mut at = if rest.get(1) == Some(&b'^') { 2 } else { 1 };
    let first = at;
    while at < rest.len() {
        match rest[at..] {
            [b']', ..] if at > first => return at + 1,
            [b'\\', ..] => at += 2,
            [b'[', b':', ..] => at += past(&rest[at..], b":]"),
            _ => at += 1,
        }
    }
    rest.len()
}

#[cfg(test)]
mod tests {
    use super::*;

    fn note(flags: u32, pattern: &str, hits: u64) -> &'static str {
        let rule = Rule { id: 1, flags, pattern: pattern.as_bytes().to_vec() };
        of_rule(&rule, hits).unwrap_or("")
    }

    #[test]
    fn anchors_without_line_mode_are_named_where_nothing_was_found() {
        for pattern in ["^error", "error$", "(?i)^a", "[^a]b$"] {
            assert!(note(0, pattern, 0).starts_with("without flag 4"), "{pattern}");
            assert_eq!(note(4, pattern, 0), "");
            assert_eq!(note(0, pattern, 3), "");
        }
        for pattern in
            ["\\^a", "[^a]", "[]$]", "\\Q$\\E", "(?#$)a", "(?m)^a", "\\c$a", "[[:alpha:]$]"]
        {
            assert_eq!(note(0, pattern, 0), "", "{pattern}");
        }
    }

    #[test]
    fn an_open_end_is_named_where_something_was_found() {
        for pattern in ["error.*", "error.+", "error.*?", "a(?#b).*"] {
            assert!(note(0, pattern, 9).starts_with("it ends in .*"), "{pattern}");
            assert_eq!(note(0, pattern, 0), "");
            assert_eq!(note(8, pattern, 9), "");
        }
        for pattern in ["error", "a.*b", "a\\.*", "[.*]", "a.*\\n", "a*", "a.*\\?"] {
            assert_eq!(note(0, pattern, 9), "", "{pattern}");
        }
    }
}
