//! A model of the program: rules from a file's bytes, a stream from the input's bytes, the lines it
//! writes. Lines of rules: a decimal id, a space, decimal flags, a space, the pattern.

use crate::calls::{Columns, Table, NO_LIMIT};
use crate::refusal::{least_space, MAX_RULES, TABLE_WORDS};

/// At most this many bytes of rules are read.
pub const MAX_RULES_FILE: usize = 16_384;

/// All that the program writes. A file that cannot be opened counts as empty.
pub fn run(rules: &[u8], input: &[u8]) -> Vec<u8> {
    if rules.len() > MAX_RULES_FILE {
        return b"rules too long\n".to_vec();
    }
    let mut out = String::new();
    let mut table = Table::lent(TABLE_WORDS);
    table.empty();
    for (index, line) in lines(rules).into_iter().enumerate() {
        let (number, place) = match rule_line(line) {
            None => (22, 0),
            Some((id, flags, pattern)) => match table.add(id, flags, pattern) {
                Ok(()) => continue,
                Err(refusal) => (refusal.number, refusal.place),
            },
        };
        out.push_str(&format!("rule {} refused {number} at {place}\n", index + 1));
    }
    // A rule may report starts, which no line shows.
    let (_, mut stream) = table.trace();
    let space = least_space(MAX_RULES);
    let (mut ids, mut offsets) = (vec![0; space], vec![0; space]);
    let (mut starts, mut relatives) = (vec![0; space], vec![0; space]);
    let mut rest = input;
    loop {
        let lists = Columns {
            ids: &mut ids,
            offsets: &mut offsets,
            starts: &mut starts,
            relatives: &mut relatives,
        };
        let answer = if rest.is_empty() {
            stream.close(&table, lists)
        } else {
            stream.scan(&table, NO_LIMIT, rest, lists)
        };
        for slot in 0..answer.count {
            out.push_str(&format!("{} {}\n", ids[slot], offsets[slot]));
        }
        if rest.is_empty() {
            break;
        }
        rest = &rest[answer.taken..];
        stream = answer.stream;
    }
    out.push_str(&format!("end {}\n", input.len()));
    out.into_bytes()
}

/// Lines end at byte 10; the last may lack it.
fn lines(rules: &[u8]) -> Vec<&[u8]> {
    let mut lines: Vec<&[u8]> = rules.split(|&b| b == 10).collect();
    if lines.last().is_some_and(|last| last.is_empty()) {
        lines.pop();
    }
    lines
}

/// Id, flags and pattern of a line, none if it is malformed.
fn rule_line(line: &[u8]) -> Option<(u32, u32, &[u8])> {
    let mut parts = line.splitn(3, |&b| b == b' ');
    let id = decimal(parts.next()?)?;
    let flags = decimal(parts.next()?)?;
    Some((id, flags, parts.next()?))
}

/// 1 to 10 decimal digits, at most 4,294,967,295.
fn decimal(digits: &[u8]) -> Option<u32> {
    if digits.is_empty() || digits.len() > 10 || !digits.iter().all(u8::is_ascii_digit) {
        return None;
    }
    let value = digits.iter().fold(0u64, |n, d| n * 10 + u64::from(d - b'0'));
    u32::try_from(value).ok()
}
