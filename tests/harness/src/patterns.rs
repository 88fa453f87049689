//! Random patterns over the whole subset, and malformed ones: written by the grammar, then, once in
//! a while, broken by taking out, putting in or changing a few bytes.

use crate::rng::Rng;

/// Bytes with something to them: control bytes, edges of the ASCII range, the other spaces.
pub const ODD_BYTES: &[u8] = &[0, 10, 13, 127, 128, 160, 255];

/// Those of them that a pattern may hold.
const HIGH_BYTES: &[u8] = &[128, 133, 160, 255];

/// Raw control bytes, which no pattern may hold.
const RAW_BYTES: &[u8] = &[0, 9, 9, 9, 10, 13, 31, 127];

const LETTERS: &[u8] = b"aabbcABC";
const PLAIN: &[u8] = b"abcABC0159_ -,]}=:<!&~";
const META: &[u8] = b"\\[](){}|.^$*+?-";

/// Escapes that stand for one byte or a set of bytes, in a class and outside.
const ESCAPES: &[&str] = &[
    "\\a", "\\e", "\\f", "\\n", "\\r", "\\t", "\\x", "\\x4", "\\x61", "\\x41", "\\xFf", "\\x{61}",
    "\\x{000}", "\\x{fF}", "\\o{141}", "\\o{0}", "\\o{377}", "\\x{ 61}", "\\x{61 }", "\\o{ 7 }",
    "\\0", "\\07", "\\012", "\\0101", "\\cA", "\\c[", "\\c?", "\\c@", "\\ca", "\\d", "\\w", "\\s",
    "\\h", "\\v", "\\D", "\\W", "\\S", "\\H", "\\V",
];

/// Assertions, also with a newline or another edge right behind or before them.
const ASSERTIONS: &[&str] = &[
    "^",
    "$",
    "\\A",
    "\\z",
    "\\Z",
    "$\\n",
    "\\Z\\s",
    "\\n$",
    "\\b",
    "\\b",
    "\\B",
    "\\B",
    "\\n^",
    "$\\n^",
    "\\b$",
    "(?:\\b|\\B)",
    "(?m)$",
    "(?m)^",
];

/// Things that are refused, or nearly: put in by chance.
const NASTY: &[&str] = &[
    "\\",
    "\\c",
    "\\c\u{1}",
    "\\x{",
    "\\x{}",
    "\\x{100}",
    "\\x{100",
    "\\o",
    "\\o{8}",
    "\\o{400}",
    "[",
    "[]",
    "[^",
    "[z-a]",
    "[a-\\d]",
    "[\\d-a]",
    "[a-\\",
    "[[.",
    "[=a=]",
    "[\\N]",
    "[\\A-z]",
    "[\\b]",
    "[a-\\x{100}]",
    "[\\y-\\d]",
    "[--\\d]",
    "*",
    "**",
    "*+",
    "+?+",
    "{2}",
    "{3,2}",
    "{65536}",
    "{65535}",
    "{0,65536}",
    "{,}",
    "{2",
    "{ 2}",
    "{ 3 , 2 }",
    "{ 65536 }",
    "{ 9, 1}",
    "{ 3,0 }",
    "{ , }",
    "{ }",
    "{2 3}",
    "{1, 2 3}",
    "{ 2",
    "{2, 3",
    "\\x{ }",
    "\\x{4 1}",
    "\\x{ 41",
    "\\x{ 100 }",
    "\\o{ 8}",
    "{2}{3}",
    "(",
    ")",
    "(*",
    "(?",
    "(?)",
    "(?i",
    "(?-)",
    "(?x)",
    "(?i-s-)",
    "(?=a)",
    "(?:",
    "(?s-i:",
    "\\1",
    "\\y",
    "\\Z",
    "\\Z*",
    "[\\Z]",
    "\\N",
    "\\A",
    "\\z",
    "^*",
    "(?i)*",
    "|*",
    "{0}",
    "{,0}",
    "()",
    "(|)",
    "(^){9}",
    "(a{20}){20}",
    "((((((((((((((((",
];

/// Line mode and word edges, whole or where they may not stand: put in by chance, in a class or not.
const EDGES: &[&str] = &[
    "\\b",
    "\\B",
    "\\b*",
    "\\B?",
    "\\B{2}",
    "[\\b]",
    "[\\B]",
    "[\\b-\\B]",
    "(?m)",
    "(?mx)",
    "(?m)*",
    "(?m:",
];

/// Named classes, quotes and comments, whole, cut and misspelt: put in by chance, in a class or not.
const SPELLINGS: &[&str] = &[
    "[:digit:]",
    "[:^upper:]",
    "[[:alpha:]]",
    "[[:lower:]-z]",
    "[a-[:word:]]",
    "[[:digit:]-]",
    "[:Digit:]",
    "[:digits:]",
    "[:^^digit:]",
    "[:<:]",
    "[::]",
    "[:digit",
    "[:digit:",
    "[:",
    ":]",
    "[.a.]",
    "[=",
    "\\Q",
    "\\E",
    "\\Q\\E",
    "\\Q*\\E",
    "\\Q]\\E",
    "\\Q-\\E",
    "\\Q^\\E",
    "-\\E",
    "\\E-",
    "[\\E",
    "[\\Q\\E",
    "[\\d\\E-a]",
    "[\\d-\\E]",
    "[\\Qz\\E-a]",
    "(\\E?:",
    "(\\Q\\E*",
    "(?#",
    "(?#)",
    "(?#x)*",
    "\\E?",
    "\\Q\\E+",
    "(?#a\\)",
];

/// Raw control bytes within a token, or right beside one: put in by chance, in a class or not.
const RAW_SPELLINGS: &[&str] = &[
    "\\\t",
    "\\c\t",
    "\\x\t",
    "\\x{\t4}",
    "\\x{\t}",
    "\\o{400\t}",
    "{2,\t3}",
    "{\t2}",
    "a{\t2}",
    "a{2\t}+",
    "a{3,\t1}",
    "a{\t65536}",
    "{2\t3}",
    "{\t}",
    "[\t-a]",
    "[a-\t]",
    "[\\d-\t]",
    "[!-\x7f]",
    "[\\0-\t]",
    "[ -\x7f]",
    "[\t",
    "\\Q\t\\E",
    "\\Qa\n",
    "(?#\t)",
    "(?#a\r)",
    "(?#\t",
    "(?#\n",
    "(?#a\x7f",
    "(?i\t)",
];

const NAMES: &[&str] = &[
    "alpha", "lower", "upper", "alnum", "ascii", "blank", "cntrl", "digit", "graph", "print",
    "punct", "space", "word", "xdigit",
];

const OPTIONS: &[&str] = &[
    "(?i)", "(?s)", "(?m)", "(?m)", "(?-i)", "(?-s)", "(?-m)", "(?is-i)", "(?i-)", "(?im-s)",
    "(?s-m)",
];

/// What counts as a comment.
const NOTHINGS: &[&str] =
    &["\\E", "\\Q\\E", "\\E\\E", "(?#)", "(?#x)", "(?#\\)", "(?#(?i*[)", "(?#\\Qa)"];

const QUANTIFIERS: &[&str] = &[
    "?", "*", "+", "{0}", "{1}", "{2}", "{3}", "{0,}", "{1,}", "{2,}", "{,1}", "{,2}", "{,3}",
    "{0,2}", "{1,2}", "{1,3}", "{2,2}", "{2,3}", "{02}", "{ 2}", "{2 }", "{ 1 }", "{1, 2}",
    "{1 ,2}", "{ 0 ,2 }", "{2, }", "{ 1,}", "{ ,2}", "{, 3 }",
];

/// What a long pattern begins with: an opening, something over and over, and the closing.
const FILLERS: &[(&str, &str, &str)] = &[
    ("(?#", "x", ")"),
    ("[", "a", "]"),
    ("[", "a-c", "]"),
    ("[", "\\Qb\\E", "]"),
    ("", "()", ""),
    ("(", "|", ")"),
    ("", "(?i)(?-i)", ""),
    ("", "\\Q\\E", ""),
    ("(?:", "(?:a{0}|)", ")"),
];

pub fn pattern(rng: &mut Rng) -> Vec<u8> {
    let mut out = Vec::new();
    let budget = 1 + rng.below(10);
    choice(rng, &mut out, budget, 0);
    if rng.once_in(3) {
        for _ in 0..=rng.below(2) {
            break_it(rng, &mut out);
        }
    }
    if rng.once_in(100) {
        out = long(rng, &out);
    }
    out
}

/// The pattern made long, up to the limit of 1,024 bytes and past it: written over and over, or put
/// behind so much of something that has few positions.
fn long(rng: &mut Rng, pattern: &[u8]) -> Vec<u8> {
    let length = *rng.pick(&[250, 510, 1_018, 1_018, 1_018]) + rng.below(12);
    if rng.once_in(4) {
        return pattern.iter().chain(b"b").copied().cycle().take(length).collect();
    }
    let (open, inside, close) = *rng.pick(FILLERS);
    let room = length.saturating_sub("(?#)".len() + pattern.len());
    let copies = room.saturating_sub(open.len() + close.len()) / inside.len();
    let filler = [open, &inside.repeat(copies), close].concat();
    let rest = "x".repeat(room.saturating_sub(filler.len()));
    [format!("(?#{rest})").as_bytes(), filler.as_bytes(), pattern].concat()
}

fn choice(rng: &mut Rng, out: &mut Vec<u8>, budget: usize, depth: usize) {
    let branches = if rng.once_in(3) { 2 + rng.below(2) } else { 1 };
    for branch in 0..branches {
        if branch > 0 {
            out.push(b'|');
        }
        if !rng.once_in(24) {
            sequence(rng, out, 1 + budget / branches, depth);
        }
    }
}

fn sequence(rng: &mut Rng, out: &mut Vec<u8>, budget: usize, depth: usize) {
    for _ in 0..1 + rng.below(budget) {
        match rng.below(20) {
            0 => out.extend(rng.pick(ASSERTIONS).bytes()),
            1 => out.extend(rng.pick(OPTIONS).bytes()),
            2 => out.extend(
                rng.pick(&["{", "{,}", "{2", "{2,", "{ }", "{ , }", "{2 3}", "}", "]"]).bytes(),
            ),
            3 => out.extend(rng.pick(NOTHINGS).bytes()),
            _ => {
                item(rng, out, budget, depth);
                if rng.once_in(3) {
                    quantified(rng, out);
                }
            }
        }
    }
}

/// A quantifier, at times behind a comment, and seldom a second one behind another.
fn quantified(rng: &mut Rng, out: &mut Vec<u8>) {
    if rng.once_in(6) {
        out.extend(rng.pick(NOTHINGS).bytes());
    }
    out.extend(rng.pick(QUANTIFIERS).bytes());
    if rng.once_in(5) {
        out.push(b'?');
    }
    if rng.once_in(30) {
        out.extend(rng.pick(NOTHINGS).bytes());
        out.extend(rng.pick(&["?", "+", "*", "{2}", "{,}"]).bytes());
    }
}

fn item(rng: &mut Rng, out: &mut Vec<u8>, budget: usize, depth: usize) {
    match rng.below(22) {
        0..=7 => out.push(*rng.pick(LETTERS)),
        8 => out.push(*rng.pick(PLAIN)),
        9 | 10 => out.push(b'.'),
        11 => out.extend([b'\\', *rng.pick(META)]),
        12 => out.extend(rng.pick(ESCAPES).bytes()),
        13 => out.push(odd_byte(rng)),
        14 => out.extend(b"\\N"),
        15..=17 => class(rng, out),
        18 => quote(rng, out, b"aabA\\\\*+?.|(){}[]^$EQ#d2 "),
        _ if depth < 5 && budget > 1 => {
            let openings = ["(", "(", "(?:", "(?i:", "(?s-i:", "(?-s:", "(?-is:", "(?m:", "(?-m:"];
            out.extend(rng.pick(&openings).bytes());
            choice(rng, out, budget / 2, depth + 1);
            out.push(b')');
        }
        _ => out.push(*rng.pick(LETTERS)),
    }
}

/// A byte above 127, seldom a raw control byte.
fn odd_byte(rng: &mut Rng) -> u8 {
    let bytes = if rng.once_in(8) { RAW_BYTES } else { HIGH_BYTES };
    *rng.pick(bytes)
}

/// Bytes in a quote, which is seldom left open.
fn quote(rng: &mut Rng, out: &mut Vec<u8>, bytes: &[u8]) {
    out.extend(b"\\Q");
    out.extend((0..rng.below(4)).map(|_| *rng.pick(bytes)));
    if !rng.once_in(25) {
        out.extend(b"\\E");
    }
}

fn class(rng: &mut Rng, out: &mut Vec<u8>) {
    out.push(b'[');
    not_there(rng, out);
    if rng.once_in(3) {
        out.push(b'^');
        not_there(rng, out);
    }
    if rng.once_in(4) {
        out.push(*rng.pick(b"]-"));
    }
    for _ in 0..1 + rng.below(3) {
        not_there(rng, out);
        match rng.below(12) {
            0..=2 => out.push(*rng.pick(LETTERS)),
            3 => out.extend(rng.pick(ESCAPES).bytes()),
            4 => out.extend(rng.pick(&["+--", "--a", "\\x00-\\x1f", "0-9-", "!-~"]).bytes()),
            5 => out.push(odd_byte(rng)),
            6 => out.push(*rng.pick(b"[(){}.*+?|^$,:=")),
            7 => range(rng, out),
            8 | 9 => name(rng, out),
            10 => quote(rng, out, b"aabA^-][:\\\\E"),
            _ => out.extend(rng.pick(&["\\b", "\\]", "\\-", "\\\\", "\\^", "-"]).bytes()),
        }
    }
    not_there(rng, out);
    out.push(b']');
}

/// Once in a while an empty quote or a lone `\E`.
fn not_there(rng: &mut Rng, out: &mut Vec<u8>) {
    if rng.once_in(14) {
        out.extend(rng.pick(&["\\E", "\\Q\\E", "\\E\\E"]).bytes());
    }
}

/// A range, mostly rising, its ends quoted or not.
fn range(rng: &mut Rng, out: &mut Vec<u8>) {
    let ends = rng.pick(&[b"ac", b"AZ", b"+-", b"-a", b"Zb", b"09", b"]a", b"A]", b"\\^", b"^b"]);
    let (low, high) = if rng.once_in(20) { (ends[1], ends[0]) } else { (ends[0], ends[1]) };
    range_end(rng, out, low);
    not_there(rng, out);
    out.push(b'-');
    not_there(rng, out);
    range_end(rng, out, high);
}

/// The byte in a quote, perhaps with others, or escaped if it needs it, or by itself.
fn range_end(rng: &mut Rng, out: &mut Vec<u8>, byte: u8) {
    match rng.below(8) {
        0 | 1 => out.extend([b'\\', b'Q', byte, b'\\', b'E']),
        2 => out.extend([b'\\', b'Q', byte, byte, b'\\', b'E']),
        _ if b"]\\^".contains(&byte) => out.extend([b'\\', byte]),
        _ => out.push(byte),
    }
}

/// A named class, plain or negated, seldom misspelt or cut, seldom before a hyphen.
fn name(rng: &mut Rng, out: &mut Vec<u8>) {
    let mut text = b"[:".to_vec();
    if rng.once_in(3) {
        text.push(b'^');
    }
    text.extend(rng.pick(NAMES).bytes());
    text.extend(b":]");
    if rng.once_in(20) {
        let at = rng.below(text.len());
        match rng.below(4) {
            0 => drop(text.remove(at)),
            1 => text.truncate(at),
            2 => text.insert(at, *rng.pick(b"^:a]")),
            _ => text[at] = text[at].to_ascii_uppercase(),
        }
    }
    out.extend(text);
    if rng.once_in(20) {
        not_there(rng, out);
        out.push(b'-');
    }
}

/// A few bytes taken out, put in or changed.
fn break_it(rng: &mut Rng, out: &mut Vec<u8>) {
    let at = rng.below(out.len() + 1);
    match rng.below(12) {
        0 if at < out.len() => drop(out.remove(at)),
        1 if at < out.len() => out[at] = rng.byte(),
        2 => out.insert(at, *rng.pick(META)),
        3 => out.truncate(at),
        4 | 5 => drop(out.splice(at..at, rng.pick(SPELLINGS).bytes())),
        6 | 7 => drop(out.splice(at..at, rng.pick(RAW_SPELLINGS).bytes())),
        8 if rng.once_in(2) => out.insert(at, *rng.pick(RAW_BYTES)),
        9 => drop(out.splice(at..at, rng.pick(EDGES).bytes())),
        _ => drop(out.splice(at..at, rng.pick(NASTY).bytes())),
    }
}
