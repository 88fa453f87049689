//! Patterns which ask much of the reader or of the builder, most of them as long as one may be.

use crate::rules::Rule;

pub struct Long {
    /// What it asks.
    pub name: &'static str,
    pub rule: Rule,
    /// The number that its addition gives.
    pub answer: u32,
}

const CASELESS: u32 = 1;
const TOO_MANY_POSITIONS: u32 = 16;

pub fn patterns() -> Vec<Long> {
    let accepted = |name, flags, pattern| {
        let rule = Rule { id: 1, flags, pattern };
        Long { name, rule, answer: 0 }
    };
    let deep = format!("{}a{}+", "(".repeat(16), ")".repeat(16));
    let doubled = format!("{}a{}", "(".repeat(8), "{2})".repeat(8));
    let plain = format!("(?#{})", "x".repeat(764)) + &"a".repeat(256);
    let refused = accepted("read to the end, then 16", 0, "a".repeat(1_018) + "a{99}x");
    vec![
        accepted("`a{256}`", 0, "a{256}".to_string()),
        accepted("256 bytes after a comment", 0, plain.clone()),
        accepted("the same, caseless", CASELESS, plain),
        accepted("30 times 16 groups deep", 0, deep.repeat(30) + &"c".repeat(4)),
        accepted("a class of 340 ranges, caseless", CASELESS, format!("[{}a]x", "!-~".repeat(340))),
        accepted("256 classes, caseless", CASELESS, "[a]".repeat(256) + &"()".repeat(128)),
        accepted("255 options", 0, format!("^{}b{}", "a?".repeat(255), "()".repeat(256))),
        accepted("empty branches", 0, format!("({})a", "|".repeat(1_021))),
        accepted("eight repeats in one another", 0, format!("^{doubled}{}", "()".repeat(491))),
        accepted("1,018 assertions and a repeat", 0, "^".repeat(1_018) + "a{256}"),
        accepted("1,015 assertions in a repeat", 0, format!("({}a){{256}}", "^".repeat(1_015))),
        accepted("500 branches in a repeat", 0, format!("(?:a{}){{255}}b", "|^".repeat(500))),
        Long { answer: TOO_MANY_POSITIONS, ..refused },
    ]
}
