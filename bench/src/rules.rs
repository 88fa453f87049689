//! The rules that are scanned for, in sets. A set is lines of a decimal id, its flags and its
//! pattern, as the program reads them, by rising id.

pub struct Rule {
    pub id: u32,
    pub flags: u32,
    pub pattern: String,
}

pub struct Set {
    pub name: &'static str,
    pub rules: Vec<Rule>,
}

/// A watcher's fault rules: on an ordinary record nothing is live.
pub fn faults() -> Set {
    set("faults", include_str!("../rules/faults.txt"))
}

/// The shipped example's.
pub fn example() -> Set {
    set("example", include_str!("../../examples/logger/rules.txt"))
}

/// Few rules, of which some are live on most bytes of an ordinary record.
pub fn live() -> Set {
    set("live", include_str!("../rules/live.txt"))
}

/// Fault rules with edges of words and of lines, one of which reports on every ordinary record.
pub fn lines() -> Set {
    set("lines", include_str!("../rules/lines.txt"))
}

fn set(name: &'static str, text: &str) -> Set {
    Set { name, rules: text.lines().map(rule).collect() }
}

fn rule(line: &str) -> Rule {
    let mut parts = line.splitn(3, ' ');
    let mut part = || parts.next().expect("a rule line has three parts");
    let mut number = || part().parse().expect("ids and flags are decimal");
    Rule { id: number(), flags: number(), pattern: part().to_string() }
}
