//! The benchmark: the library beside Hyperscan and an ordinary Rust matcher. They take turns in one
//! thread that stays on one core, the best run of each counts, and they must report the same. It
//! prints the tables of docs/BENCHMARKS.md.
//!   bench [SEED]          all matchers
//!   bench [SEED] alone    the library alone, a line for each row

mod additions;
#[cfg_attr(not(feature = "hyperscan"), path = "absent.rs")]
mod beside;
mod calls;
mod clock;
mod contest;
mod library;
mod logs;
mod longest;
mod matcher;
mod ordinary;
mod page;
mod rules;
mod scans;
mod short;
mod starts;
mod streams;
mod turns;

use crate::contest::Contest;
use crate::matcher::Matcher;
use crate::page::{whole, Page};

fn main() {
    let words: Vec<String> = std::env::args().skip(1).collect();
    let seed = words.iter().find_map(|word| word.parse().ok()).unwrap_or(1);
    let page = Page { alone: words.iter().any(|word| word == "alone") };
    clock::stay_on_core();
    let place = watcher::sys::watcher_scan as *const () as usize % 64;
    page.say(&format!("{}, seed {seed}, `watcher_scan` at {place} modulo 64.", processor()));

    let (quiet, busy) = (logs::quiet(seed), logs::busy(seed));
    let faults = rules::faults();
    scans::table(&page);
    scans::rows(&page, &faults, &[&quiet, &busy]);
    scans::rows(&page, &rules::example(), &[&logs::example()]);
    scans::rows(&page, &rules::live(), &[&quiet, &busy]);
    scans::rows(&page, &rules::lines(), &[&quiet, &busy]);

    let mut contest = Contest::new(&faults.rules, page.alone);
    calls::rows(&page, &mut contest);
    streams::rows(&page, &mut contest, &[&quiet, &busy]);
    starts::rows(&page, &faults, &[&quiet, &busy]);
    additions::rows(&page, &faults);
    memory(&page, &contest);
}

fn memory(page: &Page, contest: &Contest) {
    page.say("\n### Memory\n\n| Bytes | Rules `faults` | A stream |\n|---|---|---|");
    let row = |name: &str, (rules, stream): (usize, usize)| {
        page.say(&page::row(&[name, &whole(rules), &whole(stream)]));
    };
    row("library", contest.library.sizes());
    contest.hyperscan.iter().for_each(|matcher| row("Hyperscan", matcher.sizes()));
    contest.ordinary.iter().for_each(|matcher| row("ordinary Rust, about", matcher.sizes()));
}

/// The processor's name, where the system tells it.
fn processor() -> String {
    let text = std::fs::read_to_string("/proc/cpuinfo").unwrap_or_default();
    let line = text.lines().find(|line| line.starts_with("model name"));
    line.and_then(|line| line.split(": ").nth(1)).unwrap_or("Unknown processor").to_string()
}
