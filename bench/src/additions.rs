//! A table emptied, and rules added to it. Hyperscan compiles all rules of a database at once, so
//! beside an addition stands a database of the same rules.

use std::hint::black_box;

use watcher::{raw, TABLE_WORDS};

use crate::beside;
use crate::clock;
use crate::longest;
use crate::page::{whole, Page, Times, NONE};
use crate::rules::{Rule, Set};
use crate::turns::{self, Entrant};

const EMPTYINGS: usize = 1_000;

pub fn rows(page: &Page, set: &Set) {
    page.table("Building a table", &["Call", "Bytes", "Answer"], "ns", false);
    let empty = Times { library: emptying(), hyperscan: None, ordinary: None };
    page.row(&["emptying it"], &[NONE, "0"], &empty);
    let mean = format!("adding one of the {} rules `{}`, the mean", set.rules.len(), set.name);
    page.row(&[&mean], &[NONE, "0"], &times(&set.rules, 0, page.alone));
    for longest::Long { name, rule, answer } in longest::patterns() {
        let bytes = whole(rule.pattern.len());
        let times = times(&[rule], answer, page.alone);
        page.row(&[name], &[&bytes, &answer.to_string()], &times);
    }
}

fn emptying() -> f64 {
    let mut words = vec![0; TABLE_WORDS];
    let mut all = || (0..EMPTYINGS).for_each(|_| assert_eq!(raw::empty(black_box(&mut words)), 0));
    turns::best(vec![Box::new(|| clock::time(&mut all) / EMPTYINGS as f64)])[0]
}

/// For one rule, the mean if there are more. Each must be answered so; a refusal that is known only
/// at the end has the pattern's length as place.
fn times(rules: &[Rule], answer: u32, alone: bool) -> Times {
    let mut words = vec![0; TABLE_WORDS];
    let add = |words: &mut [u64], rule: &Rule| {
        let place = if answer == 0 { 0 } else { rule.pattern.len() };
        let given = raw::add(words, rule.id, rule.flags, rule.pattern.as_bytes());
        assert_eq!(given, (answer, place), "{}", rule.pattern);
    };
    let mut entrants: Vec<Entrant> = vec![Box::new(|| {
        assert_eq!(raw::empty(&mut words), 0);
        clock::time(|| rules.iter().for_each(|rule| add(&mut words, rule)))
    })];
    if !alone && beside::compile(rules).is_some() {
        let compile = || {
            black_box(beside::compile(rules));
        };
        entrants.push(Box::new(move || clock::time(compile)));
    }
    let best = turns::best(entrants);
    let mean = |time: &f64| time / rules.len() as f64;
    Times { library: mean(&best[0]), hyperscan: best.get(1).map(mean), ordinary: None }
}
