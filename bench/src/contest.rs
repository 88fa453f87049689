//! The matchers on one set of rules, taking turns at a task. They must all report the same.

use std::cell::RefCell;

use crate::beside::{self, Hyperscan};
use crate::library::Library;
use crate::matcher::{Matcher, Reports, Task};
use crate::ordinary::Ordinary;
use crate::page::Times;
use crate::rules::Rule;
use crate::turns::{self, Entrant};

pub struct Contest {
    pub library: Library,
    pub hyperscan: Option<Hyperscan>,
    pub ordinary: Option<Ordinary>,
}

/// What the first run reported, sorted.
pub type Wanted = RefCell<Option<Reports>>;

impl Contest {
    /// Of all matchers that there are, or of the library alone.
    pub fn new(rules: &[Rule], alone: bool) -> Contest {
        let library = Library::new(rules);
        if alone {
            return Contest { library, hyperscan: None, ordinary: None };
        }
        let hyperscan = beside::compile(rules);
        assert_eq!(hyperscan.is_some(), beside::THERE, "Hyperscan takes the rules");
        Contest { library, hyperscan, ordinary: Some(Ordinary::new(rules)) }
    }

    /// The best times, and how many reports there are.
    pub fn race(&mut self, task: &impl Task) -> (Times, usize) {
        let wanted = Wanted::default();
        let mut best = turns::best(self.entrants(task, &wanted)).into_iter();
        let times = Times {
            library: best.next().expect("the library is the first"),
            hyperscan: self.hyperscan.as_ref().and_then(|_| best.next()),
            ordinary: self.ordinary.as_ref().and_then(|_| best.next()),
        };
        (times, wanted.take().unwrap_or_default().len())
    }

    /// One run of each, without its time: the sorted reports.
    pub fn agree(&mut self, task: &impl Task) -> Reports {
        let wanted = Wanted::default();
        for mut entrant in self.entrants(task, &wanted) {
            entrant();
        }
        wanted.take().unwrap_or_default()
    }

    fn entrants<'a>(&'a mut self, task: &'a impl Task, wanted: &'a Wanted) -> Vec<Entrant<'a>> {
        let mut entrants = vec![entrant(&mut self.library, task, wanted)];
        entrants.extend(self.hyperscan.as_mut().map(|matcher| entrant(matcher, task, wanted)));
        entrants.extend(self.ordinary.as_mut().map(|matcher| entrant(matcher, task, wanted)));
        entrants
    }
}

pub fn entrant<'a, M: Matcher>(
    matcher: &'a mut M,
    task: &'a impl Task,
    wanted: &'a Wanted,
) -> Entrant<'a> {
    let mut reports = Reports::new();
    Box::new(move || {
        reports.clear();
        let time = task.run(matcher, &mut reports);
        reports.sort_unstable();
        if M::REPEATS {
            reports.dedup();
        }
        let mut wanted = wanted.borrow_mut();
        let same = *wanted.get_or_insert_with(|| reports.clone()) == reports;
        assert!(same, "all matchers report the same");
        time
    })
}
