//! Makes a disagreement smaller: takes away rules, steps, bytes of the log and of the patterns and
//! report slots, and simplifies numbers, as long as the scenario still fails. Each accepted change makes the scenario
//! smaller in size or in its numbers, so this ends.

use reference::windows::Windows;

use crate::play::play;
use crate::scenario::{predict, Allowance, Scenario, Step};
use crate::watcher::Watcher;

/// Why the scenario fails on the watcher, if it does.
pub fn failure<W: Watcher>(watcher: &W, scenario: &Scenario) -> Option<String> {
    play(watcher, &predict(scenario)).err()
}

/// A small scenario that still fails.
pub fn shrink<W: Watcher>(watcher: &W, scenario: &Scenario) -> Scenario {
    let mut smallest = scenario.clone();
    while let Some(smaller) =
        smaller_ones(&smallest).into_iter().find(|s| failure(watcher, s).is_some())
    {
        smallest = smaller;
    }
    smallest
}

/// The message, and the case in the format of the corpus.
pub fn describe<W: Watcher>(watcher: &W, scenario: &Scenario) -> String {
    let message = failure(watcher, scenario).unwrap_or("it passes now".to_string());
    let mut case = predict(scenario);
    case.name = "disagreement".to_string();
    let comments: String = scenario
        .additions
        .iter()
        .map(|a| format!("# {} {} {}\n", a.id, a.flags, a.pattern.escape_ascii()))
        .collect();
    format!("# {message}\n{comments}{case}")
}

/// All scenarios one change away, the larger cuts first.
fn smaller_ones(scenario: &Scenario) -> Vec<Scenario> {
    let mut all = Vec::new();
    let mut with = |change: &dyn Fn(&mut Scenario)| {
        let mut changed = scenario.clone();
        change(&mut changed);
        if changed != *scenario {
            all.push(changed);
        }
    };
    for (from, to) in cuts(scenario.additions.len()) {
        with(&|s| drop(s.additions.drain(from..to)));
    }
    for (from, to) in cuts(scenario.steps.len()) {
        with(&|s| drop(s.steps.drain(from..to)));
    }
    for (from, to) in cuts(scenario.log.len()) {
        with(&|s| drop(s.log.drain(from..to)));
    }
    for (index, addition) in scenario.additions.iter().enumerate() {
        for (from, to) in cuts(addition.pattern.len()) {
            with(&|s| drop(s.additions[index].pattern.drain(from..to)));
        }
        with(&|s| s.additions[index].flags = 0);
        with(&|s| s.additions[index].windows = Windows::NONE);
        if addition.id as usize > index {
            with(&|s| s.additions[index].id = index as u32);
        }
    }
    for index in 0..scenario.steps.len() {
        with(&|s| s.steps[index] = unlimited(&s.steps[index]));
        with(&|s| s.steps[index] = plainer(&s.steps[index]));
        with(&|s| s.steps[index] = tighter(&s.steps[index], |slots| slots / 2));
        with(&|s| s.steps[index] = tighter(&s.steps[index], |slots| slots - slots / 4));
        with(&|s| s.steps[index] = tighter(&s.steps[index], |slots| slots.saturating_sub(1)));
    }
    all
}

/// Stretches to leave out of so many: halves, quarters, and so on down to single ones.
fn cuts(length: usize) -> Vec<(usize, usize)> {
    let mut cuts = Vec::new();
    let mut size = length;
    while size > 0 {
        cuts.extend((0..length).step_by(size).map(|from| (from, (from + size).min(length))));
        size /= 2;
    }
    cuts
}

/// The step without a limit to its work.
fn unlimited(step: &Step) -> Step {
    let mut step = step.clone();
    if let Step::Scan { allowance, .. } | Step::Offer { allowance, .. } = &mut step {
        *allowance = Allowance::NoLimit;
    }
    step
}

/// A step of the same kind with less to it.
fn plainer(step: &Step) -> Step {
    let mut step = step.clone();
    match &mut step {
        Step::Scan { drop: drop @ true, .. } => *drop = false,
        Step::Scan { ids, offsets, .. } | Step::Close { ids, offsets } => {
            let space = (*ids).min(*offsets);
            (*ids, *offsets) = (space, space);
        }
        _ => {}
    }
    step
}

/// The step with fewer report slots.
fn tighter(step: &Step, fewer: fn(usize) -> usize) -> Step {
    let mut step = step.clone();
    match &mut step {
        Step::Scan { ids, offsets, .. } | Step::Close { ids, offsets } => {
            (*ids, *offsets) = (fewer(*ids), fewer(*offsets));
        }
        Step::Offer { space, .. } => *space = fewer(*space),
        _ => {}
    }
    step
}
