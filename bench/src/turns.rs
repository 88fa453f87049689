//! What is measured side by side takes turns, and the best run of each counts.

use crate::clock;

const MOST_RUNS: usize = 25;
const FEWEST_RUNS: usize = 3;
/// In nanoseconds: who has taken so much time and had the fewest runs has no further one.
const BUDGET: f64 = 1.5e9;

/// Something to be measured: a run of it gives the time of its unit in nanoseconds.
pub type Entrant<'a> = Box<dyn FnMut() -> f64 + 'a>;

struct Standing<'a> {
    run: Entrant<'a>,
    spent: f64,
    best: f64,
}

/// The best time of each entrant.
pub fn best(entrants: Vec<Entrant>) -> Vec<f64> {
    let begin = |run| Standing { run, spent: 0.0, best: f64::MAX };
    let mut all: Vec<Standing> = entrants.into_iter().map(begin).collect();
    for run in 0..MOST_RUNS {
        for one in all.iter_mut().filter(|one| run < FEWEST_RUNS || one.spent < BUDGET) {
            let start = clock::now();
            one.best = one.best.min((one.run)());
            one.spent += clock::now() - start;
        }
    }
    all.iter().map(|one| one.best).collect()
}
