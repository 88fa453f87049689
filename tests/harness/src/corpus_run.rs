//! Runs the corpus: each case on the watcher under test, each case without calls on the definition
//! as well, and the runs of the program.

use std::path::Path;

use corpus::files::{cases, program_cases};
use corpus::{Case, ProgramCase};

use crate::definition::check_case;
use crate::play::{is_for, play, Outcome};
use crate::watcher::{Program, Watcher};

#[derive(Clone, Debug, Default, PartialEq, Eq)]
pub struct Tally {
    pub passed: usize,
    pub skipped: usize,
    pub failures: Vec<String>,
}

impl Tally {
    fn count(&mut self, origin: &str, name: &str, outcome: Result<Outcome, String>) {
        match outcome {
            Ok(Outcome::Passed) => self.passed += 1,
            Ok(Outcome::Skipped) => self.skipped += 1,
            Err(message) => self.failures.push(format!("{origin} ({name}): {message}")),
        }
    }
}

/// Every case of the folder on the watcher.
pub fn run_folder<W: Watcher>(watcher: &W, folder: &Path) -> Result<Tally, String> {
    Ok(run_cases(watcher, &cases(folder)?))
}

/// The cases that are for this watcher's streams.
pub fn run_cases<W: Watcher>(watcher: &W, cases: &[Case]) -> Tally {
    let mut tally = Tally::default();
    for case in cases.iter().filter(|case| is_for(watcher, case)) {
        tally.count(&case.origin, &case.name, play(watcher, case));
    }
    tally
}

/// Every case of the folder that has no calls on the definition.
pub fn run_definition(folder: &Path) -> Result<Tally, String> {
    let mut tally = Tally::default();
    for case in cases(folder)?.iter().filter(|case| !case.has_calls()) {
        tally.count(&case.origin, &case.name, check_case(case).map(|()| Outcome::Passed));
    }
    Ok(tally)
}

/// Every run of the folder's `program.txt`.
pub fn run_program<P: Program>(program: &P, folder: &Path) -> Result<Tally, String> {
    let mut tally = Tally::default();
    for run in program_cases(folder)? {
        tally.count(&run.origin, "program", run_one(program, &run));
    }
    Ok(tally)
}

fn run_one<P: Program>(program: &P, run: &ProgramCase) -> Result<Outcome, String> {
    if program.longest() < run.input.len() {
        return Ok(Outcome::Skipped);
    }
    let out = program.run(run.has_rules.then_some(&run.rules[..]), &run.input);
    if out == run.out {
        return Ok(Outcome::Passed);
    }
    let shown: String = String::from_utf8_lossy(&out).chars().take(1_000).collect();
    Err(format!("wrote {} bytes, {shown:?}", out.len()))
}
