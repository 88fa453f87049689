//! The whole corpus, on the definition, on the model of the calls, and on the model of the program.

use harness::corpus_run::{run_definition, run_folder, run_program, Tally};
use harness::model::Model;
use harness::traced::Traced;

fn all_passed(tally: Tally, at_least: usize) {
    assert!(tally.failures.is_empty(), "{}", tally.failures.join("\n"));
    assert_eq!(tally.skipped, 0);
    assert!(tally.passed >= at_least, "only {} cases were found", tally.passed);
}

#[test]
fn the_definition() {
    all_passed(run_definition(corpus::files::folder()).unwrap(), 1_000);
}

#[test]
fn the_calls() {
    all_passed(run_folder(&Model, corpus::files::folder()).unwrap(), 1_000);
}

#[test]
fn the_calls_with_starts() {
    all_passed(run_folder(&Traced(Model), corpus::files::folder()).unwrap(), 1_000);
}

#[test]
fn the_program() {
    // The long inputs are for the program itself.
    let tally = run_program(&Model, corpus::files::folder()).unwrap();
    all_passed(Tally { skipped: 0, ..tally }, 25);
}

#[test]
fn cases_are_written_as_they_are_read() {
    for case in corpus::files::cases(corpus::files::folder()).unwrap() {
        let again = corpus::files::cases_in("again", &case.to_string()).unwrap();
        assert_eq!(again.len(), 1, "{}", case.origin);
        assert_eq!(again[0].lines, case.lines, "{}", case.origin);
    }
}

#[test]
fn a_line_that_is_none_is_an_error() {
    for text in [
        "rule 1 0 61",
        "rule 1 0 6 0 0",
        "open",
        "scan 61 - - 0",
        "scan 61 - - 0 1 0 - - 1",
        "scan 61 - - 0 1 0 - - used",
        "scan 61 - - 0 1 0 - - used 1 of",
        "scan 61 - - 0 1 0 - - used 1 of none",
        "report 1 1",
        "x",
        "lend -1",
        "state last",
        "state last -1",
        "rule 1 0 61 0 0 within 1 2",
        "rule 1 0 61 0 0 1 2 3",
        "report 1 1 1 1 1",
        "scan 61 - - - - 0 1 0 - - - -",
        "traced scan 61 - - 0 1 0 - -",
        "traced scan 61 - - - - 0 1 0 - - - - -",
        "traced close - - - - 0 0 - - -",
        "state start mark 1 1",
        "state start live 1",
    ] {
        assert!(corpus::files::cases_in("t", &format!("case x\n{text}\n")).is_err(), "{text}");
    }
}
