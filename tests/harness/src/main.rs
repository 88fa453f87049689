//! The harness as a command: what is under test, and then the corpus, the exhaustive mode with one
//! of its alphabets, the random mode, or damaged words. It prints counts, and ends with status 1
//! when anything disagrees.

use std::path::Path;
use std::process::ExitCode;

use harness::corpus_run::{run_cases, run_definition, run_folder, run_program, Tally};
use harness::exhaustive::{self, Alphabet, Bounds, BRACES, LINES, MEANING, SPELLING};
#[cfg(feature = "library")]
use harness::library::Library;
use harness::model::Model;
use harness::over_words::OverWords;
#[cfg(feature = "library")]
use harness::plain;
use harness::process::Process;
use harness::traced::Traced;
use harness::watcher::{PatternReader, Watcher};
use harness::{card, damaged, random, readings};
use words::calls::{Calls, Traces};
use words::card::Card;
use words::interpreter::Interpreter;

const USAGE: &str = "usage:
  harness [WATCHER] corpus
  harness [WATCHER] play FILE
  harness [WATCHER] exhaustive TOKENS BYTES [PART OF]
  harness [WATCHER] lines TOKENS BYTES [PART OF]
  harness [WATCHER] spelling TOKENS BYTES [PART OF]
  harness [WATCHER] braces TOKENS BYTES [PART OF]
  harness [WATCHER] readings LENGTH
  harness [WATCHER] random SEED COUNT [FIRST]
  harness [traced] library damaged SEED COUNT [FIRST]
  harness library card SEED COUNT [FIRST]
  harness library matched LENGTH
  harness plain exhaustive TOKENS BYTES
  harness plain lines TOKENS BYTES
  harness plain random SEED COUNT [FIRST]
  harness program PATH
WATCHER is model (the reference's calls, also if none is given), words (the interpreter of table
words) or library; with `traced` before it, its streams that keep starts; plain is the library's
plain matcher. PATH is the built program.";

fn main() -> ExitCode {
    let words: Vec<String> = std::env::args().skip(1).collect();
    let words: Vec<&str> = words.iter().map(String::as_str).collect();
    let done = match &words[..] {
        ["model", rest @ ..] => command(&Model, rest),
        ["traced", "model", rest @ ..] => command(&Traced(Model), rest),
        ["traced", "words", rest @ ..] => traced_words(Interpreter, rest),
        #[cfg(feature = "library")]
        ["traced", "library", rest @ ..] => traced_words(Library, rest),
        ["words", rest @ ..] => over_words(Interpreter, rest),
        ["program", path] => program(path),
        #[cfg(feature = "library")]
        ["library", "matched", longest] => all_matched(longest),
        #[cfg(feature = "library")]
        ["library", rest @ ..] => over_words(Library, rest),
        #[cfg(feature = "library")]
        ["plain", name, rest @ ..] => plainly(name, rest),
        rest => command(&Model, rest),
    };
    match done {
        Ok(()) => ExitCode::SUCCESS,
        Err(message) => {
            println!("{message}");
            ExitCode::FAILURE
        }
    }
}

#[cfg(feature = "library")]
fn all_matched(longest: &str) -> Result<(), String> {
    let longest = numbers(&[longest])?[0] as usize;
    let count = harness::matched::run(&Library, longest)?;
    println!(
        "matched: {} questions, {} shown from the block, {} from the tail, {} refused",
        count.questions, count.in_block, count.in_tail, count.refused
    );
    Ok(())
}

fn numbers(words: &[&str]) -> Result<Vec<u64>, String> {
    words.iter().map(|word| word.parse().map_err(|_| USAGE.to_string())).collect()
}

/// The commands on calls over words, two of which no other watcher has; the corpus is played on
/// streams with starts too.
fn over_words<C: Calls + Traces + Card + Copy>(calls: C, words: &[&str]) -> Result<(), String> {
    if let ["corpus"] = words {
        corpus(&OverWords(calls))?;
        let tally = run_folder(&Traced(OverWords(calls)), corpus::files::folder())?;
        return show("corpus on the calls with starts", &tally);
    }
    if let ["damaged", rest @ ..] = words {
        return match numbers(rest)?[..] {
            [seed, count] => many_damaged(&calls, seed, 0, count),
            [seed, count, first] => many_damaged(&calls, seed, first, count),
            _ => Err(USAGE.to_string()),
        };
    }
    if let ["card", rest @ ..] = words {
        return match numbers(rest)?[..] {
            [seed, count] => many_cards(&calls, seed, 0, count),
            [seed, count, first] => many_cards(&calls, seed, first, count),
            _ => Err(USAGE.to_string()),
        };
    }
    command(&OverWords(calls), words)
}

/// The commands on calls over words whose states keep starts.
fn traced_words<C: Calls + Traces + Copy>(calls: C, words: &[&str]) -> Result<(), String> {
    if let ["damaged", rest @ ..] = words {
        let (seed, count, first) = match numbers(rest)?[..] {
            [seed, count] => (seed, count, 0),
            [seed, count, first] => (seed, count, first),
            _ => return Err(USAGE.to_string()),
        };
        return show_damaged(seed, damaged::run_traced(&calls, seed, first, count)?);
    }
    command(&Traced(OverWords(calls)), words)
}

fn command<W: Watcher + PatternReader>(watcher: &W, words: &[&str]) -> Result<(), String> {
    if let ["play", file] = words {
        let cases = corpus::files::cases_of(Path::new(file))?;
        return show(file, &run_cases(watcher, &cases));
    }
    let Some((name, rest)) = words.split_first() else {
        return Err(USAGE.to_string());
    };
    match (*name, &numbers(rest)?[..]) {
        ("corpus", []) => corpus(watcher),
        ("exhaustive", bounds) => all_small(watcher, MEANING, bounds),
        ("lines", bounds) => all_small(watcher, LINES, bounds),
        ("spelling", bounds) => all_small(watcher, SPELLING, bounds),
        ("braces", bounds) => all_small(watcher, BRACES, bounds),
        ("readings", &[length]) => all_readings(watcher, length),
        ("random", &[seed, count]) => many_random(watcher, seed, 0, count),
        ("random", &[seed, count, first]) => many_random(watcher, seed, first, count),
        _ => Err(USAGE.to_string()),
    }
}

fn corpus<W: Watcher>(watcher: &W) -> Result<(), String> {
    let folder = corpus::files::folder();
    show("corpus on the definition", &run_definition(folder)?)?;
    show("corpus on the calls", &run_folder(watcher, folder)?)?;
    show("corpus on the model of the program", &run_program(&Model, folder)?)
}

/// The plain matcher, compared with the definition and with table, scan and closing.
#[cfg(feature = "library")]
fn plainly(name: &str, words: &[&str]) -> Result<(), String> {
    let count = match (name, &numbers(words)?[..]) {
        ("exhaustive", &[tokens, bytes]) => {
            plain::exhaustive(MEANING, tokens as usize, bytes as usize)
        }
        ("lines", &[tokens, bytes]) => plain::exhaustive(LINES, tokens as usize, bytes as usize),
        ("random", &[seed, cases]) => plain::random(seed, 0, cases),
        ("random", &[seed, cases, first]) => plain::random(seed, first, cases),
        _ => return Err(USAGE.to_string()),
    }?;
    println!(
        "plain {name}: {} questions, {} accepted, {} reports, {} scanned too",
        count.questions, count.accepted, count.reports, count.scanned
    );
    Ok(())
}

/// The runs of the program on the program itself.
fn program(path: &str) -> Result<(), String> {
    show("corpus on the program", &run_program(&Process::at(path)?, corpus::files::folder())?)
}

fn show(what: &str, tally: &Tally) -> Result<(), String> {
    let failed = tally.failures.len();
    println!("{what}: {} passed, {} skipped, {failed} failed", tally.passed, tally.skipped);
    if failed == 0 {
        return Ok(());
    }
    Err(tally.failures.join("\n"))
}

fn all_small<W: Watcher + PatternReader>(
    watcher: &W,
    alphabet: Alphabet,
    bounds: &[u64],
) -> Result<(), String> {
    let (tokens, bytes, part) = match *bounds {
        [tokens, bytes] => (tokens, bytes, (0, 1)),
        [tokens, bytes, part, of] if part < of => (tokens, bytes, (part, of)),
        _ => return Err(USAGE.to_string()),
    };
    let bounds = Bounds { alphabet, tokens: tokens as usize, bytes: bytes as usize, part };
    let count = exhaustive::run(watcher, watcher, bounds)?;
    println!(
        "exhaustive: {} patterns read, {} accepted, {} (pattern, log) pairs, {} streams",
        count.patterns, count.accepted, count.pairs, count.streams
    );
    Ok(())
}

fn all_readings<R: PatternReader>(reader: &R, length: u64) -> Result<(), String> {
    let count = readings::run(reader, length as usize)?;
    println!("readings: {} patterns, by number {:?}", count.patterns, count.by_number);
    Ok(())
}

fn many_random<W: Watcher>(watcher: &W, seed: u64, first: u64, cases: u64) -> Result<(), String> {
    let count = random::run(watcher, seed, first, cases)?;
    println!("random: seed {seed}, {} cases, {} (pattern, log) pairs", count.cases, count.pairs);
    println!(
        "random: {} calls, {} of them refused, {} with an allowance, {} reports, {} units",
        count.calls, count.refused_calls, count.limited, count.reports, count.used
    );
    println!("random: additions by number {:?}", count.by_number);
    Ok(())
}

fn many_damaged<C: Calls>(calls: &C, seed: u64, first: u64, cases: u64) -> Result<(), String> {
    show_damaged(seed, damaged::run(calls, seed, first, cases)?)
}

fn show_damaged(seed: u64, count: damaged::Count) -> Result<(), String> {
    println!(
        "damaged: seed {seed}, {} cases, {} calls, {} bytes taken, {} reports, {} units",
        count.cases, count.calls, count.taken, count.reports, count.used
    );
    if count.alike > 0 {
        println!("damaged: {} calls with starts made without them too", count.alike);
    }
    println!("damaged: calls by number {:?}", count.by_number);
    println!("damaged: additions by number {:?}", count.additions);
    println!("damaged: words changed by region {:?}", count.changed);
    println!("damaged: first calls that they decided {:?}", count.decided);
    Ok(())
}

fn many_cards<C: Card>(calls: &C, seed: u64, first: u64, cases: u64) -> Result<(), String> {
    let count = card::run(calls, seed, first, cases)?;
    println!("card: seed {seed}, {} cases, {} of them tables", count.cases, count.tables);
    println!("card: written by number {:?}, read by number {:?}", count.written, count.read);
    Ok(())
}
