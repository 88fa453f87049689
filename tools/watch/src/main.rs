//! The command around the verified watcher. In the plain mode the proved program writes standard
//! output (`plain`); `--show` and `--report` scan with the library and show each hit with what
//! stands around it (`look`, `hits`, `show`, `report`). `rules` reads the rules file as the program
//! does, `words` tells a refusal in words.

mod args;
mod closed;
mod colour;
mod explain;
mod hits;
mod input;
mod look;
mod notes;
mod plain;
mod progress;
mod report;
mod said;
mod show;
mod timeline;
mod words;

use std::io::{self, IsTerminal, Write};
use std::path::{Path, PathBuf};
use std::process::ExitCode;
use std::{env, thread};

use args::Command;
use colour::Colour;
use hits::Failure;
use input::Log;
use said::{error_text, Said};
use watch::{bytes, rules};

/// An addition may need 2 MiB of stack.
const STACK: usize = 16 << 20;

/// The command's last word, as grep has it.
#[derive(Clone, Copy, Debug, PartialEq, Eq)]
pub enum Status {
    Hit = 0,
    NoHit = 1,
    Failed = 2,
}

impl Status {
    fn of_hits(hits: u64) -> Status {
        if hits > 0 {
            Status::Hit
        } else {
            Status::NoHit
        }
    }
}

fn main() -> ExitCode {
    let work = thread::Builder::new().stack_size(STACK).spawn(run);
    match work.map(|thread| thread.join()) {
        Ok(Ok(status)) => ExitCode::from(status as u8),
        _ => ExitCode::from(Status::Failed as u8),
    }
}

fn run() -> Status {
    let mut words = env::args_os();
    let name = words.next().map(PathBuf::from).unwrap_or_default();
    let command = name.to_string_lossy().into_owned();
    let name = name.file_name().map_or("watch".into(), |name| name.to_string_lossy().into_owned());
    let parsed = args::parse(words);
    let when = parsed.as_ref().map_or(colour::When::Auto, |parsed| parsed.colour);
    let said = Said { name, command, colour: Colour::of(when, &io::stderr()) };
    if closed::output() {
        said.say("output lost: standard output is closed");
        return Status::Failed;
    }
    match parsed.map(|parsed| parsed.command) {
        Err(why) => {
            said.say(&format!("{why}; {} --help tells the options", said.command));
            Status::Failed
        }
        Ok(Command::Help) => put_all(&args::help(&said.command), &said),
        Ok(Command::Version) => put_all(&args::version(), &said),
        Ok(Command::Explain(number)) => explain::explain(&number, &said),
        Ok(Command::Check(dir)) => match is_dir(&dir, &said) {
            Some(status) => status,
            None => plain::check(&dir, &said),
        },
        Ok(Command::Example) => example(&said),
        Ok(Command::Watch { dir, log }) => match is_dir(&dir, &said) {
            Some(status) => status,
            None => watch(&dir, log.as_deref(), &said),
        },
        Ok(Command::Look { dir, log, looking }) => match is_dir(&dir, &said) {
            Some(status) => status,
            None => look::look(&dir, log.as_deref(), &looking, when, &said),
        },
    }
}

/// A failure if the rules' directory is none.
fn is_dir(dir: &Path, said: &Said) -> Option<Status> {
    let why = match dir.metadata() {
        Ok(about) if about.is_dir() => return None,
        Ok(_) if dir.file_name().is_some_and(|name| name == "rules.txt") => {
            "give the directory that the rules file stands in".to_string()
        }
        Ok(_) => "not a directory; the rules stand in DIR/rules.txt".to_string(),
        Err(error) => error_text(&error),
    };
    said.say(&format!("{}: {why}", dir.display()));
    Some(Status::Failed)
}

/// The proved program and the shipped example: beside the installed command, or where the script of
/// the repository says.
fn part(variable: &str, installed: &str) -> Option<PathBuf> {
    if let Some(path) = env::var_os(variable) {
        return Some(PathBuf::from(path));
    }
    let path = env::current_exe().ok()?.canonicalize().ok()?.parent()?.parent()?.join(installed);
    path.exists().then_some(path)
}

/// The log of this name or standard input; a failure if there is none.
fn log(name: Option<&Path>, said: &Said) -> Result<Log, Status> {
    let log = input::open(name).map_err(|why| {
        said.say(&why);
        Status::Failed
    })?;
    if log.name == "<stdin>" && log.file.is_terminal() {
        said.say("reading the log from the terminal; Ctrl-D ends it");
    }
    Ok(log)
}

fn watch(dir: &Path, name: Option<&Path>, said: &Said) -> Status {
    let Some(program) = part("WATCH_PROGRAM", "libexec/watcher/watcher") else {
        said.say("the program is missing: libexec/watcher/watcher beside this command's folder");
        return Status::Failed;
    };
    match log(name, said) {
        Ok(log) => plain::run(&program, dir, log, said),
        Err(status) => status,
    }
}

/// The shipped example, unless somebody has given a log without saying what to look for.
fn example(said: &Said) -> Status {
    if input::is_given() {
        let name = &said.command;
        said.say("there is a log on standard input, but no directory with rules");
        said.say(&format!("put rules in DIR/rules.txt and run {name} DIR; see {name} --help"));
        return Status::Failed;
    }
    let Some(dir) = part("WATCH_EXAMPLE", "share/watcher/example") else {
        said.say(&format!("give a directory with rules; {} --help tells more", said.command));
        return Status::Failed;
    };
    let dir = env::current_dir()
        .ok()
        .and_then(|here| Some(dir.strip_prefix(here).ok()?.to_path_buf()))
        .unwrap_or(dir);
    let log = dir.join("log.txt");
    said.say(&format!("the example, {} on {}", rules::path(&dir).display(), log.display()));
    let status = watch(&dir, Some(&log), said);
    if io::stderr().is_terminal() {
        let (name, dir, log) = (&said.command, dir.display(), log.display());
        said.say(&format!("{name} --show {dir} {log} shows the lines; {name} --help tells more"));
    }
    status
}

/// Says why a log was not read, or what was lost.
fn failed(failure: &Failure, log: &str, said: &Said) -> Status {
    match failure {
        Failure::Read(error) => said.say(&format!("{log}: {}", error_text(error))),
        // A reader that has gone, as `head` does, knows what it left out.
        Failure::Given(error) if error.kind() == io::ErrorKind::BrokenPipe => (),
        Failure::Given(error) => said.say(&format!("output lost: {}", error_text(error))),
        Failure::Refused(error) => said.say(&format!("{log}: {error}")),
    }
    Status::Failed
}

/// Writes to standard output.
pub fn put(text: &str, said: &Said) -> Result<(), Status> {
    let mut out = io::stdout().lock();
    out.write_all(text.as_bytes())
        .and_then(|()| out.flush())
        .map_err(|error| failed(&Failure::Given(error), "", said))
}

fn put_all(text: &str, said: &Said) -> Status {
    put(text, said).err().unwrap_or(Status::Hit)
}
