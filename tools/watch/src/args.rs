//! The command's words.

use std::ffi::{OsStr, OsString};
use std::os::unix::ffi::OsStrExt;
use std::path::PathBuf;

use crate::colour::When;

/// What is asked for.
#[derive(Debug, PartialEq, Eq)]
pub enum Command {
    Help,
    Version,
    Example,
    Explain(String),
    Check(PathBuf),
    Watch { dir: PathBuf, log: Option<PathBuf> },
    Look { dir: PathBuf, log: Option<PathBuf>, looking: Looking },
}

/// How hits are looked at.
#[derive(Debug, Default, PartialEq, Eq)]
pub struct Looking {
    pub show: bool,
    pub report: Option<PathBuf>,
}

#[derive(Debug, PartialEq, Eq)]
pub struct Parsed {
    pub command: Command,
    pub colour: When,
}

/// The words that were read, in any order; the ones that are no option in theirs.
#[derive(Default)]
struct Read {
    looking: Looking,
    check: bool,
    explain: Option<String>,
    colour: Option<When>,
    names: Vec<OsString>,
}

pub fn parse(words: impl Iterator<Item = OsString>) -> Result<Parsed, String> {
    let mut words = words;
    let mut read = Read::default();
    while let Some(word) = words.next() {
        let bytes = word.as_bytes();
        if bytes.len() < 2 || bytes[0] != b'-' {
            read.names.push(word);
            continue;
        }
        let equals = bytes.iter().position(|&byte| byte == b'=' && bytes.starts_with(b"--"));
        let (option, given) = bytes.split_at(equals.unwrap_or(bytes.len()));
        let given = given.get(1..).map(|given| OsStr::from_bytes(given).to_os_string());
        let option = String::from_utf8_lossy(option);
        let takes = ["--explain", "--report", "--color", "--colour"].contains(&&*option);
        if given.is_some() && !takes {
            return Err(format!("{option} takes no value"));
        }
        let mut value = || given.clone().or_else(|| words.next());
        match &*option {
            "--help" | "-h" => return Ok(alone(Command::Help)),
            "--version" | "-V" => return Ok(alone(Command::Version)),
            "--show" => read.looking.show = true,
            "--check" => read.check = true,
            "--report" => {
                let file = value().ok_or("--report needs a file to write")?;
                read.looking.report = Some(PathBuf::from(file));
            }
            "--explain" => {
                let number = value().ok_or("--explain needs a number")?;
                read.explain = Some(number.to_string_lossy().into_owned());
            }
            "--color" | "--colour" => read.colour = Some(when(value())?),
            "--" => {
                read.names.extend(words);
                break;
            }
            _ => return Err(format!("there is no option {option}")),
        }
    }
    let colour = read.colour.unwrap_or(When::Auto);
    Ok(Parsed { command: command(read)?, colour })
}

fn alone(command: Command) -> Parsed {
    Parsed { command, colour: When::Auto }
}

fn when(value: Option<OsString>) -> Result<When, String> {
    match value.as_ref().and_then(|value| value.to_str()) {
        Some("auto") => Ok(When::Auto),
        Some("always") => Ok(When::Always),
        Some("never") => Ok(When::Never),
        _ => Err("--color is auto, always or never".to_string()),
    }
}

fn command(read: Read) -> Result<Command, String> {
    let Read { looking, check, explain, names, .. } = read;
    let looks = looking != Looking::default();
    let most = if explain.is_some() {
        0
    } else if check {
        1
    } else {
        2
    };
    if let Some(extra) = names.get(most) {
        return Err(format!("what is {} for?", extra.to_string_lossy()));
    }
    if usize::from(looks) + usize::from(check) + usize::from(explain.is_some()) > 1 {
        return Err("--show and --report, --check and --explain do not go together".to_string());
    }
    if let Some(number) = explain {
        return Ok(Command::Explain(number));
    }
    let mut names = names.into_iter();
    let dir = names.next().map(PathBuf::from);
    let log = names.next().map(PathBuf::from);
    match dir {
        Some(dir) if check => Ok(Command::Check(dir)),
        Some(dir) if looks => Ok(Command::Look { dir, log, looking }),
        Some(dir) => Ok(Command::Watch { dir, log }),
        None if check || looks => Err("a directory with rules is missing".to_string()),
        None => Ok(Command::Example),
    }
}

/// The help, with the command's own name in it.
pub fn help(name: &str) -> String {
    include_str!("../help.txt").replace("@NAME@", name)
}

/// The version, and the toolchain that the tree is pinned to.
pub fn version() -> String {
    let toolchain = include_str!("../../../toolchain.txt").trim();
    format!("watcher {}\nfor the toolchain {toolchain}\n", watcher::VERSION)
}

#[cfg(test)]
mod tests {
    use super::*;

    fn parsed(words: &str) -> Result<Command, String> {
        parse(words.split_whitespace().map(OsString::from)).map(|parsed| parsed.command)
    }

    fn watch(dir: &str, log: Option<&str>) -> Command {
        Command::Watch { dir: dir.into(), log: log.map(PathBuf::from) }
    }

    #[test]
    fn words_in_any_order() {
        assert_eq!(parsed(""), Ok(Command::Example));
        assert_eq!(parsed("mine"), Ok(watch("mine", None)));
        assert_eq!(parsed("mine log"), Ok(watch("mine", Some("log"))));
        assert_eq!(parsed("--color never mine -"), Ok(watch("mine", Some("-"))));
        assert_eq!(parsed("-- --show"), Ok(watch("--show", None)));
        assert_eq!(parsed("--explain=7"), Ok(Command::Explain("7".into())));
        assert_eq!(parsed("mine --check"), Ok(Command::Check("mine".into())));
        assert_eq!(parsed("--what -h"), Err("there is no option --what".into()));
        let looking = Looking { show: true, report: Some("r.html".into()) };
        let look = Command::Look { dir: "mine".into(), log: None, looking };
        assert_eq!(parsed("mine --show --report r.html"), Ok(look));
    }

    #[test]
    fn what_makes_no_sense_is_refused() {
        for words in
            ["a b c", "--check a b", "--check", "--show", "--explain", "--report r --check a"]
        {
            assert!(parsed(words).is_err(), "{words}");
        }
        assert!(parsed("--color blue a").is_err());
        assert!(parsed("--show=yes a").is_err());
    }
}
