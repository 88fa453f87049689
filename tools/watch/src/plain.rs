//! The plain mode: the proved program writes standard output. It runs as a process of its own, and
//! every byte that it writes is handed on as it is. What is added around it goes to standard error,
//! and the status tells whether there was a hit.

use std::io::{self, Read, Write};
use std::path::Path;
use std::process::{Child, Command, Stdio};
use std::sync::atomic::{AtomicU64, Ordering};
use std::sync::{mpsc, Mutex};
use std::{fs, thread};

use crate::input::Log;
use crate::progress::{Progress, EACH};
use crate::rules::{self, NoRules, Refused};
use crate::said::{error_text, positions, Said};
use crate::Status;

/// Runs the program on the rules of a directory and a log.
pub fn run(program: &Path, dir: &Path, log: Log, said: &Said) -> Status {
    let no_rules = !tell_rules(dir, said);
    let expected = log.length;
    let child =
        Command::new(program).current_dir(dir).stdin(log.file).stdout(Stdio::piped()).spawn();
    let mut child = match child {
        Ok(child) => child,
        Err(error) => {
            let why = error_text(&error);
            said.say(&format!("{} in {}: {why}", program.display(), dir.display()));
            return Status::Failed;
        }
    };
    let mut written = Written::default();
    if let Err(error) = hand_on(&mut child, &mut written, expected, said) {
        let _ = child.kill();
        let _ = child.wait();
        // A reader that has gone, as `head` does, knows what it left out.
        if error.kind() != io::ErrorKind::BrokenPipe {
            said.say(&format!("output lost: {}", error_text(&error)));
        }
        return Status::Failed;
    }
    let ended = child.wait().is_ok_and(|status| status.success());
    settle(&written, ended, no_rules, expected, &log.name, said)
}

/// Tells what is wrong with the rules, in words; whether they could be read. The program and the
/// library refuse the same, so the words need not wait for the program's lines. Rules that come by a
/// pipe are left to the program.
fn tell_rules(dir: &Path, said: &Said) -> bool {
    if rules::is_pipe(dir) {
        return true;
    }
    let shown = rules::path(dir).display().to_string();
    let text = rules::read(dir);
    said.say_rules(&shown, &text);
    if let Ok(text) = &text {
        said.say_refused(&shown, text, &rules::add(text));
    }
    text.is_ok()
}

/// What the run comes to.
fn settle(
    written: &Written,
    ended: bool,
    no_rules: bool,
    expected: Option<u64>,
    log: &str,
    said: &Said,
) -> Status {
    let Some(end) = written.end else {
        if !written.too_long {
            said.say("the program stopped before the end of the log");
        }
        return Status::Failed;
    };
    if !ended {
        said.say("the program failed");
        return Status::Failed;
    }
    if expected.is_some_and(|expected| end < expected) {
        said.say(&format!("{log}: reading stopped after {end} bytes"));
        return Status::Failed;
    }
    if no_rules {
        return Status::Failed;
    }
    Status::of_hits(written.hits)
}

/// Hands on what the program writes, as it comes. A line on a terminal shows how far a long log is
/// read.
fn hand_on(
    child: &mut Child,
    written: &mut Written,
    length: Option<u64>,
    said: &Said,
) -> io::Result<()> {
    let mut from = child.stdout.take().expect("the output is a pipe");
    let counts = format!("/proc/{}/io", child.id());
    let progress = Mutex::new(Progress::new(length));
    let hits = AtomicU64::new(0);
    let on = progress.lock().is_ok_and(|progress| progress.is_on());
    thread::scope(|scope| {
        let (stop, stopped) = mpsc::channel::<()>();
        let (progress, hits, name) = (&progress, &hits, &said.name);
        if on {
            scope.spawn(move || {
                while stopped.recv_timeout(EACH) == Err(mpsc::RecvTimeoutError::Timeout) {
                    let Some(bytes) = bytes_read(&counts) else { continue };
                    if let Ok(mut progress) = progress.lock() {
                        progress.tell(name, bytes, hits.load(Ordering::Relaxed));
                    }
                }
            });
        }
        let answer = copy(&mut from, written, |piece, written| {
            let mut progress = progress.lock().map_err(|_| io::Error::other("a thread failed"))?;
            progress.clear();
            let mut out = io::stdout().lock();
            out.write_all(piece)?;
            out.flush()?;
            hits.store(written.hits, Ordering::Relaxed);
            Ok(())
        });
        drop(stop);
        if let Ok(mut progress) = progress.lock() {
            progress.clear();
        }
        answer
    })
}

fn copy(
    from: &mut impl Read,
    written: &mut Written,
    mut each: impl FnMut(&[u8], &mut Written) -> io::Result<()>,
) -> io::Result<()> {
    let mut piece = vec![0; 65_536];
    loop {
        let size = match from.read(&mut piece) {
            Ok(0) => return Ok(()),
            Err(error) if error.kind() == io::ErrorKind::Interrupted => continue,
            answer => answer?,
        };
        written.read(&piece[..size]);
        each(&piece[..size], written)?;
    }
}

/// The bytes that a process has read, as Linux counts them: the log's, and a few thousand of its
/// start.
fn bytes_read(counts: &str) -> Option<u64> {
    let text = fs::read_to_string(counts).ok()?;
    text.lines().find_map(|line| line.strip_prefix("rchar: "))?.parse().ok()
}

/// What the program has written, read line by line as it passes.
#[derive(Default)]
struct Written {
    hits: u64,
    end: Option<u64>,
    too_long: bool,
    /// The start of a line of which the rest has not come.
    open: Vec<u8>,
}

impl Written {
    fn read(&mut self, piece: &[u8]) {
        let mut lines = piece.split(|&byte| byte == b'\n');
        let last = lines.next_back().unwrap_or_default();
        for line in lines {
            if self.open.is_empty() {
                self.line(line);
            } else {
                self.open.extend_from_slice(line);
                let line = std::mem::take(&mut self.open);
                self.line(&line);
            }
        }
        self.open.extend_from_slice(last);
    }

    fn line(&mut self, line: &[u8]) {
        if line.first().is_some_and(u8::is_ascii_digit) {
            self.hits += 1;
            return;
        }
        let text = String::from_utf8_lossy(line);
        let words: Vec<&str> = text.split(' ').collect();
        match words[..] {
            ["end", bytes] => self.end = bytes.parse().ok(),
            ["rules", "too", "long"] => self.too_long = true,
            _ => (),
        }
    }
}

/// Reads the rules only: the lines that the program would write of them, and the rest in words.
pub fn check(dir: &Path, said: &Said) -> Status {
    let shown = rules::path(dir).display().to_string();
    let text = rules::read(dir);
    said.say_rules(&shown, &text);
    let text = match text {
        Ok(text) => text,
        Err(NoRules::TooLong | NoRules::Unread(_)) => return Status::Failed,
    };
    let rules = rules::add(&text);
    let mut out = String::new();
    for Refused { line, number, place } in &rules.refused {
        out.push_str(&format!("rule {line} refused {number} at {place}\n"));
    }
    if let Err(status) = crate::put(&out, said) {
        return status;
    }
    said.say_refused(&shown, &text, &rules);
    let (good, bad) = (rules.accepted.len(), rules.refused.len());
    let (good_rules, taken) = (crate::bytes::counted(good as u64, "rule"), positions(&rules));
    said.say(&format!("{shown}: {good_rules} accepted, {bad} refused; {taken}"));
    if bad > 0 {
        Status::NoHit
    } else {
        Status::Hit
    }
}

#[cfg(test)]
mod tests {
    use super::*;

    #[test]
    fn what_the_program_writes_is_read_in_any_pieces() {
        let output = b"rule 2 refused 10 at 2\n7 9\n7 12\nend 12\n";
        for size in 1..output.len() {
            let mut written = Written::default();
            output.chunks(size).for_each(|piece| written.read(piece));
            assert_eq!((written.hits, written.end, written.too_long), (2, Some(12), false));
        }
    }
}
