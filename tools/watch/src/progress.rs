//! How far a long log is read, on one line of a terminal that is written again and again.

use std::io::{self, IsTerminal, Write};
use std::time::{Duration, Instant};

use crate::bytes::counted;

/// Nothing is shown of a log that is done by then, or is shorter; afterwards so often.
const FIRST: Duration = Duration::from_secs(1);
const LONG: u64 = 1_000_000;
pub const EACH: Duration = Duration::from_millis(250);

/// The line on standard error.
pub struct Progress {
    on: bool,
    started: Instant,
    next: Instant,
    drawn: bool,
    /// The log's length, if it is known.
    length: Option<u64>,
}

impl Progress {
    /// Shows nothing unless standard error is a terminal.
    pub fn new(length: Option<u64>) -> Progress {
        let started = Instant::now();
        let on = io::stderr().is_terminal();
        Progress { on, started, next: started + FIRST, drawn: false, length }
    }

    pub fn is_on(&self) -> bool {
        self.on
    }

    /// Writes the line, if it is time to.
    pub fn tell(&mut self, name: &str, bytes: u64, hits: u64) {
        let now = Instant::now();
        if !self.on || now < self.next || bytes < LONG {
            return;
        }
        self.next = now + EACH;
        self.drawn = true;
        let line = line(bytes, self.length, now - self.started, hits);
        let _ = write!(io::stderr(), "\r\x1b[K{name}: {line}");
    }

    /// Clears the line, so that something else can be written.
    pub fn clear(&mut self) {
        if self.drawn {
            self.drawn = false;
            let _ = write!(io::stderr(), "\r\x1b[K");
        }
    }
}

fn line(bytes: u64, length: Option<u64>, time: Duration, hits: u64) -> String {
    let rate = size((bytes as f64 / time.as_secs_f64().max(0.001)) as u64);
    let part = match length {
        Some(length) if length >= bytes && length > 0 => {
            format!(" of {} ({}%)", size(length), bytes * 100 / length)
        }
        _ => String::new(),
    };
    format!("{}{part}, {rate}/s, {}", size(bytes), counted(hits, "hit"))
}

/// A number of bytes in a few letters.
pub fn size(bytes: u64) -> String {
    let units = [(1_000_000_000, "GB"), (1_000_000, "MB"), (1_000, "kB")];
    match units.iter().find(|&&(unit, _)| bytes >= unit) {
        Some(&(unit, name)) => format!("{:.1} {name}", bytes as f64 / unit as f64),
        None => format!("{bytes} bytes"),
    }
}

#[cfg(test)]
mod tests {
    use super::*;

    #[test]
    fn bytes_rate_and_hits_stand_on_a_line() {
        let told = line(250_000_000, Some(1_000_000_000), Duration::from_secs(2), 3);
        assert_eq!(told, "250.0 MB of 1.0 GB (25%), 125.0 MB/s, 3 hits");
        assert_eq!(line(900, None, Duration::from_secs(1), 1), "900 bytes, 900 bytes/s, 1 hit");
    }
}
