//! The log: a file that is named, or standard input.

use std::fs::{File, Metadata};
use std::io::{self, IsTerminal, Read, Seek};
use std::os::fd::AsFd;
use std::os::unix::fs::FileTypeExt;
use std::path::Path;
use std::sync::mpsc;
use std::thread;
use std::time::Duration;

use crate::closed;

/// A log that is there to be read.
pub struct Log {
    pub file: File,
    /// What it is called.
    pub name: String,
    /// How many bytes are left in it, if it is a file.
    pub length: Option<u64>,
}

/// The log of this name; standard input without one, or for `-`.
pub fn open(path: Option<&Path>) -> Result<Log, String> {
    let Some(path) = path.filter(|path| *path != Path::new("-")) else { return of_input() };
    let name = path.display().to_string();
    let told = |error| format!("{name}: {}", crate::said::error_text(&error));
    let file = File::open(path).map_err(told)?;
    log(file, name.clone()).map_err(|why| format!("{name}: {why}"))
}

fn of_input() -> Result<Log, String> {
    if closed::input() {
        return Err("standard input is closed; name a log after the directory".to_string());
    }
    let told = |error| format!("standard input: {}", crate::said::error_text(&error));
    let file = File::from(io::stdin().as_fd().try_clone_to_owned().map_err(told)?);
    log(file, "<stdin>".to_string()).map_err(|why| format!("standard input: {why}"))
}

fn log(mut file: File, name: String) -> Result<Log, String> {
    let about = file.metadata().map_err(|error| crate::said::error_text(&error))?;
    if about.is_dir() {
        return Err("is a directory, not a log".to_string());
    }
    let length = about.is_file().then(|| left(&mut file, &about)).flatten();
    Ok(Log { file, name, length })
}

/// The bytes between a file's place and its end.
fn left(file: &mut File, about: &Metadata) -> Option<u64> {
    Some(about.len().saturating_sub(file.stream_position().ok()?))
}

/// Whether somebody has given a log on standard input: a file with bytes, or a pipe in which one
/// comes soon. A pipe that stays silent is one that a script happens to have open.
pub fn is_given() -> bool {
    let Ok(mut log) = of_input() else { return false };
    if io::stdin().is_terminal() {
        return false;
    }
    if let Some(length) = log.length {
        return length > 0;
    }
    let about = log.file.metadata().map(|about| about.file_type());
    if !about.is_ok_and(|about| about.is_fifo() || about.is_socket()) {
        return false;
    }
    let (tell, hear) = mpsc::channel();
    thread::spawn(move || tell.send(log.file.read(&mut [0]).is_ok_and(|size| size > 0)));
    hear.recv_timeout(Duration::from_secs(1)).unwrap_or(false)
}
