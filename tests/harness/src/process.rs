//! The built program behind the interface, as processes of their own, each in a fresh directory. It
//! runs twice: on a file as its input, and on a pipe that is fed in uneven pieces.

use std::fs::{self, File};
use std::io::Write;
use std::path::{Path, PathBuf};
use std::process::{Command, Stdio};
use std::sync::atomic::{AtomicUsize, Ordering};
use std::thread;

use crate::watcher::Program;

/// What is written to the pipe at once: a number that divides no block size.
const PIECE: usize = 4_093;

pub struct Process {
    path: PathBuf,
}

impl Process {
    /// The program at a path, which is looked up here and not in a run's directory.
    pub fn at(path: &str) -> Result<Process, String> {
        let path = fs::canonicalize(path).map_err(|e| format!("{path}: {e}"))?;
        Ok(Process { path })
    }

    fn command(&self, folder: &Path) -> Command {
        let mut command = Command::new(&self.path);
        command.current_dir(folder).stdout(Stdio::piped());
        command
    }

    fn on_file(&self, folder: &Path, input: &Path) -> Vec<u8> {
        let file = File::open(input).expect("the input opens");
        self.command(folder).stdin(file).output().expect("the program runs").stdout
    }

    fn on_pipe(&self, folder: &Path, input: &[u8]) -> Vec<u8> {
        let mut child =
            self.command(folder).stdin(Stdio::piped()).spawn().expect("the program starts");
        let mut pipe = child.stdin.take().expect("the input is a pipe");
        thread::scope(|scope| {
            scope.spawn(move || {
                // A program that stops early, as on rules that are too long, closes the pipe.
                let _ = input.chunks(PIECE).try_for_each(|piece| pipe.write_all(piece));
            });
            child.wait_with_output().expect("the program ends").stdout
        })
    }
}

impl Program for Process {
    fn run(&self, rules: Option<&[u8]>, input: &[u8]) -> Vec<u8> {
        let folder = Folder::fresh();
        if let Some(rules) = rules {
            fs::write(folder.0.join("rules.txt"), rules).expect("the rules are written");
        }
        let file = folder.0.join("input");
        fs::write(&file, input).expect("the input is written");
        let out = self.on_file(&folder.0, &file);
        assert!(out == self.on_pipe(&folder.0, input), "a file and a pipe give different output");
        out
    }
}

/// A directory that is removed again.
struct Folder(PathBuf);

impl Folder {
    fn fresh() -> Folder {
        static COUNT: AtomicUsize = AtomicUsize::new(0);
        let count = COUNT.fetch_add(1, Ordering::Relaxed);
        let name = format!("watcher-{}-{count}", std::process::id());
        let folder = std::env::temp_dir().join(name);
        fs::create_dir(&folder).expect("a fresh directory");
        Folder(folder)
    }
}

impl Drop for Folder {
    fn drop(&mut self) {
        let _ = fs::remove_dir_all(&self.0);
    }
}
