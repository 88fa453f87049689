//! The files of the corpus. `program.txt` holds runs of the program, every other `.txt` file holds
//! cases. A blank line ends a case; a line that starts with '#' is a comment.

use std::fs;
use std::path::Path;

use crate::case::{self, Case};
use crate::program::{self, ProgramCase};

/// The folder of the corpus in this repository.
pub fn folder() -> &'static Path {
    Path::new(concat!(env!("CARGO_MANIFEST_DIR"), "/../cases"))
}

/// All cases of the folder, file by file in the order of their names.
pub fn cases(folder: &Path) -> Result<Vec<Case>, String> {
    let mut files: Vec<_> = fs::read_dir(folder)
        .map_err(|e| format!("{}: {e}", folder.display()))?
        .filter_map(|entry| entry.ok().map(|e| e.path()))
        .filter(|path| path.extension().is_some_and(|e| e == "txt"))
        .filter(|path| path.file_name().is_some_and(|n| n != "program.txt"))
        .collect();
    files.sort();
    let mut all = Vec::new();
    for file in files {
        all.extend(cases_of(&file)?);
    }
    Ok(all)
}

/// The cases of one file.
pub fn cases_of(file: &Path) -> Result<Vec<Case>, String> {
    let (name, text) = text_of(file)?;
    cases_in(&name, &text)
}

/// The cases of a text that stands under this name.
pub fn cases_in(name: &str, text: &str) -> Result<Vec<Case>, String> {
    let mut cases: Vec<Case> = Vec::new();
    for paragraph in paragraphs(name, text) {
        let (first, name) = &paragraph[0];
        let name =
            name.strip_prefix("case ").ok_or(format!("{first}: a case starts with 'case'"))?;
        let mut lines = Vec::new();
        for (origin, text) in &paragraph[1..] {
            lines.push(case::line(text).map_err(|e| format!("{origin}: {e}"))?);
        }
        cases.push(Case { name: name.to_string(), origin: first.clone(), lines });
    }
    Ok(cases)
}

/// The runs of the program in the folder's `program.txt`.
pub fn program_cases(folder: &Path) -> Result<Vec<ProgramCase>, String> {
    let (name, text) = text_of(&folder.join("program.txt"))?;
    let mut runs = Vec::new();
    for paragraph in paragraphs(&name, &text) {
        let mut run = ProgramCase { origin: paragraph[0].0.clone(), ..ProgramCase::default() };
        for (origin, text) in &paragraph {
            program::line(&mut run, text).map_err(|e| format!("{origin}: {e}"))?;
        }
        runs.push(run);
    }
    Ok(runs)
}

fn text_of(file: &Path) -> Result<(String, String), String> {
    let name = file.file_name().unwrap_or_default().to_string_lossy().into_owned();
    let text = fs::read_to_string(file).map_err(|e| format!("{}: {e}", file.display()))?;
    Ok((name, text))
}

/// The lines between blank ones, each with its file and line number, comments left out.
fn paragraphs(name: &str, text: &str) -> Vec<Vec<(String, String)>> {
    let mut paragraphs = vec![Vec::new()];
    for (index, line) in text.lines().enumerate() {
        if line.is_empty() {
            paragraphs.push(Vec::new());
        } else if !line.starts_with('#') {
            let current = paragraphs.last_mut().expect("one is there from the start");
            current.push((format!("{name}:{}", index + 1), line.to_string()));
        }
    }
    paragraphs.retain(|paragraph| !paragraph.is_empty());
    paragraphs
}
