//! Runs of the program, read from their file. The format:
//!
//! ```text
//! rules HEX [COUNT]   bytes of the rules file, COUNT times over; several lines are joined;
//!                     '-' is the empty file, 'none' a file that cannot be opened
//! input HEX [COUNT]   bytes of standard input, in the same way
//! out TEXT            a line that the program writes
//! outs FIRST LAST STEP TEXT
//!                     such a line for each number from FIRST to LAST by STEP, put where TEXT has '#'
//! ```
//!
//! A run ends at an empty line.

use crate::hex;

#[derive(Clone, Debug, Default)]
pub struct ProgramCase {
    /// File and line, for messages.
    pub origin: String,
    /// Is there a rules file that can be opened?
    pub has_rules: bool,
    pub rules: Vec<u8>,
    pub input: Vec<u8>,
    pub out: Vec<u8>,
}

/// Adds one line of the file to the run.
pub fn line(run: &mut ProgramCase, text: &str) -> Result<(), String> {
    let (word, rest) = text.split_once(' ').ok_or(format!("'{text}' is no line of a run"))?;
    match word {
        "rules" if rest == "none" => run.has_rules = false,
        "rules" => {
            run.has_rules = true;
            run.rules.extend(repeated(rest)?);
        }
        "input" => run.input.extend(repeated(rest)?),
        "out" => written(run, rest),
        "outs" => {
            let [first, last, step, text] = rest.splitn(4, ' ').collect::<Vec<_>>()[..] else {
                return Err(format!("'{text}' wants three numbers and a text"));
            };
            let numbers = hex::number::<usize>(first)?..=hex::number(last)?;
            for n in numbers.step_by(hex::number(step)?) {
                written(run, &text.replace('#', &n.to_string()));
            }
        }
        _ => return Err(format!("'{text}' is no line of a run")),
    }
    Ok(())
}

fn written(run: &mut ProgramCase, text: &str) {
    run.out.extend(text.as_bytes());
    run.out.push(10);
}

fn repeated(words: &str) -> Result<Vec<u8>, String> {
    let (bytes, count) = words.split_once(' ').unwrap_or((words, "1"));
    Ok(hex::bytes(bytes)?.repeat(hex::number(count)?))
}
