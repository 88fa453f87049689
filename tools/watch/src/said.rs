//! What goes to standard error: words for people, each line with the command's name before it.

use std::io::{self, Write};

use crate::bytes::counted;
use crate::colour::{Colour, Part};
use crate::rules::{self, NoRules, Refused, Rules, POSITIONS};
use crate::words;

/// So many refused lines are told in words; a file may have thousands.
const MOST: usize = 20;

/// The refusal of a rule that the others leave no positions for.
const LARGE_TABLE: u32 = 17;

/// Standard error, under the command's name.
#[derive(Clone)]
pub struct Said {
    pub name: String,
    /// How the command was called, for a hint that can be typed.
    pub command: String,
    pub colour: Colour,
}

impl Said {
    pub fn say(&self, text: &str) {
        // A message that cannot be written has nobody to tell.
        let _ = writeln!(io::stderr(), "{}: {text}", self.name);
    }

    /// A line that goes with the one before.
    fn add(&self, text: &str) {
        let _ = writeln!(io::stderr(), "    {text}");
    }

    /// Why there are no rules, or that the file has none.
    pub fn say_rules(&self, path: &str, read: &Result<Vec<u8>, NoRules>) {
        match read {
            Err(NoRules::Unread(error)) => {
                self.say(&format!("{path}: {}; there is no rule to watch for", error_text(error)));
            }
            Err(NoRules::TooLong) => {
                self.say(&format!("{path}: more than 16,384 bytes; nothing was watched for"));
            }
            Ok(text) if text.is_empty() => {
                self.say(&format!("{path}: the file is empty; there is no rule to watch for"));
            }
            Ok(_) => (),
        }
    }

    /// Each refused line, with the caret under the place.
    pub fn say_refused(&self, path: &str, text: &[u8], rules: &Rules) {
        let (lines, refused) = (rules::lines(text), &rules.refused[..]);
        for &one in refused.iter().take(MOST) {
            let told = words::tell(&lines, refused, one);
            let Refused { line, number, .. } = one;
            self.say(&format!(
                "{}:{}: refused {number}: {}",
                self.colour.paint(Part::File, path),
                self.colour.paint(Part::Number, &line.to_string()),
                self.colour.paint(Part::Name, told.text)
            ));
            self.add(&told.line);
            let caret = self.colour.paint(Part::Match, "^");
            self.add(&format!("{}{caret}", " ".repeat(told.caret)));
            if let Some(hint) = told.hint {
                self.add(&hint);
            }
        }
        let more = refused.len().saturating_sub(MOST);
        if more > 0 {
            self.say(&format!("{path}: {} more refused", counted(more as u64, "line")));
        }
        if let Some(why) = words::of_the_file(text, refused) {
            why.lines().for_each(|line| self.say(&format!("{path}: {line}")));
        }
        if refused.iter().any(|one| one.number == LARGE_TABLE) {
            self.say(&format!("{path}: {}", positions(rules)));
        }
        if let Some(first) = refused.first() {
            self.add(&format!("{} --explain {} tells more", self.command, first.number));
        }
        if !refused.is_empty() && refused.len() == lines.len() {
            self.say(&format!("{path}: no rule is left to watch for"));
        }
    }
}

/// How much of a table the rules take.
pub fn positions(rules: &Rules) -> String {
    match rules.positions() {
        Some(taken) => format!("the rules take {taken} of {POSITIONS} positions"),
        None => "the table is full".to_string(),
    }
}

/// An error of the system without its number.
pub fn error_text(error: &io::Error) -> String {
    let text = error.to_string();
    let text = text.split(" (os error").next().unwrap_or_default();
    let mut letters = text.chars();
    letters.next().map_or(String::new(), |first| first.to_lowercase().chain(letters).collect())
}
