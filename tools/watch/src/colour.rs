//! Colours of a terminal, as ripgrep has them: the file magenta, numbers green, the match red.

use std::env;
use std::io::IsTerminal;

/// When to colour.
#[derive(Clone, Copy, Debug, PartialEq, Eq)]
pub enum When {
    Auto,
    Always,
    Never,
}

/// What a part of a line is.
#[derive(Clone, Copy)]
pub enum Part {
    File,
    Number,
    Name,
    Match,
    Faint,
}

/// Whether to colour what goes to one place.
#[derive(Clone, Copy)]
pub struct Colour(bool);

impl Colour {
    /// By the wish, and in `Auto` if the place is a terminal and NO_COLOR is not set.
    pub fn of(when: When, place: &impl IsTerminal) -> Colour {
        Colour(match when {
            When::Always => true,
            When::Never => false,
            When::Auto => {
                let wished = env::var_os("NO_COLOR").is_none_or(|value| value.is_empty());
                wished
                    && env::var_os("TERM").is_none_or(|term| term != "dumb")
                    && place.is_terminal()
            }
        })
    }

    /// Whether the place shows colours.
    pub fn is_on(self) -> bool {
        self.0
    }

    pub fn paint(self, part: Part, text: &str) -> String {
        if !self.0 || text.is_empty() {
            return text.to_string();
        }
        let code = match part {
            Part::File => "35",
            Part::Number => "32",
            Part::Name => "1",
            Part::Match => "1;31",
            Part::Faint => "2",
        };
        format!("\x1b[{code}m{text}\x1b[0m")
    }
}
