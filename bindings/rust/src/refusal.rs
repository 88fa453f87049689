//! The refusals by number, from `refusals.txt`: one record for each, read where it stands.

/// The table of all refusals, which stands once.
const TABLE: &str = include_str!("../refusals.txt");

/// What a number means: its names, a short text, and a paragraph with an example.
///
/// ```
/// use watcher::Refusal;
///
/// let refusal = Refusal::of(10).unwrap();
/// assert_eq!(refusal.text, "a quantifier with nothing to repeat");
/// assert_eq!(refusal.example.unwrap().pattern, "a**");
/// ```
#[derive(Clone, Copy, Debug, PartialEq, Eq)]
pub struct Refusal {
    /// The number that a call answers.
    pub number: u32,
    /// Its name in C, `-` for a number of the program alone.
    pub name: &'static str,
    /// Its case of [`Error`](crate::Error), `-` for a number of the program alone.
    pub case: &'static str,
    /// The calls that give it.
    pub given_by: &'static str,
    /// What it means, in a few words.
    pub text: &'static str,
    /// The same in a paragraph, in lines of at most 100 columns.
    pub explanation: &'static str,
    /// A rule that is refused so.
    pub example: Option<Example>,
}

/// A rule that an empty table refuses.
///
/// ```
/// use watcher::{Flags, Refusal, Table};
///
/// let example = Refusal::of(9).unwrap().example.unwrap();
/// let error = Table::new()
///     .add(1, Flags(example.flags), example.pattern.as_bytes())
///     .unwrap_err();
/// assert_eq!((error.number(), error.place()), (9, example.place));
/// ```
#[derive(Clone, Copy, Debug, PartialEq, Eq)]
pub struct Example {
    /// The rule's flags.
    pub flags: u32,
    /// Where the fault lies in the pattern.
    pub place: usize,
    /// The pattern.
    pub pattern: &'static str,
}

impl Refusal {
    /// The refusal of this number; none for a number that has no meaning.
    ///
    /// ```
    /// assert!(watcher::Refusal::of(14).is_some());
    /// assert!(watcher::Refusal::of(99).is_none());
    /// ```
    pub fn of(number: u32) -> Option<Refusal> {
        Refusal::all().find(|refusal| refusal.number == number)
    }

    /// All of them, by rising number.
    ///
    /// ```
    /// let numbers: Vec<u32> = watcher::Refusal::all().map(|refusal| refusal.number).collect();
    /// assert!(numbers.windows(2).all(|pair| pair[0] < pair[1]));
    /// ```
    pub fn all() -> impl Iterator<Item = Refusal> {
        TABLE.split("\n\n").filter_map(record)
    }
}

/// A record of the table; none for the comment that opens it.
fn record(text: &'static str) -> Option<Refusal> {
    let (head, rest) = text.trim_end().split_once('\n')?;
    let mut words = head.splitn(4, ' ');
    let number = words.next()?.parse().ok()?;
    let (name, case, given_by) = (words.next()?, words.next()?, words.next()?);
    let (text, rest) = rest.strip_prefix("text ")?.split_once('\n')?;
    let (example, explanation) = match rest.strip_prefix("example ") {
        None => (None, rest),
        Some(rest) => {
            let (line, explanation) = rest.split_once('\n')?;
            (Some(example(line)?), explanation)
        }
    };
    Some(Refusal { number, name, case, given_by, text, explanation, example })
}

fn example(line: &'static str) -> Option<Example> {
    let mut parts = line.splitn(3, ' ');
    let (flags, place) = (parts.next()?.parse().ok()?, parts.next()?.parse().ok()?);
    Some(Example { flags, place, pattern: parts.next()? })
}
