//! A number of a refusal, in a paragraph with an example.

use watcher::Refusal;

use crate::bytes;
use crate::said::Said;
use crate::Status;

/// Tells what a number means; a name in C or Rust will do too.
pub fn explain(asked: &str, said: &Said) -> Status {
    let named = |refusal: &Refusal| {
        refusal.number.to_string() == asked || refusal.name == asked || refusal.case == asked
    };
    let Some(refusal) = Refusal::all().find(named) else {
        let numbers: Vec<String> = Refusal::all().map(|known| known.number.to_string()).collect();
        said.say(&format!("there is no refusal {asked}; the numbers are {}", numbers.join(" ")));
        return Status::Failed;
    };
    crate::put_all(&text(&refusal), said)
}

fn text(refusal: &Refusal) -> String {
    let Refusal { number, text, explanation, .. } = refusal;
    let mut told = format!("{number}: {text}\n\n{explanation}\n");
    if let Some(example) = refusal.example {
        let line = format!("7 {} ", example.flags);
        let before = &example.pattern.as_bytes()[..example.place];
        let caret = line.len() + bytes::width(&bytes::of_pattern(before));
        let pattern = bytes::of_pattern(example.pattern.as_bytes());
        let place = example.place;
        told.push_str(&format!(
            "\nFor example this rule is refused with {number} at {place}:\n\n    {line}{pattern}\n    \
             {}^\n",
            " ".repeat(caret)
        ));
    }
    if refusal.name != "-" {
        told.push_str(&format!("\nIn C {}, in Rust {}.\n", refusal.name, refusal.case));
    }
    told
}

#[cfg(test)]
mod tests {
    use super::*;

    #[test]
    fn a_number_is_told_with_its_example() {
        let told = text(&Refusal::of(10).unwrap());
        assert!(told.starts_with("10: a quantifier with nothing to repeat\n\n"));
        assert!(told.contains("\n    7 0 a**\n          ^\n"));
    }
}
