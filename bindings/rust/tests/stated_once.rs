//! What stands in two places is compared here: the refusals of `refusals.txt` with the C header,
//! the documentation and this crate's own cases; the version; and each public item has an example.

use std::fs;

use watcher::{Error, Flags, Refusal, Table, VERSION};

fn file(path: &str) -> String {
    let path = format!("{}/{path}", env!("CARGO_MANIFEST_DIR"));
    fs::read_to_string(&path).unwrap_or_else(|e| panic!("{path}: {e}"))
}

/// The refusals that a call of the library gives, as the C header and the documentation list them.
fn of_the_library() -> impl Iterator<Item = Refusal> {
    Refusal::all().filter(|refusal| refusal.name != "-")
}

#[test]
fn every_record_is_read() {
    let records = file("refusals.txt").lines().filter(|line| line.starts_with("text ")).count();
    assert_eq!(Refusal::all().count(), records);
}

#[test]
fn the_header_has_the_same_names_numbers_and_texts() {
    let header = file("../../include/watcher.h");
    let listed = header.lines().filter_map(|line| {
        let (define, comment) = line.strip_prefix("#define ")?.split_once("/*")?;
        let (name, number) = define.trim_end().rsplit_once(' ')?;
        Some((name, number.strip_suffix('u')?.parse().ok()?, comment.strip_suffix("*/")?.trim()))
    });
    let listed: Vec<(&str, u32, &str)> = listed.collect();
    let wanted: Vec<(&str, u32, &str)> =
        of_the_library().map(|refusal| (refusal.name, refusal.number, refusal.text)).collect();
    assert_eq!(listed, wanted);
}

#[test]
fn the_documentation_has_the_same_rows() {
    let page = file("../../docs/EMBEDDING.md");
    let rows = page.lines().filter(|line| line.contains("| `WATCHER_") && !line.contains("| `HS_"));
    let rows: Vec<String> = rows.map(|line| line.replace('`', "")).collect();
    let wanted: Vec<String> = of_the_library()
        .map(|refusal| {
            let Refusal { number, name, case, given_by, text, .. } = refusal;
            let text = text.replace('\'', "");
            format!("| {number} | {name} | {case} | {given_by} | {text} |")
        })
        .collect();
    let rows: Vec<String> = rows.into_iter().map(|line| line.replace('\'', "")).collect();
    assert_eq!(rows, wanted);
}

#[test]
fn the_cases_have_their_numbers_and_names() {
    let source = file("src/error.rs");
    for refusal in of_the_library().filter(|refusal| refusal.number != 0) {
        let documented = source.contains(&format!("/// {}: ", refusal.number));
        assert!(documented, "{} is not documented in error.rs", refusal.number);
        let numbered = source.contains(&format!("{} => Error::{}", refusal.number, refusal.case));
        assert!(numbered, "{} is not Error::{}", refusal.number, refusal.case);
    }
    assert_eq!(Error::BadRange { place: 4 }.text(), Refusal::of(9).unwrap().text);
}

#[test]
fn the_examples_are_refused_as_they_say() {
    for refusal in Refusal::all() {
        let Some(example) = refusal.example else { continue };
        let error = Table::new()
            .add(1, Flags(example.flags), example.pattern.as_bytes())
            .expect_err("an example is refused");
        assert_eq!((error.number(), error.place()), (refusal.number, example.place));
    }
}

#[test]
fn each_number_has_an_example() {
    for refusal in Refusal::all() {
        let told = refusal.explanation.replace('\n', " ").contains("For example");
        assert!(told || refusal.example.is_some(), "{}", refusal.number);
    }
}

#[test]
fn the_version_is_one() {
    let header = file("../../include/watcher.h");
    assert!(header.contains(&format!("#define WATCHER_VERSION \"{VERSION}\"")));
}

/// The documentation comment above each public item holds a fenced example.
#[test]
fn each_public_item_has_an_example() {
    let files = ["lib.rs", "error.rs", "raw.rs", "refusal.rs", "stream.rs", "sys.rs"];
    for path in files {
        let (mut fenced, mut without) = (false, vec![]);
        for line in file(&format!("src/{path}")).lines().map(str::trim) {
            if line.starts_with("///") || line.starts_with("#[") {
                fenced |= line == "/// ```";
                continue;
            }
            let item = ["pub fn ", "pub const ", "pub struct ", "pub enum "];
            if item.iter().any(|start| line.starts_with(start)) && !fenced {
                without.push(line.to_string());
            }
            fenced = false;
        }
        assert!(without.is_empty(), "{path}: no example: {without:?}");
    }
}
