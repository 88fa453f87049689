//! Spaces and tabs between the braces of quantifiers and of `\x{..}` and `\o{..}`: for each pattern an
//! equal one without them, or the number and the place. A brace that is no quantifier is literal. A
//! tab is passed over like a space, and is then a raw control byte of the token, or by itself.

mod readings;

use readings::{equal, members, refused, rule};

/// What may stand wherever a blank may.
const BLANKS: [&str; 5] = ["", " ", "\t", "  ", " \t"];

/// Equal to the plain pattern; with a tab, refused at the first byte of the token it lies in.
fn equal_or_raw(pattern: &str, plain: &str, token: usize) {
    match pattern.find('\t') {
        None => equal(&[(pattern, plain)]),
        Some(_) => refused(&[(pattern, 23, token)]),
    }
}

/// Its braces are bytes; a raw control byte among them is refused by itself.
fn literal(pattern: &str) {
    match pattern.find(|c: char| c.is_ascii_control()) {
        None => equal(&[(pattern, &pattern.replace('{', "\\{"))]),
        Some(at) => refused(&[(pattern, 23, at)]),
    }
}

/// Every way to put blanks for the `#` of a spelling.
fn spelled(spelling: &str) -> Vec<String> {
    let mut all = vec![String::new()];
    for (index, part) in spelling.split('#').enumerate() {
        let between: &[&str] = if index == 0 { &[""] } else { &BLANKS };
        all = all
            .iter()
            .flat_map(|start| between.iter().map(move |blank| format!("{start}{blank}{part}")))
            .collect();
    }
    all
}

#[test]
fn quantifiers_at_every_gap() {
    for (spelling, plain, token) in [
        ("a{#2#}", "a{2}", 1),
        ("a{#2#,#}", "a{2,}", 1),
        ("a{#2#,#3#}", "a{2,3}", 1),
        ("ab{#,#3#}", "ab{,3}", 2),
        ("a{#0#,#3#}b", "a{0,3}b", 1),
        ("a{#02#,#0003#}", "a{2,3}", 1),
        ("a{#2#}?b", "a{2}b", 1),
        ("(?:ab|c){#2#,#}?", "(?:ab|c){2,}", 8),
        ("[ab]{#12#}", "[ab]{12}", 4),
    ] {
        for pattern in spelled(spelling) {
            equal_or_raw(&pattern, plain, token);
        }
    }
}

#[test]
fn escapes_at_every_gap() {
    for (spelling, plain, token) in [
        ("\\x{#41#}", "A", 0),
        ("a\\x{#0041#}b", "aAb", 1),
        ("\\o{#101#}", "A", 0),
        ("[b\\o{#101#}]", "[bA]", 2),
        ("[\\x{#41#}-\\o{#103#}]", "[A-C]", 1),
    ] {
        for pattern in spelled(spelling) {
            equal_or_raw(&pattern, plain, token);
        }
    }
    equal(&[("\\x{ 41 }{ 2 }", "A{2}")]);
    assert_eq!(members(1, "\\x{ 41 }"), b"Aa");
    assert_eq!(members(0, "\\x{ ff }"), [255]);
    assert_eq!(members(0, "\\o{ 0 }"), [0]);
}

#[test]
fn the_same_faults_as_without_blanks() {
    for (spelling, number, place) in [
        ("{#2#}", 10, 0),
        ("{#,#2#}", 10, 0),
        ("{#2#,#}", 10, 0),
        ("^{#2#}", 10, 1),
        ("a|{#2#}", 10, 2),
        ("a*{#2#}", 10, 2),
        ("({#3#,#2#}", 10, 1),
        ("a{#3#,#2#}", 11, 1),
        ("a{#65536#}", 11, 1),
        ("a{#65536#,#}", 11, 1),
        ("a{#,#65536#}", 11, 1),
        ("a{#2#}+", 14, 1),
        ("a{#3#,#2#}+", 11, 1),
        ("a\\x{#100#}", 7, 1),
        ("a\\o{#400#}", 7, 1),
        ("[b\\x{#100#}]", 7, 2),
        ("[\\x{#42#}-\\x{#41#}]", 9, 1),
        ("[\\x{#41#}-\\x{#100#}]", 7, 1),
        ("a\\x{#}", 6, 1),
        ("a\\o{#}", 6, 1),
        ("a\\x{#41#", 6, 1),
        ("a\\x{#100#", 6, 1),
        ("a\\x{#4g#}", 6, 1),
        ("a\\o{#8#}", 6, 1),
        ("a\\x{#41#,#42#}", 6, 1),
        ("a\\x{#,#41#}", 6, 1),
        ("[\\x{#}", 6, 1),
    ] {
        for pattern in spelled(spelling) {
            refused(&[(&pattern, number, place)]);
        }
    }
    // At the pattern's end, whose place counts the blanks.
    refused(&[("a{ 0 }", 15, 6), ("a{ , 4 }", 15, 8), ("a{ 257 }", 16, 8)]);
}

#[test]
fn blanks_alone_are_no_number() {
    for spelling in ["{#}", "{#,#}", "a{#}", "a{#,#}", "a{#", "a{#2#", "a{#2#,#", "a{#2#,#3#"] {
        spelled(spelling).iter().for_each(|pattern| literal(pattern));
    }
    // The last byte is repeated, as that of any other literal text.
    equal(&[("{ }{2}", "\\{ }{2}"), ("{ , }{ 2 }", "\\{ , }{2}"), ("a{ }+", "a\\{ }+")]);
    assert_eq!(rule(0, "{ , }").positions, 5);
    assert_eq!(rule(0, "{ }").positions, 3);
}

#[test]
fn a_blank_between_digits_or_elsewhere() {
    for pattern in [
        "a{2 3}",
        "a{2\t3}",
        "a{ 2 3 }",
        "a{1 2,3}",
        "a{1,2 3}",
        "a{2,3 ,4}",
        "a{2 , , 3}",
        "a{, ,3}",
        "a{- 1}",
        "a{ 2x}",
        "a{x 2}",
        // Only the space and the tab are blanks.
        "a{\n2}",
        "a{2\r}",
        "a{2,\u{b}3}",
        "a{2\u{c},3}",
        "a{\02}",
    ] {
        literal(pattern);
    }
    refused(&[
        ("\\x{4 1}", 6, 0),
        ("\\x{4\t1}", 6, 0),
        ("\\x{ 4 1 }", 6, 0),
        ("\\o{1 0 1}", 6, 0),
        ("\\o{10 1}", 6, 0),
        ("[a\\x{4 1}]", 6, 2),
        ("[\\o{1 1}-a]", 6, 1),
        ("[a-\\x{4 1}]", 6, 1),
        ("\\x{\n41}", 6, 0),
        ("\\x{41\r}", 6, 0),
        ("\\o{\u{b}101}", 6, 0),
    ]);
    // Blanks outside the braces are bytes.
    equal(&[
        ("a {2}", "a\\x20{2}"),
        ("a{ 2 } ?", "a{2}\\x20?"),
        ("a{ 2 } +", "a{2}\\x20+"),
        ("\\x {41}", "\\x{0}\\x20{41}"),
        ("[a{ 2 }]", "[ 2a{}]"),
        ("\\Qa{ 2 }\\E", "a\\{ 2 \\}"),
        ("\\{ 2 }", "\\x7b 2 }"),
        ("\\N{ 2 }", "\\N{2}"),
    ]);
    refused(&[("\\o {101}", 6, 0), ("a{ 2 }{ 3 }", 10, 6)]);
}

#[test]
fn quotes_and_comments_break_the_form() {
    equal(&[
        ("a{ 2\\E }", "a\\{ 2 }"),
        ("a{ \\Q2\\E }", "a\\{ 2 }"),
        ("a{\\Q \\E2}", "a\\{ 2}"),
        ("a{ 2(?#x) }", "a\\{ 2 }"),
        ("a(?# { 2 })", "a"),
        ("a(?#x){ 2 }", "a{2}"),
        ("\\Qa\\E{ 2 }", "a{2}"),
    ]);
    refused(&[
        ("\\x{ \\E41}", 6, 0),
        ("\\x{41(?#x) }", 6, 0),
        ("(?#x){ 2 }", 10, 5),
        ("a*(?#x){ 2 }", 10, 7),
        ("a*\\E{ , 2 }", 10, 4),
    ]);
}
