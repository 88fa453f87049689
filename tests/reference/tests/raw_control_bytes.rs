//! Raw control bytes, those below 32 and 127: refused with 23 as a fault of the token that they lie
//! in, at the token's first byte, after the lower numbers of that token and before all that is known
//! only at the pattern's end.

mod readings;

use readings::{equal, members, refused, rule};

#[test]
fn every_raw_byte_by_itself() {
    for byte in 0..=127u8 {
        let text = char::from(byte);
        let escaped = format!("\\x{byte:02x}");
        assert_eq!(members(0, &escaped), [byte]);
        if (32..127).contains(&byte) {
            assert_eq!(rule(0, &format!("\\Q{text}\\E")).positions, 1);
            continue;
        }
        for (pattern, place) in [
            ("#", 0),
            ("a#", 1),
            ("#*", 0),
            ("(#", 1),
            ("a|#", 2),
            ("(?i)#", 4),
            ("\\#", 0),
            ("a\\#*", 1),
            ("[#]", 1),
            ("[^#]", 2),
            ("[a#]", 2),
            ("[a\\#]", 2),
            ("[#", 1),
            ("\\Q#\\E", 2),
            ("\\Qa#", 3),
            ("[\\Q#\\E]", 3),
            ("[\\Qa#", 4),
            ("(?##)", 0),
            ("a(?#b#c)", 1),
            ("a(?##", 1),
            ("a{2#3}", 3),
            ("a{#", 2),
        ] {
            // `(?##)` is the comment's `#` and the byte.
            let pattern = match pattern.find("(?#") {
                Some(at) => {
                    pattern[..at + 3].to_string()
                        + &pattern[at + 3..].replace('#', &text.to_string())
                }
                None => pattern.replace('#', &text.to_string()),
            };
            refused(&[(&pattern, 23, place)]);
        }
    }
    for byte in 128..=255u8 {
        assert!(reference::rule::check(&[], 1, 0, &[byte]).is_ok());
    }
}

#[test]
fn escapes_stay() {
    for (pattern, byte) in [
        ("\\t", 9),
        ("\\x09", 9),
        ("\\x{9}", 9),
        ("\\x{ 9 }", 9),
        ("\\o{11}", 9),
        ("\\011", 9),
        ("\\cI", 9),
        ("\\x", 0),
        ("\\0", 0),
        ("\\a", 7),
        ("\\e", 27),
        ("\\f", 12),
        ("\\n", 10),
        ("\\r", 13),
        ("\\c?", 127),
        ("[\\b]", 8),
        ("[\\t]", 9),
        ("[\\x7f]", 127),
    ] {
        assert_eq!(members(0, pattern), [byte], "{pattern}");
    }
    assert_eq!(members(0, "[\\x00-\\x1f]"), (0..32).collect::<Vec<u8>>());
}

#[test]
fn within_an_escape() {
    refused(&[
        ("\\\t", 23, 0),
        ("a\\\n*", 23, 1),
        ("\\\u{7f}", 23, 0),
        // The lower numbers first.
        ("\\c\t", 6, 0),
        ("\\c\u{7f}", 6, 0),
        ("\\c", 6, 0),
        ("\\x{\t}", 6, 0),
        ("\\x{4\t1}", 6, 0),
        ("\\x{\t41", 6, 0),
        ("\\o\t", 6, 0),
        ("\\o{\n1}", 6, 0),
        ("\\x{\t100}", 7, 0),
        ("\\o{400\t}", 7, 0),
        // A tab between the braces of a complete form belongs to the escape.
        ("\\x{\t41}", 23, 0),
        ("\\x{41\t}", 23, 0),
        ("\\x{ 41 \t}", 23, 0),
        ("a\\o{\t101\t}", 23, 1),
        // A byte after the escape is the next token.
        ("\\x\t", 23, 2),
        ("\\x4\t", 23, 3),
        ("\\0\t", 23, 2),
        ("\\d\t", 23, 2),
        ("\\y\t", 14, 0),
        ("\\b\t", 23, 2),
    ]);
}

#[test]
fn within_a_quantifier() {
    refused(&[
        ("a{2,\t3}", 23, 1),
        ("a{\t2}", 23, 1),
        ("a{2\t}", 23, 1),
        ("a{ 2 ,\t}", 23, 1),
        ("a{\t,2}", 23, 1),
        ("a{\t2}?", 23, 1),
        ("a{\t0}", 23, 1),
        ("a{\t300}", 23, 1),
        // The lower numbers first.
        ("{\t2}", 10, 0),
        ("a*{\t2}", 10, 2),
        ("a{3,\t2}", 11, 1),
        ("a{\t65536}", 11, 1),
        ("a{\t2}+", 14, 1),
        ("{\t3,2}+", 10, 0),
        // The mark is right after the quantifier, or there is none.
        ("a*\t?", 23, 2),
        ("a{2}\t+", 23, 4),
        // No form: the tab is a byte, and what stands before it was read.
        ("{\t}", 23, 1),
        ("{\t,}", 23, 1),
        ("{,\t}", 23, 2),
        ("a{2\t3}", 23, 3),
        ("a{2,\t", 23, 4),
        ("a{2,\t3", 23, 4),
        ("a{\t2x}", 23, 2),
        ("a{\n2}", 23, 2),
        ("a{2\r}", 23, 3),
        ("a{2,3\u{b}}", 23, 5),
        ("*{\t}", 10, 0),
    ]);
}

#[test]
fn within_a_class() {
    refused(&[
        ("[\t-a]", 23, 1),
        ("[x\t-a]", 23, 2),
        ("[!-\u{7f}]", 23, 1),
        ("[\t-\n]", 23, 1),
        ("[\\x01-\t]", 23, 1),
        ("[\\x01-\\\t]", 23, 1),
        ("[\\\t-a]", 23, 1),
        ("[\\x{\t41}-B]", 23, 1),
        ("[A-\\x{42\t}]", 23, 1),
        ("[--\u{7f}]", 23, 1),
        ("[a-c\t]", 23, 4),
        ("[a-c-\t]", 23, 5),
        ("[\\d\t]", 23, 3),
        ("[\t-]", 23, 1),
        ("[a\\E-\\Q\u{7f}\\E]", 23, 1),
        ("[\\Q\t\\E-a]", 23, 3),
        ("[\\Qa\t\\E-z]", 23, 4),
        ("[]\t]", 23, 2),
        ("[\t]]", 23, 1),
        ("[[:digit:]\t]", 23, 10),
        // The lower numbers of the same token first.
        ("[a-\t]", 9, 1),
        ("[a-\\\t]", 9, 1),
        ("[\n-\t]", 9, 1),
        ("[\\d-\t]", 9, 1),
        ("[\t-\\d]", 9, 1),
        ("[\t-[:digit:]]", 9, 1),
        ("[a-\\Q\t\\E]", 9, 1),
        ("[\t-\\x{100}]", 7, 1),
        ("[\t-\\", 6, 1),
        ("[\\c\t]", 6, 1),
        ("[\t-\\c\t]", 6, 1),
        ("[\\x{\t}]", 6, 1),
        ("[\\x{\t100}]", 7, 1),
        ("[\\y-\t]", 14, 1),
        ("[\t-\\y]", 14, 1),
        ("[\t-[:x:]]", 14, 1),
        ("[[:\tdigit:]]", 14, 1),
        ("[[:digit\t:]]", 14, 1),
        ("[[.\t.]]", 14, 1),
        // Of two tokens the first.
        ("[z-a\t]", 9, 1),
        ("[\tz-a]", 23, 1),
        ("[\t\\y]", 23, 1),
        ("[\\y\t]", 14, 1),
        // An open class comes after.
        ("[\t", 23, 1),
        ("[^\t", 23, 2),
        ("[a\t", 23, 2),
        ("[a-\t", 9, 1),
        ("[\t-", 23, 1),
        ("[\t-a", 23, 1),
        ("[\\Q\t", 23, 3),
        ("[\\Qa]\t", 23, 5),
        ("[a(?#\t)", 23, 5),
    ]);
}

#[test]
fn within_a_quote() {
    refused(&[
        ("\\Q\t\\E", 23, 2),
        ("\\Qab\tc\\E", 23, 4),
        ("\\Qab\t", 23, 4),
        ("\\Q\\\t\\E", 23, 3),
        ("\\Qa{2,\t3}\\E", 23, 6),
        ("\\Q(?#\t)\\E", 23, 5),
        ("\\Q[\t]\\E", 23, 3),
        ("\\Q\\x{\t41}\\E", 23, 5),
        ("\\Qa\\E\t", 23, 5),
        ("\\E\t", 23, 2),
        ("\\Q\\E\t", 23, 4),
        ("\\Q\\E\\\t", 23, 4),
        ("*\\Q\t\\E", 10, 0),
    ]);
}

#[test]
fn within_a_comment() {
    refused(&[
        ("(?#\t)a", 23, 0),
        ("a(?#b\tc)", 23, 1),
        ("a*(?#\t)+", 23, 2),
        ("(?#)(?#\n)a", 23, 4),
        ("(?#a)\t", 23, 5),
        ("(?#\\t\t)a", 23, 0),
        // An open one too, and there it comes before 12.
        ("(?#\t", 23, 0),
        ("a(?#\t", 23, 1),
        ("(a(?#bc\u{7f}", 23, 2),
        ("(?#x)(?#\t", 23, 5),
        // Of two tokens the first.
        ("a**(?#\t)", 10, 2),
        (")(?#\t", 12, 0),
        ("[z-a](?#\t", 9, 1),
        ("\t(?#\t", 23, 0),
    ]);
    equal(&[("(?#\\t)a", "a")]);
    refused(&[("(?#\\t", 12, 5)]);
}

#[test]
fn within_an_opening() {
    refused(&[
        ("(?i\t)a", 14, 0),
        ("(?\ti)a", 14, 0),
        ("(?\t", 14, 0),
        ("(?i\t:a)", 14, 0),
        ("(*\t)", 14, 0),
        ("(\t?:a)", 23, 1),
        ("(?:\ta)", 23, 3),
        ("(?i)\t", 23, 4),
    ]);
    let open = "(".repeat(16);
    refused(&[(&format!("{open}(\t"), 13, 16), (&format!("{open}\t("), 23, 16)]);
}

#[test]
fn before_what_the_end_knows_and_after_the_first_checks() {
    refused(&[
        ("\t", 23, 0),
        ("\t?", 23, 0),
        ("(\t", 23, 1),
        ("a?\t?", 23, 2),
        ("a{257}\t", 23, 6),
        ("\t{257}", 23, 0),
    ]);
    let long = "\t".repeat(1_025);
    refused(&[(&long, 5, 0), (&long[1..], 23, 0)]);
    let number = |flags| reference::rule::check(&[], 1, flags, b"\t").unwrap_err().number;
    assert_eq!((number(16), number(1), number(2), number(8)), (2, 23, 23, 23));
}
