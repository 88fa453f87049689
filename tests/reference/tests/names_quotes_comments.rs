//! Named classes, quotes and comments, as short as the rules have them: for each pattern the number
//! and the place, or the bytes of the class, or an equal pattern without any of the three.

mod readings;

use readings::{equal, members, refused, rule};

const CASELESS: u32 = 1;

fn all(belongs: impl Fn(u8) -> bool) -> Vec<u8> {
    (0..=255).filter(|&byte| belongs(byte)).collect()
}

/// The table of names, written by its ranges.
const RANGES: [(&str, &[(u8, u8)]); 14] = [
    ("alpha", &[(65, 90), (97, 122)]),
    ("lower", &[(97, 122)]),
    ("upper", &[(65, 90)]),
    ("alnum", &[(48, 57), (65, 90), (97, 122)]),
    ("ascii", &[(0, 127)]),
    ("blank", &[(9, 9), (32, 32)]),
    ("cntrl", &[(0, 31), (127, 127)]),
    ("digit", &[(48, 57)]),
    ("graph", &[(33, 126)]),
    ("print", &[(32, 126)]),
    ("punct", &[(33, 47), (58, 64), (91, 96), (123, 126)]),
    ("space", &[(9, 13), (32, 32)]),
    ("word", &[(48, 57), (65, 90), (95, 95), (97, 122)]),
    ("xdigit", &[(48, 57), (65, 70), (97, 102)]),
];

#[test]
fn every_name_plain_and_negated() {
    for (name, ranges) in RANGES {
        for caseless in [0, CASELESS] {
            let cased = matches!(name, "lower" | "upper") && caseless != 0;
            let ranges = if cased { RANGES[0].1 } else { ranges };
            let has = |b: u8| ranges.iter().any(|&(low, high)| low <= b && b <= high);
            assert_eq!(members(caseless, &format!("[[:{name}:]]")), all(has));
            assert_eq!(members(caseless, &format!("[[:^{name}:]]")), all(|b| !has(b)));
            assert_eq!(members(caseless, &format!("[^[:{name}:]]")), all(|b| !has(b)));
            assert_eq!(members(caseless, &format!("[^[:^{name}:]]")), all(has));
        }
    }
}

#[test]
fn caseless_comes_before_the_name_s_own_negation() {
    let no_letter = all(|b| !b.is_ascii_alphabetic());
    for pattern in ["(?i:[[:^upper:]])", "(?i:[[:^lower:]])", "(?i:[^[:lower:]])"] {
        assert_eq!(members(0, pattern), no_letter, "{pattern}");
    }
    assert_eq!(members(CASELESS, "(?-i:[[:upper:]])"), all(|b| b.is_ascii_uppercase()));
    assert_eq!(
        members(CASELESS, "[[:^upper:]a]"),
        all(|b| !b.is_ascii_alphabetic() || b | 32 == b'a')
    );
}

#[test]
fn names_beside_other_members() {
    let digit = |b: u8| b.is_ascii_digit();
    for (pattern, members_are) in [
        ("[01[:alpha:]%]", all(|b| b.is_ascii_alphabetic() || b"01%".contains(&b))),
        ("[12[:^digit:]]", all(|b| !digit(b) || b"12".contains(&b))),
        ("[[:alpha:][:digit:]]", all(|b| b.is_ascii_alphanumeric())),
        ("[a-c-[:digit:]]", all(|b| digit(b) || b"abc-".contains(&b))),
        ("[[:digit:]-]", all(|b| digit(b) || b == b'-')),
        ("[-[:digit:]]", all(|b| digit(b) || b == b'-')),
        ("[^-[:digit:]]", all(|b| !digit(b) && b != b'-')),
        ("[+--[:digit:]]", all(|b| digit(b) || (43..=45).contains(&b))),
        ("[][:digit:]]", all(|b| digit(b) || b == b']')),
        ("[[[:digit:]]", all(|b| digit(b) || b == b'[')),
        ("[[:digit:]\\-a]", all(|b| digit(b) || b"-a".contains(&b))),
        ("[:digit:]", all(|b| b":digt".contains(&b))),
        ("[\\[:digit:]", all(|b| b"[:digt".contains(&b))),
    ] {
        assert_eq!(members(0, pattern), members_are, "{pattern}");
    }
}

#[test]
fn no_name_of_the_list() {
    refused(&[
        ("[[:Alpha:]]", 14, 1),
        ("[[:DIGIT:]]", 14, 1),
        ("[[:digits:]]", 14, 1),
        ("[[:digi:]]", 14, 1),
        ("[[:^^digit:]]", 14, 1),
        ("[[:digit^:]]", 14, 1),
        ("[[: digit:]]", 14, 1),
        ("[[:digit :]]", 14, 1),
        ("[[:<:]]", 14, 1),
        ("[[:>:]]", 14, 1),
        ("[[::]]", 14, 1),
        ("[[:^:]]", 14, 1),
        ("[[:]", 14, 1),
        ("[[:", 14, 1),
        ("[[:^", 14, 1),
        ("[[:digit", 14, 1),
        ("[[:digit:", 14, 1),
        ("[[:digit]", 14, 1),
        ("[[:digit]:]]", 14, 1),
        ("[a[:b]", 14, 2),
        ("[^[:x:]]", 14, 2),
        ("[[.a.]]", 14, 1),
        ("[[=a=]]", 14, 1),
        ("[[.digit.]]", 14, 1),
        ("[[=digit=]]", 14, 1),
        ("[[:digit:][.", 14, 10),
        ("[[:digit:]", 8, 10),
    ]);
}

#[test]
fn a_name_at_an_end_of_a_range() {
    refused(&[
        ("[a-[:digit:]]", 9, 1),
        ("[z-[:^digit:]]", 9, 1),
        ("[[:digit:]-a]", 9, 1),
        ("[[:^digit:]-a]", 9, 1),
        ("[[:digit:]-[:alpha:]]", 9, 1),
        ("[--[:digit:]]", 9, 1),
        ("[[:digit:]--a]", 9, 1),
        ("[]-[:digit:]]", 9, 1),
        ("[x[:digit:]-a]", 9, 2),
        ("[\\d-[:digit:]]", 9, 1),
        // The lowest number of the range, whatever its other end.
        ("[[:digit:]-[:x:]]", 9, 1),
        ("[\\d-[:x:]]", 9, 1),
        ("[[:digit:]-\\y]", 9, 1),
        ("[[:digit:]-\\x{100}]", 7, 1),
        ("[\\x{100}-[:digit:]]", 7, 1),
        ("[[:digit:]-\\", 6, 1),
        ("[a-[:x:]]", 14, 1),
        ("[a-[:digit", 14, 1),
        ("[a-[.b.]]", 14, 1),
        ("[a-[=b=]]", 14, 1),
        // An unknown name is a faulty member of two bytes, and no hyphen follows it.
        ("[[:x:]-[:digit:]]", 14, 1),
        ("[[:-[:digit:]]", 9, 1),
        // Without its other end there is no range.
        ("[[:digit:]-", 8, 11),
    ]);
}

#[test]
fn quotes_outside_classes() {
    equal(&[
        ("\\Qa*b\\E", "a\\*b"),
        ("\\Qa*b", "a\\*b"),
        ("\\Q(?i)[x]{2}|^$.\\d\\E", "\\(\\?i\\)\\[x\\]\\{2\\}\\|\\^\\$\\.\\\\d"),
        ("\\Q\\\\E", "\\\\"),
        ("\\Q\\\\\\E", "\\\\\\\\"),
        ("\\Q\\Q\\E", "\\\\Q"),
        ("\\Q(?#\\E", "\\(\\?#"),
        ("\\Qab\\E*", "ab*"),
        ("\\Qab\\E{2}", "ab{2}"),
        ("\\Qab\\E\\E+?", "ab+?"),
        ("\\Qa\\E\\Qb\\E?", "ab?"),
        ("\\Qa{2}\\E", "a\\{2\\}"),
        ("a*\\Q?\\E", "a*\\?"),
        ("\\Qa|\\E|b", "a\\||b"),
        ("(\\Q)\\E)", "(\\))"),
        ("a\\Q", "a"),
        ("a\\Q\\E", "a"),
        ("a\\E", "a"),
        ("\\Ea\\E\\E", "a"),
        ("a\\Q\\E{,}", "a\\{,\\}"),
        ("a{2\\E}", "a\\{2\\}"),
        ("a{\\Q2\\E}", "a\\{2\\}"),
        ("\\\\E", "\\\\[E]"),
        ("\\c\\E", "\\x1cE"),
        ("\\x4\\E1", "\\x{4}1"),
        ("\\0\\E1", "\\x{0}1"),
    ]);
    assert_eq!(members(CASELESS, "\\Qa\\E"), b"Aa");
    refused(&[
        ("\\Q", 15, 2),
        ("\\E", 15, 2),
        ("\\Q\\E", 15, 4),
        ("\\Qa\\E*", 15, 6),
        ("\\Qa\\E**", 10, 6),
        ("*\\Qa\\E", 10, 0),
        ("\\Q\\E*", 10, 4),
        // Places count the bytes of the quotes.
        ("\\Qab\\E[z-a]", 9, 7),
        ("\\Qab\\E)", 12, 6),
        ("(\\Q)\\E", 12, 6),
        ("(\\Q)", 12, 4),
        ("\\Qab\\E\\y", 14, 6),
        ("\\Qab\\E\\", 6, 6),
        ("\\Qab\\E\\x{4\\E1}", 6, 6),
    ]);
}

#[test]
fn quotes_in_classes() {
    for (pattern, members_are) in [
        ("[\\Q^\\Ea]", "^a"),
        ("[\\Q^-]\\E]", "-]^"),
        ("[\\Q]\\E]", "]"),
        ("[a\\Q]\\E]", "]a"),
        ("[a\\Q-\\Ez]", "-az"),
        ("[\\Qa-z\\E]", "-az"),
        ("[\\Q[:digit:]\\E]", ":[]dgit"),
        ("[\\Q[\\E:digit:]", ":[dgit"),
        ("[\\Q\\\\E]", "\\"),
        ("[\\Q\\d\\E]", "\\d"),
        ("[\\Q\\Q\\E]", "Q\\"),
        ("[(?#a)]", "#()?a"),
        ("[\\Qa\\E-d]", "abcd"),
        ("[a-\\Qd\\E]", "abcd"),
        ("[\\Qa\\E-\\Qd\\E]", "abcd"),
        ("[\\Qxa\\E-d]", "abcdx"),
        ("[a-\\Qdx\\E]", "abcdx"),
        ("[a-\\Qd-\\E]", "-abcd"),
        ("[a-\\Qcx\\E-z]", "abcxyz"),
        ("[+-\\Q-\\E]", "+,-"),
        ("[\\Q+\\E--]", "+,-"),
        ("[\\Q-\\E-/]", "-./"),
        ("[X-\\Q]\\E]", "XYZ[\\]"),
        ("[\\Q\\\\E-_]", "\\]^_"),
        ("[\\d\\Q-\\Ez]", "-0123456789z"),
    ] {
        assert_eq!(members(0, pattern), members_are.as_bytes(), "{pattern}");
    }
    refused(&[
        ("[\\Q", 8, 3),
        ("[\\Qa]", 8, 5),
        ("[\\Qa]\\E", 8, 7),
        ("[a-\\Q", 8, 5),
        ("[a-\\Q]", 9, 1),
        ("[\\d-\\Q", 8, 6),
        ("[\\Qz\\E-a]", 9, 3),
        ("[\\Qaz\\E-b]", 9, 4),
        ("[z-\\Qa\\E]", 9, 1),
        ("[z-\\Qa", 9, 1),
        ("[a-\\Q-\\E]", 9, 1),
        ("[a-\\Q]\\E]", 9, 1),
        ("[\\d-\\Q-\\E]", 9, 1),
        ("[\\d-\\Qz\\E]", 9, 1),
        ("[\\Qa\\E-\\d]", 9, 3),
        ("[\\Qa\\E-[:digit:]]", 9, 3),
        ("[\\Qa\\E\\y]", 14, 6),
    ]);
}

#[test]
fn empty_quotes_are_not_there_in_a_class() {
    for nothing in ["\\E", "\\Q\\E", "\\E\\E", "\\Q\\E\\Q\\E", "\\E\\Q\\E"] {
        for (pattern, plain) in [
            ("[#^a]", "[^a]"),
            ("[^#]a]", "[^]a]"),
            ("[#^#]a]", "[^]a]"),
            ("[#]a]", "[]a]"),
            ("[a#]", "[a]"),
            ("[a-#]", "[a-]"),
            ("[#-a]", "[-a]"),
            ("[a#-z]", "[a-z]"),
            ("[a-#z]", "[a-z]"),
            ("[a#-#z]", "[a-z]"),
            ("[a-c#-e]", "[a-c-e]"),
            ("[a-c-#e]", "[a-c-e]"),
            ("[a-c#-#-e]", "[a-c--e]"),
            ("[\\d-#]", "[\\d-]"),
            ("[#-\\d]", "[-\\d]"),
            ("[[:digit:]-#]", "[[:digit:]-]"),
            ("[#[:digit:]#]", "[[:digit:]]"),
            ("[a-#]b]", "[a-]b]"),
            // What is written inside a token is not taken apart.
            ("[[#:digit:]]", "[\\[:digt]]"),
            ("[\\x4#1]", "[\\x{4}1]"),
        ] {
            equal(&[(&pattern.replace('#', nothing), plain)]);
        }
    }
    equal(&[("[\\c\\E]", "[\\x1cE]"), ("[\\\\E]", "[\\x5cE]")]);
    refused(&[
        ("[\\E]", 8, 4),
        ("[\\Q\\E]", 8, 6),
        ("[\\E^\\E]", 8, 7),
        ("[a\\E", 8, 4),
        ("[a-\\E", 8, 5),
        ("[\\d-\\E", 8, 6),
        ("[\\d\\E-a]", 9, 1),
        ("[\\d-\\Ea]", 9, 1),
        ("[\\d-\\E-a]", 9, 1),
        ("[[:digit:]\\E-a]", 9, 1),
        ("[a-\\Q\\E[:digit:]]", 9, 1),
        ("[z\\E-\\Q\\Ea]", 9, 1),
        ("[a\\E-\\", 6, 1),
        ("[\\E\\y]", 14, 3),
        ("[[:di\\Egit:]]", 14, 1),
        ("[[:digit:\\E]]", 14, 1),
        ("[[:digit\\Q:]\\E]", 14, 1),
        ("[[\\E.a.", 8, 7),
    ]);
}

#[test]
fn comments_are_passed_over() {
    equal(&[
        ("a(?#x)b", "ab"),
        ("(?#x)a", "a"),
        ("a(?#x)", "a"),
        ("a(?#)", "a"),
        ("ba(?#x)*", "ba*"),
        ("ba(?#x)?", "ba?"),
        ("a(?#x)+", "a+"),
        ("a(?#x){2}", "a{2}"),
        ("a(?#x)+?", "a+?"),
        ("a(?#x)(?#y)\\E\\Q\\E+", "a+"),
        ("(a)(?#x)+", "(a)+"),
        ("[a](?#x)+", "[a]+"),
        ("a+(?#x)b", "a+b"),
        ("a+(?#x){,}", "a+\\{,\\}"),
        ("a{2(?#x)}", "a\\{2\\}"),
        ("(?i)(?#x)a", "(?i)a"),
        ("((?#x)a|(?#y)b)", "(a|b)"),
        // The first `)` ends it, whatever stands before.
        ("(?#\\)a", "a"),
        ("(?#()a", "a"),
        ("(?#[)a", "a"),
        ("(?#\\Q)a", "a"),
        ("(?#(?#)a", "a"),
        ("(?#\\Q)\\E\\Qa", "a"),
    ]);
    refused(&[
        ("(?#)", 15, 4),
        ("a(?#x)*", 15, 7),
        ("(?#a)b)", 12, 6),
        ("a(?#(?i))b", 12, 8),
        ("(?#x\\))a)", 12, 6),
        ("(?#x)\\y", 14, 5),
        ("(?i(?#x))a", 14, 0),
        ("(?(?#x):a)", 14, 0),
        ("(?\\E#x)a", 14, 0),
        ("(?", 14, 0),
    ]);
}

#[test]
fn a_quantifier_after_a_comment() {
    refused(&[
        ("a*(?#x)?", 10, 7),
        ("a*(?#x)+", 10, 7),
        ("a*(?#x)*", 10, 7),
        ("a?(?#x)?", 10, 7),
        ("a{2}(?#){3}", 10, 8),
        ("a*\\E+", 10, 4),
        ("a*\\E?", 10, 4),
        ("a*\\Q\\E{2}", 10, 6),
        ("a*\\Q\\E?", 10, 6),
        ("a*?(?#x)+", 10, 8),
        ("a*?\\E?", 10, 5),
        ("(?#x)*", 10, 5),
        ("(?#x)(?#y)+", 10, 10),
        ("^\\E*", 10, 3),
        ("$(?#x)+", 10, 6),
        ("\\A\\Q\\E?", 10, 6),
        ("\\z\\E{2}", 10, 4),
        ("(?i)(?#)*", 10, 8),
        ("a(?i)\\E*", 10, 7),
        ("(\\Q\\E*", 10, 5),
        ("(\\E*a)", 10, 3),
        ("(\\E?:a)", 10, 3),
        ("(\\E?#x)", 10, 3),
        ("(?:(?#x)+a)", 10, 8),
        ("a|(?#x)*", 10, 7),
        ("(a|\\E+)", 10, 5),
        // The lower number within the quantifier, and the possessive mark right after one.
        ("a(?#x)*+", 14, 6),
        ("a\\E{2}+", 14, 3),
        ("a(?#x){3,2}", 11, 6),
        ("a*(?#x){3,2}", 10, 7),
        ("a*(?#x)*+", 10, 7),
    ]);
}

#[test]
fn an_open_comment() {
    refused(&[
        ("(?#", 12, 3),
        ("(?#x", 12, 4),
        ("a(?#b", 12, 5),
        ("a(?#\\", 12, 5),
        ("a(?#[z-a]", 12, 9),
        ("(a(?#", 12, 5),
        ("a{300}(?#", 12, 9),
        ("a?(?#", 12, 5),
        // A token's fault comes first.
        ("a**(?#", 10, 2),
        ("[z-a](?#", 9, 1),
        (")(?#", 12, 0),
        ("[a(?#", 8, 5),
        ("[a(?#)", 8, 6),
        ("\\Q\\E(?#", 12, 7),
    ]);
    equal(&[("a\\Q(?#", "a\\(\\?#")]);
}

#[test]
fn a_comment_is_no_group() {
    let inside = |text: &str| "(".repeat(16) + text + &")".repeat(16);
    assert_eq!(rule(0, &inside("(?#x)a")).positions, 1);
    assert_eq!(rule(0, &inside("a(?#(((((()")).positions, 1);
    let open = "(".repeat(16) + "(?#";
    refused(&[(&open, 12, 19), (&inside("(?#x)(a)"), 13, 21), (&inside("\\Q(\\E(a)"), 13, 21)]);
}
