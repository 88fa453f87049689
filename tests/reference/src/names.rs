//! The classes that have a name in square brackets and colons, as `[:digit:]` inside a class. Comes
//! in: a pattern and the index of the inner `[`. Goes out: the set that the name stands for and the
//! index after its `:]`, or nothing if no name of the list is written there from bracket to bracket.
//!
//! The meaning is the ASCII one: no byte above 127 is in a named class that is not negated.

use crate::bytes::ByteSet;

/// A name and the question whether a byte belongs to it.
type Named = (&'static str, fn(u8) -> bool);

const NAMES: [Named; 14] = [
    ("alpha", |b| b.is_ascii_alphabetic()),
    ("lower", |b| b.is_ascii_lowercase()),
    ("upper", |b| b.is_ascii_uppercase()),
    ("alnum", |b| b.is_ascii_alphanumeric()),
    ("ascii", |b| b.is_ascii()),
    ("blank", |b| b == b' ' || b == b'\t'),
    ("cntrl", |b| b.is_ascii_control()),
    ("digit", |b| b.is_ascii_digit()),
    ("graph", |b| b.is_ascii_graphic()),
    ("print", |b| b.is_ascii_graphic() || b == b' '),
    ("punct", |b| b.is_ascii_punctuation()),
    ("space", |b| (9..=13).contains(&b) || b == b' '),
    ("word", |b| b.is_ascii_alphanumeric() || b == b'_'),
    ("xdigit", |b| b.is_ascii_hexdigit()),
];

/// The set of a name. Under caseless, `upper` and `lower` read as `alpha`.
pub fn set_named(name: &[u8], caseless: bool) -> Option<ByteSet> {
    let name = match name {
        b"upper" | b"lower" if caseless => b"alpha",
        other => other,
    };
    let (_, belongs) = NAMES.iter().find(|(known, _)| known.as_bytes() == name)?;
    Some(ByteSet::of(belongs))
}

/// `[:` or `[:^`, a name of the list, `:]`, from `at` on. The negation is the name's own.
pub fn read(pattern: &[u8], at: usize, caseless: bool) -> Option<(ByteSet, usize)> {
    let inside = pattern.get(at..)?.strip_prefix(b"[:")?;
    let length = inside.windows(2).position(|two| two == b":]")?;
    let end = at + 2 + length + 2;
    let set = match inside[..length].strip_prefix(b"^") {
        Some(name) => set_named(name, caseless)?.complement(),
        None => set_named(&inside[..length], caseless)?,
    };
    Some((set, end))
}
