//! Character classes. Comes in: a pattern and the index of a `[` outside a class. Goes out: the set
//! of bytes and the index after the `]`, or the first faulty token, or that the class never closes.
//!
//! The members are read from left to right. A member followed by a hyphen that is followed by
//! something other than `]` is the low end of a range; no other hyphen needs a rule, since it is
//! read as a member by itself: first, last, right after a range, or as a range's low end.
//!
//! Every look at the next byte is at a settled place, so that empty quotes and lone `\E` are not
//! there, and a quoted `^`, `-`, `]` or `[` is a member like any other byte.

use crate::bytes::ByteSet;
use crate::escape::{self, Escaped};
use crate::names;
use crate::quote::Place;
use crate::refusal::Refusal;
use crate::token::lowest_fault;

pub enum Class {
    Closed { set: ByteSet, end: usize },
    Open,
}

enum Member {
    Byte(u8),
    Type(ByteSet),
}

pub fn read(pattern: &[u8], at: usize, caseless: bool) -> Result<Class, Refusal> {
    let opened = Place::plain(at + 1).settled(pattern);
    let negated = opened.has(pattern, b'^');
    let first = if negated { Place::plain(opened.at + 1).settled(pattern) } else { opened };
    let mut set = ByteSet::none();
    let mut place = first;
    while place.at < pattern.len() {
        if place != first && place.has(pattern, b']') {
            if caseless {
                set = set.with_other_case();
            }
            if negated {
                set = set.complement();
            }
            return Ok(Class::Closed { set, end: place.at + 1 });
        }
        let (more, after) = member_or_range(pattern, place, caseless)?;
        set = set.union(&more);
        place = after.settled(pattern);
    }
    Ok(Class::Open)
}

/// One token of a class: a member, or a range with both its ends. Of all faults within the token
/// the lowest number is given, at the token's first byte. A member's own are all below 23.
fn member_or_range(
    pattern: &[u8],
    place: Place,
    caseless: bool,
) -> Result<(ByteSet, Place), Refusal> {
    let faultless = |end: usize, faults: &[u32]| match lowest_fault(&pattern[place.at..end], faults)
    {
        Some(number) => Err(Refusal::at(number, place.at)),
        None => Ok(()),
    };
    let (low, after_low) = member(pattern, place, caseless);
    let Some(high_place) = range_goes_on(pattern, after_low) else {
        let low = low.map_err(|number| Refusal::at(number, place.at))?;
        faultless(after_low.at, &[])?;
        return Ok((set_of(low), after_low));
    };
    let (high, after) = member(pattern, high_place, caseless);
    let mut faults: Vec<u32> = Vec::new();
    for range_end in [&low, &high] {
        match range_end {
            Err(number) => faults.push(*number),
            Ok(Member::Type(_)) => faults.push(9),
            Ok(Member::Byte(_)) => {}
        }
    }
    let set = match (low, high) {
        (Ok(Member::Byte(low)), Ok(Member::Byte(high))) => {
            if low > high {
                faults.push(9);
            }
            ByteSet::of(|b| low <= b && b <= high)
        }
        _ => ByteSet::none(),
    };
    faultless(after.at, &faults)?;
    Ok((set, after))
}

/// The place of a range's other end: after a hyphen, if neither the class nor the pattern ends there.
fn range_goes_on(pattern: &[u8], after_low: Place) -> Option<Place> {
    let hyphen = after_low.settled(pattern);
    if !hyphen.has(pattern, b'-') {
        return None;
    }
    let high = Place::plain(hyphen.at + 1).settled(pattern);
    (high.at < pattern.len() && !high.has(pattern, b']')).then_some(high)
}

/// One end of a range, or a member alone, and the place after it. `[:` without a name of the list,
/// `[.` and `[=` are a faulty member of two bytes.
fn member(pattern: &[u8], place: Place, caseless: bool) -> (Result<Member, u32>, Place) {
    let at = place.at;
    if place.quoted {
        return (Ok(Member::Byte(pattern[at])), Place { at: at + 1, quoted: true });
    }
    let (member, end) = match pattern[at] {
        b'\\' => {
            let escape = escape::read(pattern, at, true);
            let member = escape.meaning.map(|meaning| match meaning {
                Escaped::Byte(b) => Member::Byte(b),
                Escaped::Type(set) => Member::Type(set),
                Escaped::NotNewline | Escaped::Assertion(_) => unreachable!("refused in a class"),
            });
            (member, escape.end)
        }
        b'[' if matches!(pattern.get(at + 1), Some(b':' | b'.' | b'=')) => {
            match names::read(pattern, at, caseless) {
                Some((set, end)) => (Ok(Member::Type(set)), end),
                None => (Err(14), at + 2),
            }
        }
        byte => (Ok(Member::Byte(byte)), at + 1),
    };
    (member, Place::plain(end))
}

fn set_of(member: Member) -> ByteSet {
    match member {
        Member::Byte(b) => ByteSet::one(b),
        Member::Type(set) => set,
    }
}
