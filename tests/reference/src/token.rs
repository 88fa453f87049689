//! The faults of one token. Comes in: the token's bytes, from its first to its last, and the numbers
//! of the faults that its form has. Goes out: the lowest number, none for a token that is right.
//!
//! A raw control byte anywhere in a token is a fault of that token, like any other.

/// A byte below 32, or 127: what a pattern may name by an escape but not hold.
pub fn is_control(byte: u8) -> bool {
    byte < 32 || byte == 127
}

pub fn lowest_fault(token: &[u8], of_its_form: &[u32]) -> Option<u32> {
    let raw = token.iter().any(|&byte| is_control(byte)).then_some(23);
    of_its_form.iter().copied().chain(raw).min()
}
