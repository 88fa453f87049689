//! What the command and the one that settles disputes share: rules files, and bytes as text.

pub mod bytes;
pub mod rules;
