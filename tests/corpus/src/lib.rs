//! The corpus: cases as plain data, and the one reader of their files. A runner gets the cases from
//! here, carries their lines out on what it tests, and compares the answers written there.

pub mod case;
pub mod files;
pub mod hex;
pub mod program;

pub use case::{Call, Case, Kept, Line, Lists, Report, Starts, Windows, Work};
pub use program::ProgramCase;
