//! The comparing harness: cases from the corpus and from the generators, carried out on whatever is
//! under test and compared with the definition.
//!
//! `watcher` is the interface to what is under test; `model` puts the reference's calls behind it,
//! `over_words` calls over lent words, be they the interpreter's of `words` or the library's
//! (`library`); `traced` makes of either the watcher whose streams keep starts.
//! `scenario` turns additions, a log and a caller's doings into a case whose answers the definition
//! gives; `play` carries a case out, be it from there or from the corpus. `slices` is what every
//! scan owes for the work it may do. `exhaustive` and `random` make scenarios, `shrink` makes a
//! failing one small. `readings` compares the reader alone.
//! `damaged` compares calls over words where the words are of any content. `card` does so for the
//! blocks of a table on the card, `matched` for the bytes of a match. `process` is the built
//! program.

pub mod card;
pub mod corpus_run;
pub mod damaged;
pub mod definition;
pub mod exhaustive;
#[cfg(feature = "library")]
pub mod library;
pub mod matched;
pub mod model;
pub mod over_words;
pub mod patterns;
#[cfg(feature = "library")]
pub mod plain;
pub mod play;
pub mod process;
pub mod random;
pub mod readings;
pub mod rng;
pub mod scenario;
pub mod shrink;
pub mod slices;
pub mod traced;
pub mod watcher;
