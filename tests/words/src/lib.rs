//! Table words and state words, written from docs/TABLE.md and the product's rules alone: what
//! a table's words mean to the calls (`interpreter`, and `traces` where a state keeps starts),
//! the words of a table that has some rules (`compiler`), the gaps of a stream that both go by
//! (`gaps`), and the blocks of a table on the card (`card`, from docs/CARD.md). It is plain and
//! slow on purpose, and it is what the library's calls are compared with where the words are
//! damaged, so that no pattern describes them any more.

pub mod calls;
pub mod card;
pub mod compiler;
pub mod gaps;
pub mod interpreter;
pub mod layout;
pub mod traces;
