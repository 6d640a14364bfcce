//! FIRST, FOLLOW, `has_path`, minimum costs and cheapest sentences of a grammar, by cfgrammar's names, from a library
//! whose every call is proved to give document 01's tables, to end, and to stay in its lists; and the costs of the dearest
//! sentences.
//!
//! A [`Grammar`] owns its flat tables and is checked once, when it is made. All else borrows it, with tables of the
//! lengths that it needs. What can still be refused is a number that the grammar does not have, or a sentence that is
//! not there: a [`Refusal`]. A [`Job`] fills a table in slices, for a program that has a screen to draw meanwhile.
//! [`Grammar::profile`] tells whether a reader can decide by the next token. [`house`] has the controller's own CSV built
//! in, for which no grammar is given.
//!
//! ```
//! use boltmarrow::{Grammar, RIdx, TIdx};
//!
//! // Row: Num Unit comma; Num: digits; Unit: unit | nothing. Rules are 0 start, 1 Row, 2 Num, 3 Unit,
//! // tokens 0 digits, 1 comma, 2 unit, 3 eof; in the symbol list rule r is 32768 + r.
//! let (num, comma) = (RIdx(2), TIdx(1));
//! let grm = Grammar::new(
//!     4,
//!     vec![0, 1, 2, 3, 3],
//!     vec![0, 1, 4, 5, 6, 6],
//!     vec![32769, 32770, 32771, 1, 0, 2],
//!     vec![1, 1, 1, 1],
//! )?;
//! // Where Unit is nothing the comma follows Num. cfgrammar's own FOLLOW looks one symbol ahead and lacks it.
//! assert!(grm.follows().is_set(num, comma)?);
//! # Ok::<(), boltmarrow::Refusal>(())
//! ```
#![deny(missing_docs, unsafe_code)]
#![warn(clippy::missing_errors_doc)]

mod costs;
mod dearest;
mod firsts;
mod follows;
mod grammar;
pub mod house;
mod idx;
mod jobs;
mod profile;
mod reached;
mod refusal;
mod sentences;
mod sys;
mod table;
#[cfg(test)]
mod tests;
mod version;

pub use costs::{Cost, CostTable, Costs, Productive, ProductiveTable};
pub use dearest::{Dearest, DearestCosts};
pub use firsts::{FirstTable, Firsts};
pub use follows::{FollowTable, Follows};
pub use grammar::Grammar;
pub use idx::{PIdx, RIdx, SIdx, Symbol, TIdx};
pub use jobs::{Job, Whole};
pub use profile::{Clash, Verdict};
pub use reached::Reached;
pub use refusal::Refusal;
pub use sentences::{MinSentences, SentenceGenerator};
pub use version::Version;
