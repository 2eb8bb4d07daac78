//! What the original bitvectors.rs answers, as jobs of document 01. See README.md.

#[cfg(original)]
pub mod ast;
#[cfg(original)]
pub mod automata;
#[cfg(original)]
pub mod cases;
#[cfg(original)]
pub mod checker;
#[cfg(original)]
pub mod job;
#[cfg(original)]
pub mod maker;
#[cfg(original)]
#[path = "../../host/src/rng.rs"]
pub mod rng;
#[cfg(original)]
pub mod sem;
#[cfg(original)]
pub mod utils;

#[cfg(original)]
pub use checker::error::CheckerError;

/// What is said where the original was not there when this was built.
pub const SKIPPED: &str = "skipped: this was built without the original. Set CARCARA_SRC to the folder that holds \
src/checker/rules/bitvectors.rs, src/ast/term.rs and src/ast/macros.rs, and build again.";
