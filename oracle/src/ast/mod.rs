//! Shim of `crate::ast`. term.rs and macros.rs are the original's files, compiled where they are.

include!(concat!(env!("OUT_DIR"), "/original_ast.rs"));

pub mod custom_operator;
pub mod display;
pub mod matching;
pub mod pool;
pub mod rc;
pub mod sort;

pub(crate) use carcara_macros::match_term;
pub(crate) use macros::{build_term, match_term_err};
pub use rc::Rc;
pub use sort::Sort;
pub use term::{Binder, BindingList, Constant, Operator, ParamOperator, Term};
