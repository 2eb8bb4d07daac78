//! Shim of src/checker/rules/mod.rs: `RuleArgs` cut down, the helpers with the published bodies.
use super::error::{CheckerError, EqualityError};
use crate::ast::{Rc, Term, pool::Pool};
use crate::utils::{Range, TypeName};

pub type RuleResult = Result<(), CheckerError>;
pub type Rule = fn(RuleArgs) -> RuleResult;

pub struct RuleArgs<'a> {
    pub conclusion: &'a [Rc<Term>],
    pub args: &'a [Rc<Term>],
    pub pool: &'a mut Pool,
}

macro_rules! rassert {
    ($arg:expr, $err:expr $(,)?) => {
        match $arg {
            true => Ok(()),
            false => Err($err),
        }?
    };
}

fn assert_clause_len<T: Into<Range>>(clause: &[Rc<Term>], range: T) -> RuleResult {
    let range = range.into();
    if !range.contains(clause.len()) {
        return Err(CheckerError::WrongLengthOfClause(range, clause.len()));
    }
    Ok(())
}

fn assert_eq<T>(a: &T, b: &T) -> RuleResult
where
    T: Eq + Clone + TypeName,
    EqualityError<T>: Into<CheckerError>,
{
    if a != b {
        return Err(EqualityError::ExpectedEqual(a.clone(), b.clone()).into());
    }
    Ok(())
}

/// The rules in the order of document 01's numbers 1 to 23.
pub const RULES: [(&str, Rule); 23] = [
    ("value", bitvectors::value),
    ("var", bitvectors::var),
    ("and", bitvectors::and),
    ("or", bitvectors::or),
    ("xor", bitvectors::xor),
    ("xnor", bitvectors::xnor),
    ("not", bitvectors::not),
    ("ult", bitvectors::ult),
    ("slt", bitvectors::slt),
    ("add", bitvectors::add),
    ("mult", bitvectors::mult),
    ("neg", bitvectors::neg),
    ("equality", bitvectors::equality),
    ("comp", bitvectors::comp),
    ("extract", bitvectors::extract),
    ("concat", bitvectors::concat),
    ("sign_extend", bitvectors::sign_extend),
    ("shl", bitvectors::shl),
    ("lshr", bitvectors::lshr),
    ("ashr", bitvectors::ashr),
    ("udiv", bitvectors::udiv),
    ("urem", bitvectors::urem),
    ("bitwise_slicing", bitvectors::bitwise_slicing),
];

include!(concat!(env!("OUT_DIR"), "/original_rules.rs"));
