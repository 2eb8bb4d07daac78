//! Shim of the two items of src/utils.rs that are used.
use crate::ast::{Rc, Term};

#[derive(Debug)]
pub struct Range(Option<usize>, Option<usize>);

impl Range {
    pub fn contains(&self, n: usize) -> bool {
        self.0.as_ref().is_none_or(|bound| n >= *bound) && self.1.as_ref().is_none_or(|bound| n <= *bound)
    }
}

impl From<usize> for Range {
    fn from(n: usize) -> Self {
        Self(Some(n), Some(n))
    }
}

pub trait TypeName {
    const NAME: &'static str;
}

impl TypeName for Rc<Term> {
    const NAME: &'static str = "term";
}
