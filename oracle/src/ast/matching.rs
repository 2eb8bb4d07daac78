//! Helpers of the `match_term!` shim.
use super::{Operator, ParamOperator, Rc, Term};

pub fn op(t: &Term, op: Operator) -> Option<&[Rc<Term>]> {
    match t {
        Term::Op(o, args) if *o == op => Some(args),
        _ => None,
    }
}

pub fn op_n<const N: usize>(t: &Term, o: Operator) -> Option<&[Rc<Term>; N]> {
    op(t, o)?.try_into().ok()
}

pub fn param_n<const P: usize, const N: usize>(t: &Term, o: ParamOperator) -> Option<(&[Rc<Term>; P], &[Rc<Term>; N])> {
    match t {
        Term::ParamOp { op, op_args, args } if *op == o => {
            Some((op_args.as_slice().try_into().ok()?, args.as_slice().try_into().ok()?))
        }
        _ => None,
    }
}
