//! Stand-in for the proc-macro crate `carcara_macros`, which is not among the published files:
//! `match_term!` for exactly the patterns that bitvectors.rs and term.rs use. An operator with
//! named arguments matches only that number of arguments, `...` matches any number and gives the
//! slice, `((_ op i) x)` matches the `ParamOp` with that number of op arguments and arguments.
//! `crate::` below is the crate that calls the macro (macro_rules paths are call-site).

#[macro_export]
macro_rules! get_op_variant {
    (not) => {
        crate::ast::Operator::Not
    };
    (and) => {
        crate::ast::Operator::And
    };
    (or) => {
        crate::ast::Operator::Or
    };
    (xor) => {
        crate::ast::Operator::Xor
    };
    (=) => {
        crate::ast::Operator::Equals
    };
    (ite) => {
        crate::ast::Operator::Ite
    };
    (-) => {
        crate::ast::Operator::Sub
    };
    (bbterm) => {
        crate::ast::Operator::BvBbTerm
    };
    (bvnot) => {
        crate::ast::Operator::BvNot
    };
    (bvneg) => {
        crate::ast::Operator::BvNeg
    };
    (bvand) => {
        crate::ast::Operator::BvAnd
    };
    (bvor) => {
        crate::ast::Operator::BvOr
    };
    (bvxor) => {
        crate::ast::Operator::BvXor
    };
    (bvxnor) => {
        crate::ast::Operator::BvXNor
    };
    (bvadd) => {
        crate::ast::Operator::BvAdd
    };
    (bvmul) => {
        crate::ast::Operator::BvMul
    };
    (bvcomp) => {
        crate::ast::Operator::BvComp
    };
    (bvult) => {
        crate::ast::Operator::BvULt
    };
    (bvslt) => {
        crate::ast::Operator::BvSLt
    };
    (bvshl) => {
        crate::ast::Operator::BvShl
    };
    (bvlshr) => {
        crate::ast::Operator::BvLShr
    };
    (bvashr) => {
        crate::ast::Operator::BvAShr
    };
    (bvudiv) => {
        crate::ast::Operator::BvUDiv
    };
    (bvurem) => {
        crate::ast::Operator::BvURem
    };
    (concat) => {
        crate::ast::Operator::BvConcat
    };
}

#[macro_export]
macro_rules! get_param_op_variant {
    (extract) => {
        crate::ast::ParamOperator::BvExtract
    };
    (sign_extend) => {
        crate::ast::ParamOperator::SignExtend
    };
}

#[macro_export]
macro_rules! match_term {
    // (op x)
    ((- $x:ident) = $var:expr) => {
        crate::ast::matching::op_n::<1>($var, $crate::get_op_variant!(-)).map(|[x]| x)
    };
    ((not $x:ident) = $var:expr) => {
        crate::ast::matching::op_n::<1>($var, $crate::get_op_variant!(not)).map(|[x]| x)
    };

    // The slice of bitwise_slicing. The names i and j stand twice in the pattern and once in its
    // result: both places must hold the same term.
    ((bvand ((_ extract $i:ident $j:ident) $a:ident) ((_ extract $i2:ident $j2:ident) $c:ident)) = $var:expr) => {
        crate::ast::matching::op_n::<2>($var, $crate::get_op_variant!(bvand)).and_then(|[l, r]| {
            let ([i, j], [a]) = crate::ast::matching::param_n::<2, 1>(l, $crate::get_param_op_variant!(extract))?;
            let ([i2, j2], [c]) = crate::ast::matching::param_n::<2, 1>(r, $crate::get_param_op_variant!(extract))?;
            (i == i2 && j == j2).then_some((i, j, a, c))
        })
    };

    // (= left right), one arm per shape of the two sides
    ((= ((_ $op:ident $i:ident) $x:ident) $res:ident) = $var:expr) => {
        crate::ast::matching::op_n::<2>($var, $crate::get_op_variant!(=)).and_then(|[l, r]| {
            let ([i], [x]) = crate::ast::matching::param_n::<1, 1>(l, $crate::get_param_op_variant!($op))?;
            Some((i, x, r))
        })
    };
    ((= ((_ $op:ident $i:ident $j:ident) $x:ident) ($op2:ident ...)) = $var:expr) => {
        crate::ast::matching::op_n::<2>($var, $crate::get_op_variant!(=)).and_then(|[l, r]| {
            let ([i, j], [x]) = crate::ast::matching::param_n::<2, 1>(l, $crate::get_param_op_variant!($op))?;
            Some((i, j, x, crate::ast::matching::op(r, $crate::get_op_variant!($op2))?))
        })
    };
    ((= $x:ident $res:ident) = $var:expr) => {
        crate::ast::matching::op_n::<2>($var, $crate::get_op_variant!(=)).map(|[x, r]| (x, r))
    };
    ((= $x:ident ($op:ident ...)) = $var:expr) => {
        crate::ast::matching::op_n::<2>($var, $crate::get_op_variant!(=)).and_then(|[x, r]| {
            Some((x, crate::ast::matching::op(r, $crate::get_op_variant!($op))?))
        })
    };
    ((= ($op:ident ...) $res:ident) = $var:expr) => {
        crate::ast::matching::op_n::<2>($var, $crate::get_op_variant!(=)).and_then(|[l, r]| {
            Some((crate::ast::matching::op(l, $crate::get_op_variant!($op))?, r))
        })
    };
    ((= ($op:ident ...) ($op2:ident ...)) = $var:expr) => {
        crate::ast::matching::op_n::<2>($var, $crate::get_op_variant!(=)).and_then(|[l, r]| {
            Some((
                crate::ast::matching::op(l, $crate::get_op_variant!($op))?,
                crate::ast::matching::op(r, $crate::get_op_variant!($op2))?,
            ))
        })
    };
    ((= ($op:tt $x:ident) $res:ident) = $var:expr) => {
        crate::ast::matching::op_n::<2>($var, $crate::get_op_variant!(=)).and_then(|[l, r]| {
            let [x] = crate::ast::matching::op_n::<1>(l, $crate::get_op_variant!($op))?;
            Some((x, r))
        })
    };
    ((= ($op:tt $x:ident $y:ident) $res:ident) = $var:expr) => {
        crate::ast::matching::op_n::<2>($var, $crate::get_op_variant!(=)).and_then(|[l, r]| {
            let [x, y] = crate::ast::matching::op_n::<2>(l, $crate::get_op_variant!($op))?;
            Some((x, y, r))
        })
    };
    ((= ($op:tt $x:ident $y:ident) ($op2:ident ...)) = $var:expr) => {
        crate::ast::matching::op_n::<2>($var, $crate::get_op_variant!(=)).and_then(|[l, r]| {
            let [x, y] = crate::ast::matching::op_n::<2>(l, $crate::get_op_variant!($op))?;
            Some((x, y, crate::ast::matching::op(r, $crate::get_op_variant!($op2))?))
        })
    };
}
