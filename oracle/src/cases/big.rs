//! Large jobs.
use super::{Case, with_enough};
use crate::ast::Operator;
use crate::maker::Maker;

/// How many there are.
pub(super) const COUNT: usize = 22;

pub(super) fn case(m: &mut Maker, i: usize) -> Case {
    let note = big(i, m);
    let mut case = with_enough(m, note);
    if i == 10 {
        case.work = 8 * 70_000; // the numbers end, not the memory
    }
    case
}

fn big(k: usize, m: &mut Maker) -> String {
    let right = |m: &mut Maker, rule: u16, w: usize| {
        let left = m.left(rule, w, true);
        let right = m.expected(rule, &left);
        m.claim(rule, &left, &right);
        format!("big: rule {} width {}, {} terms", rule, w, m.peak)
    };
    match k {
        0 => right(m, 11, 64),
        1 => right(m, 11, 20),
        2 => right(m, 11, 12),
        3 => right(m, 21, 12),
        4 => right(m, 22, 16),
        5 => right(m, 21, 20),
        6 => right(m, 22, 32),
        7 => right(m, 21, 63),
        8 => right(m, 22, 64),
        9 => {
            // 64 factors of width 64 and a claim that is no circuit
            let args = (0..64).map(|i| m.var(64, i)).collect();
            let left = m.op(Operator::BvMul, args);
            let claim = m.var(64, 99);
            m.claim(11, &left, &claim);
            let x = m.var(64, 0);
            let div = m.op2(Operator::BvUDiv, &x, &claim);
            m.claim(21, &div, &claim);
            "big: 64 factors, claim a variable".to_owned()
        }
        10 => {
            // all term numbers, then one more
            let mut t = m.lit(true);
            for _ in 0..65_534 {
                t = m.not(&t);
                m.emit(&t);
            }
            "big: 65,536 terms".to_owned()
        }
        11 => {
            let mut t = m.lit(true);
            for _ in 0..65_533 {
                t = m.not(&t);
                m.emit(&t);
            }
            m.repeat();
            m.step(2, &[65_534]);
            m.back(65_535);
            m.back(3_000);
            let x = m.var(3, 0);
            let bits = m.bits(&x);
            let b = m.bb(bits);
            m.claim(2, &x, &b);
            "big: 65,535 terms, a repeat, steps and backs".to_owned()
        }
        12 => {
            m.systematic(11, 12, true);
            format!("big: wrong claims, rule 11 width 12, {} terms", m.peak)
        }
        13 => {
            m.systematic(21, 12, true);
            format!("big: wrong claims, rule 21 width 12, {} terms", m.peak)
        }
        15 => right(m, 21, 64),
        18..=20 => {
            let (rule, w) = [(11, 40), (21, 24), (22, 20)][k - 18];
            let left = m.left(rule, w, true);
            let good = m.expected(rule, &left);
            for _ in 0..6 {
                let wrong = m.mutated(&good);
                m.claim(rule, &left, &wrong);
                m.back(2);
            }
            m.claim(rule, &left, &good);
            let wrong = m.mutated(&good);
            m.claim(rule, &left, &wrong);
            format!("big: rule {} width {}, one node changed, {} terms", rule, w, m.peak)
        }
        16 => {
            // the deepest accepted right side: rule 2 on (= b b), b one bit deep below Nots
            let mut t = m.bool_var(0);
            for _ in 0..65_530 {
                t = m.not(&t);
                m.emit(&t);
            }
            let b = m.bb(vec![t]);
            m.claim(2, &b, &b);
            "big: depth 65,530".to_owned()
        }
        17 => {
            // a full list, and products whose gates are not kept
            let mut t = m.lit(false);
            for _ in 0..60_000 {
                t = m.not(&t);
                m.emit(&t);
            }
            let (x, y) = (m.var(64, 0), m.var(64, 1));
            let product = m.op2(Operator::BvMul, &x, &y);
            m.claim(11, &product, &x);
            let quotient = m.op2(Operator::BvUDiv, &x, &y);
            m.claim(21, &quotient, &x);
            "big: claims without gates on a long list".to_owned()
        }
        14 => {
            m.systematic(22, 12, false);
            format!("big: wrong claims, rule 22 width 12, {} terms", m.peak)
        }
        _ => {
            for rule in 18..=20 {
                m.systematic(rule, 64, true);
            }
            format!("big: shifts at 64, {} terms", m.peak)
        }
    }
}
