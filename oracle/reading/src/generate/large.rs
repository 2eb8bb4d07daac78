//! Jobs at the limits of length and of term numbers, and circuits of large widths.
use super::{Case, Maker};
use crate::format::TWO;
use crate::job::LONGEST;
use crate::kind::NOT;
use crate::pool::YES;
use crate::rule::left_kind;

/// Rules and widths of the large circuits.
const CIRCUITS: [(u16, usize); 16] = [
    (11, 16),
    (11, 32),
    (11, 64),
    (20, 64),
    (21, 16),
    (22, 32),
    (21, 64),
    (22, 64),
    (24, 16),
    (25, 16),
    (24, 32),
    (25, 32),
    (24, 64),
    (25, 64),
    (26, 32),
    (26, 64),
];

pub const COUNT: usize = 5 + CIRCUITS.len();

pub fn case(maker: &mut Maker, i: usize) -> Case {
    match i {
        0 | 1 => maker.bytes = vec![0; LONGEST + i],
        2 => maker.bytes = crate::specimen(),
        3 | 4 => tower(maker, TWO.most_terms - 2 + i - 3),
        _ => {
            let (rule, width) = CIRCUITS[i - 5];
            circuit(maker, rule, width);
        }
    }
    let mut case = Case::of(maker);
    case.lent.work += 80;
    case.lent.room += 10;
    case
}

/// So many terms, each the Not of the one before, and a repeat.
fn tower(maker: &mut Maker, count: usize) {
    let mut top = YES;
    for _ in 0..count {
        top = maker.pool.op(NOT, &[top]);
        maker.write(top);
    }
    maker.write(maker.list[2]);
    maker.step(2, &[YES], Some(false));
}

/// The right claim over two variables, and one with a gate changed.
fn circuit(maker: &mut Maker, rule: u16, width: usize) {
    let (x, y) = (maker.variable(width, 0), maker.variable(width, 1));
    let left = maker.pool.op(left_kind(rule).expect("a rule with a form"), &[x, y]);
    let claim = maker.right_claim(rule, left);
    let (_, right) = maker.pool.sides(claim).expect("a claim is an Equals");
    let changed = maker.changed(right);
    let wrong = maker.equals(left, changed);
    maker.step(rule, &[wrong], Some(wrong == claim));
    maker.back(2);
    maker.step(rule, &[claim], Some(true));
}
