//! Jobs of four-byte numbers that pass 65,536 terms, and one with all of a million.
use super::{Case, Maker};
use crate::format::{FOUR, TWO};
use crate::job::{Limits, RACK};
use crate::kind::*;
use crate::pool::{Id, NO, YES};

pub const COUNT: usize = 6;

/// Terms before those that a job is about: numbers of two bytes are spent.
const BEFORE: usize = TWO.most_terms + 100;

pub fn case(maker: &mut Maker, i: usize) -> Case {
    maker.in_four_bytes();
    match i {
        0 => million(maker),
        1 => deep(maker, 70_000),
        2 => division_pair(maker),
        _ => {
            maker.past_two_bytes();
            match i {
                3 => maker.mixture(),
                4 => maker.chains(),
                _ => maker.stopped(),
            }
        }
    }
    let mut case = Case::of(maker);
    // The numbers are spent before the memory is.
    case.lent.work += FOUR.row;
    if i == 1 {
        case.under = around_two_bytes(maker);
    }
    case
}

/// Limits that only jobs of four-byte numbers can tell from each other.
fn around_two_bytes(maker: &Maker) -> Vec<Limits> {
    let kept = maker.peak as u32;
    let terms = [TWO.most_terms as u32, TWO.most_terms as u32 + 1, kept - 1, kept, RACK.terms + 1, u32::MAX];
    terms.map(|terms| Limits { terms, ..RACK }).to_vec()
}

/// The Not of the Not .. of `true`, so many of them.
fn tower(maker: &mut Maker, count: usize) -> Id {
    let mut top = YES;
    for _ in 0..count {
        top = maker.pool.op(NOT, &[top]);
        maker.write(top);
    }
    top
}

impl Maker {
    /// Variables of any width, which spend the numbers of two bytes: numbers with the same low bytes have other sorts.
    pub fn past_two_bytes(&mut self) {
        for name in 0..BEFORE {
            let x = self.variable(name % 61 + 1, name & 0xFFFF);
            self.write(x);
        }
    }
}

/// As many terms as there may be, almost all of them in the circuit of a held step; then a repeat, and one more. The records are written
/// without the pool, which would keep each of the terms once more.
fn million(maker: &mut Maker) {
    let top = FOUR.most_terms as u32 - 4;
    maker.words(NOT, &[], &[0]);
    for number in 2..top {
        maker.words(NOT, &[], &[number]);
    }
    maker.words(BB_TERM, &[], &[top]);
    maker.words(EQUALS, &[], &[top + 1, top + 1]);
    maker.words(STEP, &[2], &[top + 2]);
    maker.words(BOOL, &[0], &[]);
    maker.words(BB_TERM, &[], &[top]);
    maker.words(AND, &[], &[top]);
    maker.peak = FOUR.most_terms;
    maker.claims.push(Some(true));
}

/// A depth that two bytes do not hold: bits, their negation, the wrong one, and chains over both.
fn deep(maker: &mut Maker, depth: usize) {
    let top = tower(maker, depth);
    let (bits, below) = (maker.pool.bb(&[top, NO]), maker.pool.args(top)[0]);
    let claim = maker.equals(bits, bits);
    maker.step(2, &[claim], Some(true));
    let negated = maker.pool.op(BV_NOT, &[bits]);
    let not_top = maker.pool.not(top);
    let not_no = maker.pool.not(NO);
    for (bit, right) in [(below, false), (not_top, true)] {
        let circuit = maker.pool.bb(&[bit, not_no]);
        let claim = maker.equals(negated, circuit);
        maker.step(7, &[claim], Some(right));
    }
    let circuit = maker.pool.bb(&[not_top, not_no]);
    let turned = maker.equals(circuit, negated);
    maker.chain(31, &[3], turned, Some(true));
    let same = maker.equals(negated, negated);
    maker.chain(32, &[3, 4], same, Some(true));
    // The literal of step 3 goes, and comes again.
    let dropped = maker.premises[2].number as usize;
    maker.back(dropped);
    maker.chain(31, &[3], turned, Some(false));
    maker.step(2, &[claim], Some(true));
}

/// Two divisions of width 64, whose circuits have more terms than two bytes number.
fn division_pair(maker: &mut Maker) {
    let (x, y) = (maker.variable(64, 0), maker.variable(64, 1));
    for (rule, kind, operands) in [(24, BV_UDIV, [x, y]), (25, BV_UREM, [y, x])] {
        let left = maker.pool.op(kind, &operands);
        let claim = maker.right_claim(rule, left);
        maker.step(rule, &[claim], Some(true));
    }
}
