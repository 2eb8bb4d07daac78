//! Random terms.
use super::Maker;
use crate::kind::*;
use crate::pool::{Id, NO, YES};

impl Maker {
    pub fn variable(&mut self, width: usize, name: usize) -> Id {
        self.pool.add(VARIABLE, &[width as u64, name as u64], &[])
    }

    pub fn constant(&mut self, width: usize) -> Id {
        let value = self.rng.value() & u64::MAX >> (64 - width);
        self.pool.add(CONSTANT, &[width as u64, value], &[])
    }

    /// A variable of the sort of a term, with a name of its own.
    pub fn stranger(&mut self, like: Id) -> Id {
        match self.pool.width(like) {
            0 => self.pool.add(BOOL, &[77], &[]),
            width => self.variable(width, 77),
        }
    }

    pub fn boolean(&mut self, nesting: usize) -> Id {
        let name = self.rng.below(3);
        match self.rng.below(if nesting == 0 { 4 } else { 9 }) {
            0 => self.rng.pick(&[YES, NO]),
            1 => self.pool.add(BOOL, &[name as u64], &[]),
            2 | 3 => {
                let width = self.rng.range(1, 4);
                let x = self.variable(width, name);
                let i = self.rng.below(width);
                self.pool.bit(i, x)
            }
            4 => {
                let a = self.boolean(nesting - 1);
                self.pool.not(a)
            }
            5 | 6 => {
                let kind = self.rng.pick(&[AND, OR, XOR, EQUALS]);
                let (a, b) = (self.boolean(nesting - 1), self.boolean(nesting - 1));
                self.pool.op(kind, &[a, b])
            }
            7 => {
                let args = [0; 3].map(|_| self.boolean(nesting - 1));
                self.pool.op(ITE, &args)
            }
            _ => {
                let kind = self.rng.pick(&[BV_ULT, BV_SLT, EQUALS]);
                let width = self.rng.range(1, 3);
                let (x, y) = (self.vector(width, nesting - 1), self.vector(width, nesting - 1));
                self.pool.op(kind, &[x, y])
            }
        }
    }

    /// A random bit-vector.
    pub fn vector(&mut self, width: usize, nesting: usize) -> Id {
        let name = self.rng.below(4);
        match self.rng.below(if nesting == 0 { 4 } else { 9 }) {
            0 | 1 => self.variable(width, name),
            2 => self.constant(width),
            3 => {
                let bits: Vec<Id> = (0..width).map(|_| self.boolean(0)).collect();
                self.pool.bb(&bits)
            }
            4 => {
                let bits: Vec<Id> = (0..width).map(|_| self.boolean(nesting - 1)).collect();
                self.pool.bb(&bits)
            }
            5 => {
                let kind = self.rng.pick(&[BV_NOT, BV_NEG, ROTATE_LEFT, ROTATE_RIGHT]);
                let x = self.vector(width, nesting - 1);
                let amount = [self.rng.below(2 * width) as u64];
                let own = if kind == BV_NOT || kind == BV_NEG { &amount[..0] } else { &amount };
                self.pool.add(kind, own, &[x])
            }
            6 | 7 => {
                let kind = self.rng.pick(&[BV_AND, BV_OR, BV_XOR, BV_ADD, BV_MUL, BV_XNOR, BV_SHL, BV_ASHR, BV_UREM]);
                let (x, y) = (self.vector(width, nesting - 1), self.vector(width, nesting - 1));
                self.pool.op(kind, &[x, y])
            }
            _ => self.resized(width, nesting - 1),
        }
    }

    /// A vector cut out of a wider one, made longer, or joined of two.
    fn resized(&mut self, width: usize, nesting: usize) -> Id {
        let shorter = self.rng.range(1, width);
        match self.rng.below(3) {
            0 => {
                let wider = self.rng.range(width, 64);
                let low = self.rng.below(wider - width + 1);
                let x = self.variable(wider, 0);
                self.pool.add(EXTRACT, &[(low + width - 1) as u64, low as u64], &[x])
            }
            1 => {
                let (kind, x) = (self.rng.pick(&[SIGN_EXTEND, ZERO_EXTEND]), self.vector(shorter, nesting));
                self.pool.add(kind, &[(width - shorter) as u64], &[x])
            }
            2 if width.is_multiple_of(shorter) => {
                let x = self.vector(shorter, nesting);
                self.pool.add(REPEAT, &[(width / shorter) as u64], &[x])
            }
            _ if shorter < width => {
                let (x, y) = (self.vector(width - shorter, nesting), self.vector(shorter, nesting));
                self.pool.op(CONCAT, &[x, y])
            }
            _ => self.variable(width, 1),
        }
    }

    /// A number that is at or near a limit of widths, indices and amounts.
    pub fn edge(&mut self, width: usize) -> u64 {
        let n = width as u64;
        let some = self.rng.below(70) as u64;
        self.rng.pick(&[
            0,
            1,
            n.saturating_sub(1),
            n,
            n + 1,
            63,
            64,
            65,
            64u64.saturating_sub(n),
            65 - n.min(64),
            65_535,
            some,
        ])
    }
}
