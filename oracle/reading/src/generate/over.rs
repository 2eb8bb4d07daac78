//! Terms of every kind over a few given variables, so that an assignment of them has few bits.
use super::Maker;
use crate::kind::*;
use crate::pool::{Id, NO, YES};
use crate::question::MOST_BITS;
use crate::sort::Sort;

/// The kinds whose result is as wide as their arguments.
const SAME_WIDTH: [u16; 15] = [
    BV_NOT,
    BV_NEG,
    BV_AND,
    BV_OR,
    BV_XOR,
    BV_ADD,
    BV_MUL,
    BV_XNOR,
    BV_SHL,
    BV_LSHR,
    BV_ASHR,
    BV_UDIV,
    BV_UREM,
    ROTATE_LEFT,
    ROTATE_RIGHT,
];

impl Maker {
    /// Variables of so many bits in all, Bools among them. They are told apart by name, so that the order of their numbers is not that of
    /// their making.
    pub fn some_variables(&mut self, bits: usize) -> Vec<Id> {
        let mut left = bits;
        let mut variables = Vec::new();
        while left > 0 {
            let width = self.rng.range(1, left.min(MOST_BITS));
            let width = if self.rng.chance(50) { width.min(4) } else { width };
            let name = variables.len();
            variables.push(match width {
                1 if self.rng.chance(60) => self.pool.add(BOOL, &[name as u64], &[]),
                _ => self.variable(width, name),
            });
            left -= width;
        }
        variables
    }

    /// A width, now and then one far above that of any variable.
    pub fn width_over(&mut self) -> usize {
        match self.rng.below(10) {
            0 => self.rng.pick(&[31, 32, 33, 63, 64]),
            1 => self.rng.range(1, 64),
            _ => self.rng.range(1, 16),
        }
    }

    /// A Bool over the variables.
    pub fn bool_over(&mut self, over: &[Id], nesting: usize) -> Id {
        if nesting == 0 || over.is_empty() || self.rng.chance(20) {
            return self.bool_leaf(over);
        }
        let kind = self.rng.pick(&[NOT, AND, OR, XOR, EQUALS, ITE, BIT_OF, BV_ULT, BV_SLT]);
        let width = self.rng.range(1, 4);
        self.operation(kind, over, width, nesting - 1)
    }

    fn bool_leaf(&mut self, over: &[Id]) -> Id {
        if over.is_empty() || self.rng.chance(10) {
            return self.rng.pick(&[YES, NO]);
        }
        let variable = self.rng.pick(over);
        match self.pool.width(variable) {
            0 => variable,
            width => {
                let i = self.rng.below(width);
                self.pool.bit(i, variable)
            }
        }
    }

    /// A vector of a width over the variables.
    pub fn vector_over(&mut self, over: &[Id], width: usize, nesting: usize) -> Id {
        if nesting == 0 || self.rng.chance(20) {
            return self.vector_leaf(over, width);
        }
        match self.rng.below(4) {
            0 => {
                let args: Vec<Id> = (0..width).map(|_| self.bool_over(over, nesting - 1)).collect();
                self.pool.bb(&args)
            }
            1 => {
                let kind = self.rng.pick(&[CONCAT, EXTRACT, SIGN_EXTEND, ZERO_EXTEND, REPEAT, BV_COMP]);
                let inner = self.rng.range(1, width);
                let term = self.operation(kind, over, inner, nesting - 1);
                self.fitted(term, width)
            }
            _ => {
                let kind = self.rng.pick(&SAME_WIDTH);
                self.operation(kind, over, width, nesting - 1)
            }
        }
    }

    fn vector_leaf(&mut self, over: &[Id], width: usize) -> Id {
        let vectors: Vec<Id> = over.iter().copied().filter(|&id| self.pool.width(id) > 0).collect();
        match self.rng.below(8) {
            0 => self.constant(width),
            1 => {
                let args: Vec<Id> = (0..width).map(|_| self.bool_leaf(over)).collect();
                self.pool.bb(&args)
            }
            _ if vectors.is_empty() => self.constant(width),
            _ => {
                let variable = self.rng.pick(&vectors);
                self.fitted(variable, width)
            }
        }
    }

    /// A vector cut or made longer to a width.
    fn fitted(&mut self, term: Id, width: usize) -> Id {
        let own = self.pool.width(term);
        if own >= width {
            let low = self.rng.range(0, own - width);
            let numbers = [(low + width - 1) as u64, low as u64];
            return if own == width { term } else { self.pool.add(EXTRACT, &numbers, &[term]) };
        }
        let more = width - own;
        match self.rng.below(4) {
            0 => self.pool.add(SIGN_EXTEND, &[more as u64], &[term]),
            1 => self.pool.add(ZERO_EXTEND, &[more as u64], &[term]),
            2 if width.is_multiple_of(own) => self.pool.add(REPEAT, &[(width / own) as u64], &[term]),
            _ => {
                let filler = self.constant(more);
                let args = if self.rng.chance(50) { [filler, term] } else { [term, filler] };
                self.pool.op(CONCAT, &args)
            }
        }
    }

    /// A term of a kind, over arguments of a width where they are vectors.
    pub fn operation(&mut self, kind: u16, over: &[Id], width: usize, nesting: usize) -> Id {
        let shape = shape(kind).expect("a kind of term");
        let count = self.rng.pick(&[2, 2, 3, 5, 1]).clamp(shape.least, shape.most);
        let bools = match kind {
            NOT..=XOR | ITE | BB_TERM => true,
            EQUALS => self.rng.chance(50),
            _ => false,
        };
        let args: Vec<Id> = match kind {
            CONCAT => self.parts_of(width).into_iter().map(|part| self.vector_over(over, part, nesting)).collect(),
            BB_TERM => (0..width).map(|_| self.bool_over(over, nesting)).collect(),
            _ if bools => (0..count).map(|_| self.bool_over(over, nesting)).collect(),
            _ => (0..count).map(|_| self.vector_over(over, width, nesting)).collect(),
        };
        let numbers = self.own_numbers(kind, width);
        self.pool.add(kind, &numbers, &args)
    }

    fn own_numbers(&mut self, kind: u16, width: usize) -> Vec<u64> {
        let i = self.rng.below(width);
        match kind {
            BIT_OF => vec![i as u64],
            EXTRACT => vec![i as u64, self.rng.range(0, i) as u64],
            SIGN_EXTEND => vec![self.rng.range(0, 64 - width) as u64],
            ZERO_EXTEND..=REPEAT => vec![self.amount(kind, width) as u64],
            _ => vec![],
        }
    }

    /// Widths that sum to a width.
    fn parts_of(&mut self, width: usize) -> Vec<usize> {
        let mut left = width;
        let mut parts = Vec::new();
        while left > 0 {
            parts.push(self.rng.range(1, left));
            left -= parts[parts.len() - 1];
        }
        parts
    }

    /// The Bool that is true on just one pattern of some variables.
    pub fn pattern(&mut self, variables: &[Id]) -> Id {
        let tests: Vec<Id> = variables.iter().map(|&variable| self.matching(variable)).collect();
        if tests.is_empty() { YES } else { self.pool.op(AND, &tests) }
    }

    fn matching(&mut self, variable: Id) -> Id {
        match self.pool.sort(variable) {
            Sort::Bool if self.rng.chance(50) => variable,
            Sort::Bool => self.pool.not(variable),
            Sort::Bits(width) => {
                let value = self.constant(width as usize);
                self.equals(variable, value)
            }
        }
    }

    /// A term of the same sort that differs just where a Bool is true.
    pub fn flipped(&mut self, term: Id, place: Id) -> Id {
        if self.pool.sort(term) == Sort::Bool {
            return self.pool.op(XOR, &[term, place]);
        }
        let mut bits = self.pool.bits(term);
        let i = self.rng.below(bits.len());
        bits[i] = self.pool.op(XOR, &[bits[i], place]);
        self.pool.bb(&bits)
    }
}
