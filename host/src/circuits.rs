//! The two sides of a claim: left sides over some operands, and the circuit that a rule accepts for a left side.
use crate::{
    jobs::{FALSE, JobWriter, Kind, TRUE, Term},
    rng::Rng,
};

/// The kind on the left side of the rules that take any number of operands, and of those that take two.
fn operation(rule: u16) -> Option<(Kind, bool)> {
    Some(match rule {
        3 => (Kind::BvAnd, true),
        4 => (Kind::BvOr, true),
        5 => (Kind::BvXor, true),
        10 => (Kind::BvAdd, true),
        11 => (Kind::BvMul, true),
        6 => (Kind::BvXNor, false),
        8 => (Kind::BvULt, false),
        9 => (Kind::BvSLt, false),
        13 => (Kind::Equals, false),
        14 => (Kind::BvComp, false),
        18 => (Kind::BvShl, false),
        19 => (Kind::BvLShr, false),
        20 => (Kind::BvAShr, false),
        21 => (Kind::BvUDiv, false),
        22 => (Kind::BvURem, false),
        23 => (Kind::BvAnd, false),
        24 => (Kind::BvUDiv, false),
        25 => (Kind::BvURem, false),
        26 => (Kind::BvAShr, false),
        _ => return None,
    })
}

/// The kind on the left side of the rules that move bits.
fn movement(rule: u16) -> Option<Kind> {
    Some(match rule {
        27 => Kind::ZeroExtend,
        28 => Kind::RotateLeft,
        29 => Kind::RotateRight,
        30 => Kind::Repeat,
        _ => return None,
    })
}

/// Whether the rule's circuit has some multiple of n × n gates at width n.
pub fn is_quadratic(rule: u16) -> bool {
    matches!(rule, 11 | 21 | 22 | 24 | 25)
}

/// The width of the operand of which a move makes `width` bits.
fn width_before(kind: Kind, by: usize, width: usize) -> usize {
    match kind {
        Kind::ZeroExtend => width - by,
        Kind::Repeat => width / by,
        _ => width,
    }
}

impl JobWriter {
    /// A left side of the rule over variables, of the main width `width`.
    pub fn left_side(&mut self, rule: u16, width: usize) -> Term {
        let x = self.bv_var(width, 0);
        if let Some((kind, _)) = operation(rule) {
            let y = self.bv_var(width, 1);
            return self.term(kind, &[x, y]);
        }
        if let Some(kind) = movement(rule) {
            return self.moved_variable(kind, width);
        }
        match rule {
            1 => self.constant(width, 0x5A5A_5A5A_5A5A_5A5A),
            7 => self.term(Kind::BvNot, &[x]),
            12 => self.term(Kind::BvNeg, &[x]),
            15 => {
                let wide = self.bv_var(64, 0);
                self.extract(width - 1, 0, wide)
            }
            16 if width > 1 => {
                let (high, low) = (self.bv_var(width / 2, 0), self.bv_var(width - width / 2, 1));
                self.term(Kind::BvConcat, &[high, low])
            }
            16 => self.term(Kind::BvConcat, &[x]),
            17 => {
                let narrow = self.bv_var(width.div_ceil(2), 0);
                self.sign_extend(width / 2, narrow)
            }
            _ => x,
        }
    }

    /// A move that makes `width` bits of a variable.
    fn moved_variable(&mut self, kind: Kind, width: usize) -> Term {
        let by = match kind {
            Kind::ZeroExtend => width / 2,
            Kind::Repeat if width.is_multiple_of(2) => 2,
            Kind::Repeat => 1,
            _ => 3,
        };
        let from = self.bv_var(width_before(kind, by, width), 0);
        self.moved(kind, by, from)
    }

    /// A left side of the rule over random operands, of the main width `width`.
    pub fn random_left_side(&mut self, rule: u16, width: usize, rng: &mut Rng) -> Term {
        if let Some((kind, any_number)) = operation(rule) {
            let count = if any_number { rng.range(1, 4) } else { 2 };
            let operands: Vec<Term> = (0..count).map(|_| self.operand(width, rng)).collect();
            return self.term(kind, &operands);
        }
        if let Some(kind) = movement(rule) {
            return self.moved_operand(kind, width, rng);
        }
        match rule {
            1 => self.constant(width, rng.number()),
            7 | 12 => {
                let x = self.operand(width, rng);
                self.term(if rule == 7 { Kind::BvNot } else { Kind::BvNeg }, &[x])
            }
            15 => {
                let from = rng.range(width, 64);
                let x = self.operand(from, rng);
                let low = rng.range(0, from - width);
                self.extract(low + width - 1, low, x)
            }
            16 => {
                let mut operands = Vec::new();
                let mut left = width;
                while left > 0 {
                    let part = rng.range(1, left);
                    operands.push(self.operand(part, rng));
                    left -= part;
                }
                self.term(Kind::BvConcat, &operands)
            }
            17 => {
                let more = rng.range(0, width - 1);
                let x = self.operand(width - more, rng);
                self.sign_extend(more, x)
            }
            _ => self.operand(width, rng),
        }
    }

    /// A move that makes `width` bits of a random operand.
    fn moved_operand(&mut self, kind: Kind, width: usize, rng: &mut Rng) -> Term {
        let by = match kind {
            Kind::ZeroExtend => rng.range(0, width - 1),
            Kind::Repeat => *rng.pick(&(1..=width).filter(|&by| width.is_multiple_of(by)).collect::<Vec<_>>()),
            _ if rng.chance(50) => rng.range(0, 2 * width),
            _ => rng.range(0, usize::from(u16::MAX)),
        };
        let from = self.operand(width_before(kind, by, width), rng);
        self.moved(kind, by, from)
    }

    /// A variable, a constant, a BvBbTerm or an operation.
    fn operand(&mut self, width: usize, rng: &mut Rng) -> Term {
        let x = self.bv_var(width, rng.below(4) as u16);
        match rng.below(8) {
            0 => self.constant(width, rng.number()),
            1 => self.term(Kind::BvNot, &[x]),
            2 | 3 => {
                let bits: Vec<Term> = (0..width)
                    .map(|k| match rng.below(4) {
                        0 => self.literal(rng.chance(50)),
                        1 => {
                            let bit = self.bit(k, x);
                            self.term(Kind::Not, &[bit])
                        }
                        _ => self.bit(k, x),
                    })
                    .collect();
                self.term(Kind::BvBbTerm, &bits)
            }
            _ => x,
        }
    }

    /// The right side that the rule accepts for a left side of the rule.
    pub fn circuit(&mut self, rule: u16, left: Term) -> Term {
        let node = self.node(left).expect("a left side is not true or false");
        let operands = &node.arguments;
        match rule {
            1 => {
                let value = node.numbers[1..].iter().rev().fold(0u64, |all, &part| all << 16 | u64::from(part));
                let bits: Vec<Term> = (0..node.width).map(|k| self.literal(value >> k & 1 == 1)).collect();
                self.bb(&bits)
            }
            2 => {
                let bits = self.bits(left);
                self.bb(&bits)
            }
            3 => self.bitwise(Kind::And, operands),
            4 => self.bitwise(Kind::Or, operands),
            5 => self.bitwise(Kind::Xor, operands),
            6 => {
                let bits = self.equal_bits(operands);
                self.bb(&bits)
            }
            7 => {
                let bits = self.negated(operands[0]);
                self.bb(&bits)
            }
            8 => self.less(operands[0], operands[1]),
            9 => self.signed_less(operands[0], operands[1]),
            10 => {
                let mut sum = self.bits(operands[0]);
                for &operand in &operands[1..] {
                    let bits = self.bits(operand);
                    sum = self.adder(&sum, &bits, FALSE).0;
                }
                self.bb(&sum)
            }
            11 => operands[1..].iter().fold(operands[0], |product, &factor| self.multiplier(product, factor)),
            12 => {
                let bits = self.negated(operands[0]);
                let zeros = vec![FALSE; bits.len()];
                let sum = self.adder(&bits, &zeros, TRUE).0;
                self.bb(&sum)
            }
            13 => self.all_equal(operands),
            14 => {
                let bit = self.all_equal(operands);
                self.bb(&[bit])
            }
            15 => {
                let bits = self.bits(operands[0]);
                self.bb(&bits[usize::from(node.numbers[1])..=usize::from(node.numbers[0])])
            }
            16 => {
                let bits: Vec<Term> = operands.iter().rev().flat_map(|&part| self.bits(part)).collect();
                self.bb(&bits)
            }
            17 if node.numbers[0] == 0 => operands[0],
            17 => {
                let mut bits = self.bits(operands[0]);
                let top = bits[bits.len() - 1];
                bits.resize(usize::from(node.width), top);
                self.bb(&bits)
            }
            18..=20 => self.shift(node.kind, operands[0], operands[1], false),
            21 | 22 => self.division(node.kind, operands[0], operands[1], false),
            23 => self.slices(operands[0], operands[1]),
            24 | 25 => self.division(node.kind, operands[0], operands[1], true),
            26 => self.shift(node.kind, operands[0], operands[1], true),
            27..=30 => self.moved_bits(node.kind, usize::from(node.numbers[0]), operands[0]),
            _ => panic!("there is no rule {rule}"),
        }
    }

    /// The operand's bits, low ones first: with zeros above, turned round, or one copy after the other.
    fn moved_bits(&mut self, kind: Kind, by: usize, operand: Term) -> Term {
        let mut bits = self.bits(operand);
        let width = bits.len();
        match kind {
            Kind::ZeroExtend => bits.resize(width + by, FALSE),
            Kind::RotateLeft => bits.rotate_right(by % width),
            Kind::RotateRight => bits.rotate_left(by % width),
            _ => bits = bits.repeat(by),
        }
        self.bb(&bits)
    }

    fn bb(&mut self, bits: &[Term]) -> Term {
        self.term(Kind::BvBbTerm, bits)
    }

    fn not(&mut self, a: Term) -> Term {
        self.term(Kind::Not, &[a])
    }

    fn and(&mut self, a: Term, b: Term) -> Term {
        self.term(Kind::And, &[a, b])
    }

    fn or(&mut self, a: Term, b: Term) -> Term {
        self.term(Kind::Or, &[a, b])
    }

    fn xor(&mut self, a: Term, b: Term) -> Term {
        self.term(Kind::Xor, &[a, b])
    }

    fn equals(&mut self, a: Term, b: Term) -> Term {
        self.term(Kind::Equals, &[a, b])
    }

    fn ite(&mut self, test: Term, a: Term, b: Term) -> Term {
        self.term(Kind::Ite, &[test, a, b])
    }

    /// A BvBbTerm's arguments, or BvBitOf of any other term.
    pub fn bits(&mut self, term: Term) -> Vec<Term> {
        match self.node(term) {
            Some(node) if node.kind == Kind::BvBbTerm => node.arguments.clone(),
            _ => (0..self.width(term)).map(|k| self.bit(k, term)).collect(),
        }
    }

    fn negated(&mut self, term: Term) -> Vec<Term> {
        self.bits(term).into_iter().map(|bit| self.not(bit)).collect()
    }

    fn bitwise(&mut self, gate: Kind, operands: &[Term]) -> Term {
        let mut result = operands[0];
        for &operand in &operands[1..] {
            let (x, y) = (self.bits(result), self.bits(operand));
            let bits: Vec<Term> = x.iter().zip(&y).map(|(&a, &b)| self.term(gate, &[a, b])).collect();
            result = self.bb(&bits);
        }
        result
    }

    fn equal_bits(&mut self, operands: &[Term]) -> Vec<Term> {
        let (x, y) = (self.bits(operands[0]), self.bits(operands[1]));
        x.iter().zip(&y).map(|(&a, &b)| self.equals(a, b)).collect()
    }

    /// The And of the bits' equalities, or the one equality.
    fn all_equal(&mut self, operands: &[Term]) -> Term {
        let bits = self.equal_bits(operands);
        match bits[..] {
            [one] => one,
            _ => self.term(Kind::And, &bits),
        }
    }

    /// a is false and b is true.
    fn below(&mut self, a: Term, b: Term) -> Term {
        let not_a = self.not(a);
        self.and(not_a, b)
    }

    /// One bit more: equal there and less below, or less there.
    fn less_with(&mut self, a: Term, b: Term, lower: Term, here: Term) -> Term {
        let same = self.equals(a, b);
        let same = self.and(same, lower);
        self.or(same, here)
    }

    fn less(&mut self, x: Term, y: Term) -> Term {
        let (x, y) = (self.bits(x), self.bits(y));
        let mut result = self.below(x[0], y[0]);
        for k in 1..x.len() {
            let here = self.below(x[k], y[k]);
            result = self.less_with(x[k], y[k], result, here);
        }
        result
    }

    fn signed_less(&mut self, x: Term, y: Term) -> Term {
        let (x, y) = (self.bits(x), self.bits(y));
        let top = x.len() - 1;
        let not_y = self.not(y[top]);
        let negative = self.and(x[top], not_y);
        if top == 0 {
            return negative;
        }
        let mut result = self.below(x[0], y[0]);
        for k in 1..top {
            let here = self.below(x[k], y[k]);
            result = self.less_with(x[k], y[k], result, here);
        }
        self.less_with(x[top], y[top], result, negative)
    }

    /// The sum, and the carry into the top bit.
    fn adder(&mut self, x: &[Term], y: &[Term], carry: Term) -> (Vec<Term>, Term) {
        let mut carry = carry;
        let mut sum = Vec::new();
        for k in 0..x.len() {
            if k > 0 {
                carry = self.carry(x[k - 1], y[k - 1], carry);
            }
            let half = self.xor(x[k], y[k]);
            sum.push(self.xor(half, carry));
        }
        (sum, carry)
    }

    fn carry(&mut self, a: Term, b: Term, carry: Term) -> Term {
        let both = self.and(a, b);
        let half = self.xor(a, b);
        let through = self.and(half, carry);
        self.or(both, through)
    }

    fn multiplier(&mut self, x: Term, y: Term) -> Term {
        let (x, y) = (self.bits(x), self.bits(y));
        let mut result: Vec<Term> = x.iter().map(|&bit| self.and(y[0], bit)).collect();
        for row in 1..x.len() {
            let mut carry = FALSE;
            for k in row..x.len() {
                let (before, product) = (result[k], self.and(y[row], x[k - row]));
                let half = self.xor(before, product);
                result[k] = self.xor(half, carry);
                carry = self.carry(before, product, carry);
            }
        }
        self.bb(&result)
    }

    /// Where y is not below the width, every bit is `false`, and in the standard's arithmetic shift x's top bit.
    fn shift(&mut self, kind: Kind, x: Term, y: Term, standard: bool) -> Term {
        let width = self.width(x);
        let size = self.constant(width, width as u64);
        let inside = self.less(y, size);
        let mut bits = self.bits(x);
        let amount = self.bits(y);
        let fill = if kind == Kind::BvAShr { bits[width - 1] } else { FALSE };
        let stages = width.next_power_of_two().trailing_zeros() as usize;
        for (stage, &on) in amount.iter().enumerate().take(stages) {
            let by = 1 << stage;
            let before = bits.clone();
            for k in 0..width {
                bits[k] = if kind == Kind::BvShl {
                    let moved = if k < by { fill } else { before[k - by] };
                    self.ite(on, moved, before[k])
                } else if k + by >= width {
                    self.ite(on, fill, before[k])
                } else {
                    let off = self.not(on);
                    self.ite(off, before[k], before[k + by])
                };
            }
        }
        let beyond = if standard { fill } else { FALSE };
        for bit in &mut bits {
            *bit = self.ite(inside, *bit, beyond);
        }
        self.bb(&bits)
    }

    /// The quotient for BvUDiv, else the remainder.
    fn division(&mut self, kind: Kind, x: Term, y: Term, standard: bool) -> Term {
        let (x, y) = (self.bits(x), self.bits(y));
        let (quotients, remainders) = self.divider(&x, &y, x.len(), standard);
        let zeros: Vec<Term> = y.iter().map(|&bit| self.equals(bit, FALSE)).collect();
        let by_zero = self.term(Kind::And, &zeros);
        let bits: Vec<Term> = if kind == Kind::BvUDiv {
            quotients.iter().map(|&bit| self.ite(by_zero, TRUE, bit)).collect()
        } else {
            x.iter().zip(&remainders).map(|(&a, &bit)| self.ite(by_zero, a, bit)).collect()
        };
        self.bb(&bits)
    }

    /// The quotient and the remainder of the divider's n lowest stages. The original compares by the carry into the top bit, and makes
    /// every bit of the remainder `true` where y fits into it; the standard's divider takes the carry out of the top bit, and subtracts y.
    fn divider(&mut self, x: &[Term], y: &[Term], n: usize, standard: bool) -> (Vec<Term>, Vec<Term>) {
        let zeros = vec![FALSE; x.len()];
        if n == 0 || x.iter().all(|&bit| bit == FALSE) {
            return (zeros.clone(), zeros);
        }
        let halved: Vec<Term> = x[1..].iter().copied().chain([FALSE]).collect();
        let (mut quotient, mut remainder) = self.divider(&halved, y, n - 1, standard);
        for bits in [&mut quotient, &mut remainder] {
            bits.rotate_right(1);
            bits[0] = FALSE;
        }
        let is_odd = self.equals(x[0], TRUE);
        let odd = self.ite(is_odd, TRUE, FALSE);
        let mut remainder = self.adder(&remainder, &zeros, odd).0;
        let not_y: Vec<Term> = y.iter().map(|&bit| self.not(bit)).collect();
        let (difference, small) = self.difference(&remainder, &not_y, standard);
        quotient[0] = self.ite(small, quotient[0], TRUE);
        for (bit, less_y) in remainder.iter_mut().zip(difference) {
            *bit = self.ite(small, *bit, if standard { less_y } else { TRUE });
        }
        let less = self.difference(x, &not_y, standard).1;
        for k in 0..x.len() {
            quotient[k] = self.ite(less, FALSE, quotient[k]);
            remainder[k] = self.ite(less, x[k], remainder[k]);
        }
        (quotient, remainder)
    }

    /// x - y from the negated bits of y, and whether it has no carry: out of the top bit, or into it as the original has it.
    fn difference(&mut self, x: &[Term], not_y: &[Term], standard: bool) -> (Vec<Term>, Term) {
        let (difference, mut carry) = self.adder(x, not_y, TRUE);
        if standard {
            let top = x.len() - 1;
            carry = self.carry(x[top], not_y[top], carry);
        }
        (difference, self.not(carry))
    }

    /// Rule 23's right side: the upper half and the lower half, or the one bit.
    fn slices(&mut self, a: Term, c: Term) -> Term {
        let width = self.width(a);
        let middle = width / 2;
        let cuts = if middle == 0 { vec![(0, 0)] } else { vec![(width - 1, middle), (middle - 1, 0)] };
        let slices: Vec<Term> = cuts
            .into_iter()
            .map(|(high, low)| {
                let (x, y) = (self.extract(high, low, a), self.extract(high, low, c));
                self.term(Kind::BvAnd, &[x, y])
            })
            .collect();
        self.term(Kind::BvConcat, &slices)
    }
}
