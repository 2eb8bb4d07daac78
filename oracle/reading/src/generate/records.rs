//! Random records, good ones and those that stop a job.
use super::{MANY, Maker};
use crate::chain::{CONG, SYMM};
use crate::format::TWO;
use crate::kind::*;
use crate::pool::Id;
use crate::rule::STEP_RULES;

/// Kinds that no record has.
const NO_KIND: [u16; 21] =
    [0, 1, 2, 9, 13, 19, 26, 29, 32, 39, 59, 64, 99, 102, FOUR_BYTES, 105, 200, 255, 266, 356, 65_535];

/// Rules that no step has; the first three are a chain's.
const NO_RULE: [u16; 9] = [31, 32, 33, 0, 34, 99, 256, 257, 65_535];

impl Maker {
    pub fn any_rule(&mut self) -> u16 {
        self.rng.range(1, usize::from(STEP_RULES)) as u16
    }

    /// Numbers and arguments of the kind's shape, with some chance that they fit each other.
    fn parts(&mut self, kind: u16) -> (Vec<u64>, Vec<Id>) {
        let shape = shape(kind).expect("a kind of term");
        let count = self.rng.pick(&[shape.least, shape.least + 1, shape.most, 3, 2]).clamp(shape.least, shape.most);
        let some = self.some_kept();
        let first = self.rng.pick(&some);
        let like = self.rng.chance(70);
        let sort = self.pool.sort(first);
        let alike: Vec<Id> = some.iter().copied().filter(|&id| !like || self.pool.sort(id) == sort).collect();
        let args: Vec<Id> = (0..count).map(|_| self.rng.pick(&alike)).collect();
        let width = self.pool.width(first);
        let numbers = match kind {
            BOOL => vec![self.rng.below(5) as u64],
            VARIABLE => vec![self.edge(width), self.rng.below(3) as u64],
            CONSTANT => vec![self.edge(width), self.rng.value()],
            _ => (0..shape.own / 2).map(|_| self.edge(width)).collect(),
        };
        (numbers, args)
    }

    /// The kept terms; where they are very many, some of them and the last ones.
    fn some_kept(&mut self) -> Vec<Id> {
        let Some(many) = self.list.len().checked_sub(MANY) else { return self.list.clone() };
        let mut some = self.list[many..].to_vec();
        some.extend((0..MANY).map(|_| self.list[self.rng.below(many + 1)]));
        some
    }

    /// A record of a new term, or of one that is kept already.
    pub fn random_term(&mut self) {
        let kinds: Vec<u16> = terms().collect();
        loop {
            let kind = self.rng.pick(&kinds);
            let (numbers, args) = self.parts(kind);
            if let Some(id) = self.pool.try_add(kind, &numbers, &args) {
                return self.write(id);
            }
        }
    }

    /// Code 7: a record whose parts do not fit each other.
    fn misfit(&mut self) {
        let kinds: Vec<u16> = terms().collect();
        loop {
            let kind = self.rng.pick(&kinds);
            let (numbers, args) = self.parts(kind);
            if self.pool.try_add(kind, &numbers, &args).is_none() {
                let args: Vec<u32> = args.iter().map(|&a| self.emit(a)).collect();
                return self.term_record(kind, &numbers, &args);
            }
        }
    }

    /// A number that is no kept term's: just beyond, the greatest, and in four bytes such as have the low bytes of one.
    fn beyond(&mut self) -> u32 {
        let (kept, some) = (self.list.len() as u32, self.rng.below(self.list.len()) as u32);
        if self.format == TWO {
            return self.rng.pick(&[kept, kept + 1, 65_535]);
        }
        let high = kept.next_multiple_of(65_536);
        self.rng.pick(&[kept, kept + 1, high + some, high + 65_535, some + (1 << 24), some + (1 << 31), u32::MAX])
    }

    /// Code 6: an argument or a literal that is not kept, whatever else is wrong with the record.
    fn not_kept(&mut self) {
        let out = self.beyond();
        let kinds: Vec<u16> = terms().filter(|&kind| shape(kind).is_some_and(|s| s.least > 0)).collect();
        let kind = self.rng.pick(&kinds);
        let (numbers, args) = self.parts(kind);
        let mut args: Vec<u32> = args.iter().map(|&a| self.emit(a)).collect();
        let k = self.rng.below(args.len());
        args[k] = out;
        match self.rng.below(3) {
            0 => self.words(STEP, &[99], &[0, out]),
            _ => self.term_record(kind, &numbers, &args),
        }
    }

    /// Most likely code 5: a body of any length.
    fn odd_body(&mut self) {
        let kinds: Vec<u16> = terms().chain([STEP, BACK, CHAIN]).collect();
        let kind = self.rng.pick(&kinds);
        let bytes = self.format.number;
        // Few numbers, or around 64 of them.
        let length =
            if self.rng.chance(60) { self.rng.below(8 * bytes) } else { self.rng.range(60 * bytes, 70 * bytes) };
        let body: Vec<u8> = (0..length).map(|i| if i % bytes == 0 { self.rng.below(3) as u8 } else { 0 }).collect();
        self.record(kind, &body);
    }

    /// A record that most likely stops the job.
    pub fn bad_record(&mut self) {
        match self.rng.below(10) {
            0 => {
                let tail: &[u8] = self.rng.pick(&[&[6], &[0, 0], &[1, 0, 20], &[255, 255, 20, 0], &[4, 0, 20, 0, 0]]);
                self.bytes.extend(tail);
            }
            1 => {
                let (kind, length) = (self.rng.pick(&NO_KIND), self.rng.pick(&[0, 1, 2, 4, 10]));
                self.record(kind, &vec![0; length]);
            }
            2 => self.odd_body(),
            3 => self.not_kept(),
            4 | 5 => self.misfit(),
            6 => {
                let (rule, count) = (self.rng.pick(&NO_RULE), self.rng.pick(&[1, 2, 65]));
                self.words(STEP, &[rule], &vec![0; count - 1]);
            }
            7 => self.bad_chain(),
            _ => {
                let (next, beyond) = (self.list.len() as u32 + 1, self.beyond());
                let count = self.rng.pick(&[0, 1, next, beyond]);
                self.words(BACK, &[], &[count]);
            }
        }
    }

    /// A chain with a wrong count, length, literal or rule, in that order of tests; more than one may be wrong.
    fn bad_chain(&mut self) {
        let count = self.rng.pick(&[1, 1, 1, 2, 64]);
        let rule = self.rng.range(usize::from(SYMM), usize::from(CONG)) as u16;
        let mut words = vec![1; count + 2];
        words[..2].copy_from_slice(&[rule, count as u16]);
        let mut literal = vec![1];
        let which = self.rng.below(5);
        match which {
            0 => words[1] = self.rng.pick(&[0, 65, 256, 65_535, count as u16 + 1, count as u16 - 1]),
            1 => (words, literal) = (vec![1; self.rng.pick(&[0, 1, 2, 3, 68])], vec![]),
            2 => literal[0] = self.beyond(),
            _ => {}
        }
        if which > 2 || (which > 1 && self.rng.chance(30)) {
            words[0] = self.rng.pick(&[0, 1, 30, 34, 99, 287, 65_535]);
        }
        self.words(CHAIN, &words, &literal);
    }

    /// A few records, then one that stops the job, then more that are not read.
    pub fn stopped(&mut self) {
        for _ in 0..self.rng.below(12) {
            self.random_term();
        }
        let x = self.variable(2, 0);
        let claim = self.right_claim(2, x);
        self.step(2, &[claim], Some(true));
        self.bad_record();
        // Where the record is good after all, its term has a number that is not accounted for.
        self.step(2, &[claim], None);
    }

    /// Records of all sorts: random terms, terms again, steps on any of them, backs, claims.
    pub fn mixture(&mut self) {
        for _ in 0..self.rng.range(3, 30) {
            match self.rng.below(10) {
                0..=4 => self.random_term(),
                5 if self.list.len() > 2 => {
                    let again = self.rng.range(2, self.list.len() - 1);
                    self.write(self.list[again]);
                }
                6 => {
                    let (rule, literal) = (self.any_rule(), self.any_literal());
                    self.step(rule, &[literal], None);
                }
                7 => self.maybe_back(50),
                8 if self.rng.chance(30) => self.any_chain(),
                _ => {
                    let rule = self.any_rule();
                    let width = self.rng.range(1, 5);
                    let left = self.left(rule, width);
                    let right = self.right_claim(rule, left);
                    self.step(rule, &[right], Some(true));
                    self.wrong_step(rule, left, right);
                }
            }
        }
    }

    /// A kept Equals, where there is one.
    pub fn any_literal(&mut self) -> Id {
        let equals: Vec<Id> = self.list.iter().copied().filter(|&id| self.pool.kind(id) == EQUALS).collect();
        let all = if equals.is_empty() || self.rng.chance(10) { &self.list } else { &equals };
        self.rng.pick(all)
    }
}
