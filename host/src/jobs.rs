//! Writes jobs, for tests and the command line: widths, counts and terms are taken as they come, and are not tested. Equal terms are
//! one term, and a term's record is written when a step first needs it, its arguments before it.
pub use crate::words::Kind;
use crate::{
    Format,
    circuits::is_quadratic,
    format::FOUR_BYTES_RECORD,
    rng::Rng,
    words::{RULES, Rule},
};
use std::{collections::HashMap, rc::Rc};

/// A term of a writer.
#[derive(Clone, Copy, Debug, PartialEq, Eq, Hash)]
pub struct Term(u32);

pub const TRUE: Term = Term(0);
pub const FALSE: Term = Term(1);

/// The rules of chains.
pub const SYMM: u16 = Rule::Symm.number();
pub const TRANS: u16 = Rule::Trans.number();
pub const CONG: u16 = Rule::Cong.number();

/// A term's record before its arguments have numbers.
#[derive(Debug, PartialEq, Eq, Hash)]
pub struct Node {
    pub kind: Kind,
    /// The body's numbers that are no arguments: names, widths, indices, the value in four parts.
    pub numbers: Vec<u16>,
    pub arguments: Vec<Term>,
    /// The width, 0 for a Bool.
    pub width: u16,
}

/// A job that is being written.
pub struct JobWriter {
    format: Format,
    nodes: Vec<Option<Rc<Node>>>,
    terms: HashMap<Rc<Node>, Term>,
    /// The numbers of the terms that are kept, and these terms in the order of their numbers.
    numbers: HashMap<Term, u32>,
    kept: Vec<Term>,
    /// The steps and chains written.
    steps: usize,
    bytes: Vec<u8>,
}

impl Default for JobWriter {
    fn default() -> Self {
        Self::new()
    }
}

impl JobWriter {
    /// A job whose term numbers have two bytes.
    pub fn new() -> Self {
        Self::of(Format::TwoBytes)
    }

    /// A job of that format.
    pub fn of(format: Format) -> Self {
        let bytes = match format {
            Format::TwoBytes => Vec::new(),
            Format::FourBytes => FOUR_BYTES_RECORD.to_vec(),
        };
        JobWriter {
            format,
            nodes: vec![None, None],
            terms: HashMap::new(),
            numbers: HashMap::from([(TRUE, 0), (FALSE, 1)]),
            kept: vec![TRUE, FALSE],
            steps: 0,
            bytes,
        }
    }

    /// The bytes written so far.
    pub fn bytes(&self) -> &[u8] {
        &self.bytes
    }

    /// The kept terms in the order of their numbers.
    pub fn kept(&self) -> &[Term] {
        &self.kept
    }

    /// The number of terms kept.
    pub fn count(&self) -> usize {
        self.kept.len()
    }

    /// The number of steps and chains written: the place of the last one.
    pub fn steps(&self) -> usize {
        self.steps
    }

    /// Whether a term is kept.
    pub fn is_kept(&self, term: Term) -> bool {
        self.numbers.contains_key(&term)
    }

    /// The number of a kept term.
    pub fn number_of(&self, term: Term) -> Option<u32> {
        self.numbers.get(&term).copied()
    }

    pub fn finish(self) -> Vec<u8> {
        self.bytes
    }

    // Terms

    fn add(&mut self, kind: Kind, numbers: Vec<u16>, arguments: Vec<Term>, width: u16) -> Term {
        let node = Node { kind, numbers, arguments, width };
        if let Some(&term) = self.terms.get(&node) {
            return term;
        }
        let term = Term(self.nodes.len() as u32);
        let node = Rc::new(node);
        self.nodes.push(Some(node.clone()));
        self.terms.insert(node, term);
        term
    }

    /// The node of a term, none for `true` and `false`.
    pub fn node(&self, term: Term) -> Option<Rc<Node>> {
        self.nodes[term.0 as usize].clone()
    }

    /// The width of a term, 0 for a Bool.
    pub fn width(&self, term: Term) -> usize {
        self.nodes[term.0 as usize].as_ref().map_or(0, |node| usize::from(node.width))
    }

    pub fn literal(&self, value: bool) -> Term {
        if value { TRUE } else { FALSE }
    }

    pub fn bool_var(&mut self, name: u16) -> Term {
        self.add(Kind::BoolVar, vec![name], vec![], 0)
    }

    pub fn bv_var(&mut self, width: usize, name: u16) -> Term {
        self.add(Kind::BvVar, vec![width as u16, name], vec![], width as u16)
    }

    /// The value's low `width` bits as a constant.
    pub fn constant(&mut self, width: usize, value: u64) -> Term {
        let value = if width < 64 { value & ((1 << width) - 1) } else { value };
        let parts = (0..4).map(|k| (value >> (16 * k)) as u16);
        let numbers = std::iter::once(width as u16).chain(parts).collect();
        self.add(Kind::Constant, numbers, vec![], width as u16)
    }

    /// A term whose body holds nothing but arguments.
    pub fn term(&mut self, kind: Kind, arguments: &[Term]) -> Term {
        use Kind::*;
        let width = match kind {
            Not | And | Or | Xor | Equals | Ite | BvULt | BvSLt => 0,
            BvBbTerm => arguments.len(),
            BvComp => 1,
            BvConcat => arguments.iter().map(|&a| self.width(a)).sum(),
            _ => self.width(arguments[0]),
        };
        self.add(kind, vec![], arguments.to_vec(), width as u16)
    }

    pub fn bit(&mut self, index: usize, term: Term) -> Term {
        self.add(Kind::BvBitOf, vec![index as u16], vec![term], 0)
    }

    /// Bits `low` to `high` of a term.
    pub fn extract(&mut self, high: usize, low: usize, term: Term) -> Term {
        self.add(Kind::BvExtract, vec![high as u16, low as u16], vec![term], (high - low + 1) as u16)
    }

    pub fn sign_extend(&mut self, more: usize, term: Term) -> Term {
        let width = self.width(term) + more;
        self.add(Kind::SignExtend, vec![more as u16], vec![term], width as u16)
    }

    /// A zero extension, a rotation or a repetition by the amount `by`.
    pub fn moved(&mut self, kind: Kind, by: usize, term: Term) -> Term {
        let width = match kind {
            Kind::ZeroExtend => self.width(term) + by,
            Kind::Repeat => self.width(term) * by,
            _ => self.width(term),
        };
        self.add(kind, vec![by as u16], vec![term], width as u16)
    }

    // Records

    /// Writes a record: numbers of two bytes, and then numbers of terms.
    fn record(&mut self, kind: Kind, words: impl Iterator<Item = u16>, terms: &[u32]) {
        let start = self.bytes.len();
        self.bytes.extend([0, 0]);
        self.bytes.extend(kind.number().to_le_bytes());
        self.bytes.extend(words.flat_map(u16::to_le_bytes));
        self.bytes.extend(terms.iter().flat_map(|&number| self.format.bytes(number)));
        let length = (self.bytes.len() - start - 2) as u16;
        self.bytes[start..start + 2].copy_from_slice(&length.to_le_bytes());
    }

    /// Writes the records that a term still needs, and gives its number.
    pub fn number(&mut self, root: Term) -> u32 {
        let most = self.format.max_terms();
        let mut open = vec![root];
        while let Some(&term) = open.last() {
            let Some(node) = self.node(term).filter(|_| !self.numbers.contains_key(&term)) else {
                open.pop();
                continue;
            };
            let waiting = open.len();
            open.extend(node.arguments.iter().rev().filter(|a| !self.numbers.contains_key(a)));
            if open.len() == waiting {
                assert!(self.kept.len() < most, "a job keeps at most {most} terms");
                let arguments: Vec<u32> = node.arguments.iter().map(|a| self.numbers[a]).collect();
                self.record(node.kind, node.numbers.iter().copied(), &arguments);
                self.numbers.insert(term, self.kept.len() as u32);
                self.kept.push(term);
                open.pop();
            }
        }
        self.numbers[&root]
    }

    /// Writes a step.
    pub fn step(&mut self, rule: u16, literals: &[Term]) {
        let literals: Vec<u32> = literals.iter().map(|&l| self.number(l)).collect();
        self.record(Kind::Step, std::iter::once(rule), &literals);
        self.steps += 1;
    }

    /// Writes a step whose literal is `left = right`.
    pub fn claim(&mut self, rule: u16, left: Term, right: Term) {
        let literal = self.term(Kind::Equals, &[left, right]);
        self.step(rule, &[literal]);
    }

    /// Writes a chain: the literal from the literals of earlier steps, which are named by their places among the job's steps, from 1.
    pub fn chain(&mut self, rule: u16, premises: &[u16], literal: Term) {
        let literal = self.number(literal);
        let words = [rule, premises.len() as u16].into_iter().chain(premises.iter().copied());
        self.record(Kind::Chain, words, &[literal]);
        self.steps += 1;
    }

    /// Writes a back: only the first `count` terms stay.
    pub fn back(&mut self, count: usize) {
        self.record(Kind::Back, std::iter::empty(), &[count as u32]);
        for term in self.kept.drain(count.max(2).min(self.kept.len())..) {
            self.numbers.remove(&term);
        }
    }
}

// Jobs

/// The job of document 01's specimen: bvslt at width 1, one step, held, depth 2.
pub fn specimen() -> Vec<u8> {
    let mut job = JobWriter::new();
    let (x, y) = (job.bv_var(1, 0), job.bv_var(1, 1));
    job.number(x);
    job.number(y);
    let (x0, y0) = (job.bit(0, x), job.bit(0, y));
    job.number(x0);
    job.number(y0);
    let not_y0 = job.term(Kind::Not, &[y0]);
    let right = job.term(Kind::And, &[x0, not_y0]);
    job.number(right);
    let left = job.term(Kind::BvSLt, &[x, y]);
    job.claim(9, left, right);
    job.finish()
}

/// The one answer of [`specimen`], and that of the same job in four bytes.
pub const SPECIMEN_ANSWER: [u8; 10] = [8, 0, 200, 0, 9, 0, 0, 0, 2, 0];
pub const LONG_SPECIMEN_ANSWER: [u8; 12] = [10, 0, 200, 0, 9, 0, 0, 0, 2, 0, 0, 0];

/// How many bytes of a record's body are not numbers of terms: names, widths, values, indices, amounts, rules, premises. They are the first ones.
pub fn own_bytes(kind: Kind, body: &[u8]) -> usize {
    match kind {
        Kind::BoolVar | Kind::BvBitOf | Kind::SignExtend | Kind::Step => 2,
        Kind::ZeroExtend | Kind::RotateLeft | Kind::RotateRight | Kind::Repeat => 2,
        Kind::BvVar | Kind::BvExtract => 4,
        Kind::Constant => 10,
        Kind::Chain => body.get(2..4).map_or(0, |count| 4 + 2 * usize::from(u16::from_le_bytes([count[0], count[1]]))),
        _ => 0,
    }
}

/// A job whose term numbers have two bytes, with the same numbers in four. What is no whole record of a kind stays as it is.
pub fn in_four_bytes(job: &[u8]) -> Vec<u8> {
    let (mut long, mut rest) = (FOUR_BYTES_RECORD.to_vec(), job);
    while let Some((record, after)) = rest.split_first_chunk::<2>().and_then(|(length, body)| {
        let (record, after) = body.split_at_checked(usize::from(u16::from_le_bytes(*length)))?;
        Some((record, after)).filter(|_| record.len() >= 2)
    }) {
        long.extend(lengthened(record));
        rest = after;
    }
    long.extend(rest);
    long
}

/// A record, given without its length, with its numbers of terms in four bytes.
fn lengthened(record: &[u8]) -> Vec<u8> {
    let mut long = record.to_vec();
    if let Ok(kind) = Kind::try_from(u16::from_le_bytes([record[0], record[1]])) {
        let own = 2 + own_bytes(kind, &record[2..]).min(record.len() - 2);
        long.truncate(own);
        long.extend(record[own..].chunks(2).flat_map(|number| [number, &[0, 0]].concat()));
    }
    [&(long.len() as u16).to_le_bytes()[..], &long].concat()
}

/// One right claim over variables.
pub fn right_claim(rule: u16, width: usize) -> Vec<u8> {
    right_claims(rule, width, 1)
}

/// One right claim over variables, made `count` times: each time but the first costs the eight bytes of the step.
pub fn right_claims(rule: u16, width: usize, count: usize) -> Vec<u8> {
    let mut job = JobWriter::new();
    let left = job.left_side(rule, width);
    let right = job.circuit(rule, left);
    for _ in 0..count {
        job.claim(rule, left, right);
    }
    job.finish()
}

/// Right claims of the first so many rules in turn, at widths 1 to 16, with a back where 1,500 terms are kept; `size` bytes or a little more.
pub fn mixed(size: usize, rules: usize) -> Vec<u8> {
    let mut job = JobWriter::new();
    for k in 0.. {
        let (rule, width) = ((k % rules + 1) as u16, (k * 7 + k / rules) % 16 + 1);
        let left = job.left_side(rule, if is_quadratic(rule) { width.min(5) } else { width });
        let right = job.circuit(rule, left);
        job.claim(rule, left, right);
        if job.count() > 1_500 {
            job.back(2);
        }
        if job.bytes().len() >= size {
            break;
        }
    }
    job.finish()
}

/// A run of Nots, each of the one before, and no step.
pub fn many_terms(count: usize) -> Vec<u8> {
    many_terms_in(Format::TwoBytes, count)
}

/// The same in either format. It is written without a table of the terms, of which there may be a million.
pub fn many_terms_in(format: Format, count: usize) -> Vec<u8> {
    let mut job = JobWriter::of(format);
    for k in 0..count as u32 {
        // The first is that of `true`, the next that of term 2.
        job.record(Kind::Not, std::iter::empty(), &[if k == 0 { 0 } else { k + 1 }]);
    }
    job.finish()
}

/// The same run of Nots, and then so many repeats of them, each of the one that stands `step` places after the last, the first following the last.
pub fn many_repeats_in(format: Format, count: usize, repeats: usize, step: usize) -> Vec<u8> {
    let mut job = JobWriter::of(format);
    job.bytes = many_terms_in(format, count);
    for k in 0..repeats {
        let number = (k * step % count) as u32;
        job.record(Kind::Not, std::iter::empty(), &[if number == 0 { 0 } else { number + 1 }]);
    }
    job.finish()
}

/// A run of Nots, each of the one before, and a held step of rule 2 whose right side is the last of them as a bit-vector: so deep is it.
pub fn deep_claim(format: Format, depth: usize) -> Vec<u8> {
    let mut job = JobWriter::of(format);
    job.bytes = many_terms_in(format, depth);
    let last = if depth == 0 { 0 } else { depth as u32 + 1 };
    let bits = depth as u32 + 2;
    job.record(Kind::BvBbTerm, std::iter::empty(), &[last]);
    job.record(Kind::Equals, std::iter::empty(), &[bits, bits]);
    job.record(Kind::Step, std::iter::once(Rule::Var.number()), &[bits + 1]);
    job.finish()
}

/// A variable, a gate over it, and a back to before both, again and again.
pub fn many_backs(count: usize) -> Vec<u8> {
    let mut job = JobWriter::new();
    for k in 0..count {
        let x = job.bool_var(k as u16);
        let gate = job.term(Kind::And, &[x, TRUE]);
        job.number(gate);
        job.back(2);
    }
    job.finish()
}

/// One step, and a run of chains from it and from each other: symm, trans and cong.
pub fn many_chains(count: usize) -> Vec<u8> {
    let mut job = JobWriter::new();
    let x = job.bv_var(1, 0);
    let bits = job.circuit(2, x);
    job.claim(2, x, bits);
    let (not_x, not_bits) = (job.term(Kind::BvNot, &[x]), job.term(Kind::BvNot, &[bits]));
    let [forth, back, same, nots] =
        [(x, bits), (bits, x), (x, x), (not_x, not_bits)].map(|(a, b)| job.term(Kind::Equals, &[a, b]));
    let (mut forth_at, mut back_at) = (1, 1);
    for k in 0..count {
        // A premise is named in two bytes: what stands further on is nobody's premise.
        let place = u16::try_from(k + 2).ok();
        match k % 4 {
            0 => {
                job.chain(SYMM, &[forth_at], back);
                back_at = place.unwrap_or(back_at);
            }
            1 => job.chain(TRANS, &[forth_at, back_at], same),
            2 => job.chain(CONG, &[forth_at], nots),
            _ => {
                job.chain(SYMM, &[back_at], forth);
                forth_at = place.unwrap_or(forth_at);
            }
        }
    }
    job.finish()
}

impl JobWriter {
    /// The code of an accepted step of the rule: rules 21 and 22 are accepted for their form only, and so is 20 unless the shifted term is a
    /// BvBbTerm that ends in `false`.
    pub fn right_code(&self, rule: u16, left: Term) -> u16 {
        let ends_in_false = || {
            let shifted = self.node(left).and_then(|node| self.node(node.arguments[0]));
            shifted.is_some_and(|node| node.kind == Kind::BvBbTerm && node.arguments.last() == Some(&FALSE))
        };
        match rule {
            20 => u16::from(!ends_in_false()),
            21 | 22 => 1,
            _ => 0,
        }
    }
}

/// Writes one to three chains that are held, from a held step; each is added to the held ones.
fn random_chain(job: &mut JobWriter, held: &mut Vec<(u16, Term)>, rng: &mut Rng) {
    let &(premise, literal) = rng.pick(held);
    let sides = job.node(literal).expect("a held literal is an equality").arguments.clone();
    let (left, right) = (sides[0], sides[1]);
    let mut chain = |job: &mut JobWriter, rule, premises: &[u16], left, right| {
        let literal = job.term(Kind::Equals, &[left, right]);
        job.chain(rule, premises, literal);
        held.push((job.steps() as u16, literal));
        job.steps() as u16
    };
    match rng.below(4) {
        0 => drop(chain(job, SYMM, &[premise], right, left)),
        1 => {
            let turned = chain(job, SYMM, &[premise], right, left);
            chain(job, TRANS, &[premise, turned], left, left);
            chain(job, TRANS, &[turned, premise, turned], right, left);
        }
        2 => {
            let negation = if job.width(left) == 0 { Kind::Not } else { Kind::BvNot };
            let (not_left, not_right) = (job.term(negation, &[left]), job.term(negation, &[right]));
            chain(job, CONG, &[premise], not_left, not_right);
        }
        _ => {
            let (left, right) = (job.term(Kind::Equals, &[left, left]), job.term(Kind::Equals, &[right, right]));
            chain(job, CONG, &[premise, premise], left, right);
        }
    }
}

/// A random job in which every step is accepted, and the code that each step gets.
pub fn random_right(rng: &mut Rng) -> (Vec<u8>, Vec<u16>) {
    let mut job = JobWriter::new();
    let mut codes = Vec::new();
    // The held steps whose literal no back has dropped: their places and literals.
    let mut held: Vec<(u16, Term)> = Vec::new();
    for _ in 0..rng.range(1, 6) {
        let rule = rng.range(1, RULES.len()) as u16;
        let widest = match rule {
            _ if is_quadratic(rule) => 5,
            _ if rng.chance(20) => 64,
            _ => 10,
        };
        let width = rng.range(1, widest);
        let left = job.random_left_side(rule, width, rng);
        let right = job.circuit(rule, left);
        job.claim(rule, left, right);
        codes.push(job.right_code(rule, left));
        if codes.last() == Some(&0) {
            let literal = job.term(Kind::Equals, &[left, right]);
            held.push((job.steps() as u16, literal));
        }
        if !held.is_empty() && rng.chance(40) {
            random_chain(&mut job, &mut held, rng);
            codes.resize(job.steps(), 0);
        }
        if rng.chance(25) {
            let count = rng.range(2, job.count());
            job.back(count);
            held.retain(|&(_, literal)| job.is_kept(literal));
        }
    }
    (job.finish(), codes)
}

/// Changes, cuts or adds a few bytes, or changes a number in a record's body.
pub fn damage(job: &mut Vec<u8>, rng: &mut Rng) {
    if job.is_empty() {
        return job.push(rng.number() as u8);
    }
    let at = rng.below(job.len());
    match rng.below(8) {
        0 => job.truncate(at),
        1 => job.insert(at, rng.number() as u8),
        2 => drop(job.remove(at)),
        3 => job[at] ^= 1 << rng.below(8),
        4 => job[at] = rng.number() as u8,
        _ => change_number(job, rng),
    }
}

/// Makes a number in the body of some record a little smaller or larger.
fn change_number(job: &mut [u8], rng: &mut Rng) {
    let mut starts = Vec::new();
    let mut at = 0;
    while let Some(&[low, high]) = job.get(at..at + 2) {
        starts.push(at);
        at += 2 + usize::from(u16::from_le_bytes([low, high]));
    }
    let start = starts[rng.below(starts.len())];
    let length = usize::from(u16::from_le_bytes([job[start], job[start + 1]]));
    let place = start + 4 + 2 * rng.below(length / 2);
    if let Some(number) = job.get_mut(place..place + 2) {
        let changed = u16::from_le_bytes([number[0], number[1]]).wrapping_add(rng.range(1, 6) as u16).wrapping_sub(3);
        number.copy_from_slice(&changed.to_le_bytes());
    }
}

/// Random bytes, small numbers and zeros more often than others.
pub fn random_bytes(job: &mut Vec<u8>, rng: &mut Rng) {
    job.clear();
    for _ in 0..rng.below(200) {
        job.push(match rng.below(3) {
            0 => 0,
            1 => rng.below(12) as u8,
            _ => rng.number() as u8,
        });
    }
}
