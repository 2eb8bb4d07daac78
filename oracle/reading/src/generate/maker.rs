//! Writes a job from terms: the bytes, and the numbers of the terms that are kept.
use super::MANY;
use crate::format::{FOUR, Format, TWO};
use crate::kind::*;
use crate::pool::{Id, NO, Pool, YES};
use crate::rng::Rng;
use std::collections::HashMap;

pub struct Maker {
    pub rng: Rng,
    pub format: Format,
    pub pool: Pool,
    pub bytes: Vec<u8>,
    pub list: Vec<Id>,
    numbers: HashMap<Id, u32>,
    /// The most terms that were kept at any time.
    pub peak: usize,
    pub claims: Vec<Option<bool>>,
    /// The steps, as a chain sees them.
    pub premises: Vec<Premise>,
    /// On how many assignments the sides of an Equals differ, where its making says so.
    pub known: HashMap<Id, u64>,
}

/// A step's literal and its number, and whether a chain may name it, where that is known.
#[derive(Debug, Clone, Copy)]
pub struct Premise {
    pub literal: Id,
    pub number: u32,
    pub usable: Option<bool>,
}

impl Maker {
    pub fn new(seed: u64) -> Self {
        Maker {
            rng: Rng::new(seed),
            format: TWO,
            pool: Pool::default(),
            bytes: Vec::new(),
            list: vec![YES, NO],
            numbers: HashMap::from([(YES, 0), (NO, 1)]),
            peak: 2,
            claims: Vec::new(),
            premises: Vec::new(),
            known: HashMap::new(),
        }
    }

    pub fn record(&mut self, kind: u16, body: &[u8]) {
        self.bytes.extend((body.len() as u16 + 2).to_le_bytes());
        self.bytes.extend(kind.to_le_bytes());
        self.bytes.extend(body);
    }

    /// A job of the other format: to be called before all else.
    pub fn in_four_bytes(&mut self) {
        self.format = FOUR;
        self.record(FOUR_BYTES, &[]);
    }

    /// A record of two-byte numbers, and after them numbers of terms.
    pub fn words(&mut self, kind: u16, words: &[u16], places: &[u32]) {
        let words = words.iter().flat_map(|word| word.to_le_bytes());
        let body: Vec<u8> = words.chain(self.places(places)).collect();
        self.record(kind, &body);
    }

    /// The bytes of numbers of terms.
    fn places(&self, places: &[u32]) -> Vec<u8> {
        places.iter().flat_map(|&place| self.format.bytes(place.into())).collect()
    }

    /// The record of a term, with its arguments' numbers.
    pub fn term_record(&mut self, kind: u16, numbers: &[u64], args: &[u32]) {
        let mut body = Vec::new();
        for (k, number) in numbers.iter().enumerate() {
            let bytes = if kind == CONSTANT && k == 1 { 8 } else { 2 };
            body.extend(&number.to_le_bytes()[..bytes]);
        }
        body.extend(self.places(args));
        self.record(kind, &body);
    }

    /// Writes the record of a term whose arguments are kept.
    pub fn write(&mut self, id: Id) {
        let term = self.pool.term(id).clone();
        let args: Vec<u32> = term.args.iter().map(|a| self.numbers.get(a).copied().unwrap_or(0)).collect();
        self.term_record(term.kind, &term.numbers, &args);
        if !self.numbers.contains_key(&id) && self.list.len() < self.format.most_terms {
            self.numbers.insert(id, self.list.len() as u32);
            self.list.push(id);
            self.peak = self.peak.max(self.list.len());
        }
    }

    /// Writes what a term needs and is not kept, and gives its number.
    pub fn emit(&mut self, id: Id) -> u32 {
        let mut needed = std::collections::BTreeSet::new();
        let mut open = vec![id];
        while let Some(id) = open.pop() {
            if !self.numbers.contains_key(&id) && needed.insert(id) {
                open.extend(self.pool.args(id));
            }
        }
        needed.into_iter().for_each(|id| self.write(id));
        self.numbers.get(&id).copied().unwrap_or(0)
    }

    /// A step; `right` says whether its claim is right, where that is known.
    pub fn step(&mut self, rule: u16, literals: &[Id], right: Option<bool>) {
        let numbers: Vec<u32> = literals.iter().map(|&literal| self.emit(literal)).collect();
        self.words(STEP, &[rule], &numbers);
        // A right claim of rules 21 and 22 is form only, and one of rule 20 may be.
        let held = match rule {
            20 => right.filter(|&right| !right),
            21 | 22 => Some(false),
            _ => right,
        };
        self.answered(literals.first().copied().unwrap_or(YES), right, held);
    }

    /// A step of kind 104; places count from 1.
    pub fn chain(&mut self, rule: u16, places: &[u16], literal: Id, right: Option<bool>) {
        let number = self.emit(literal);
        self.words(CHAIN, &[&[rule, places.len() as u16], places].concat(), &[number]);
        self.answered(literal, right, right);
    }

    fn answered(&mut self, literal: Id, right: Option<bool>, usable: Option<bool>) {
        self.claims.push(right);
        self.premises.push(Premise { literal, number: self.numbers.get(&literal).copied().unwrap_or(0), usable });
    }

    pub fn back(&mut self, count: usize) {
        self.words(BACK, &[], &[count as u32]);
        for dropped in self.list.drain(count..) {
            self.numbers.remove(&dropped);
        }
        for premise in self.premises.iter_mut().filter(|premise| premise.number as usize >= count) {
            premise.usable = Some(false);
        }
    }

    /// A back now and then, to any count that is allowed.
    pub fn maybe_back(&mut self, percent: usize) {
        if self.rng.chance(percent) {
            // Where very many terms are kept, most often few of them go.
            let low = if self.rng.chance(80) { self.list.len().saturating_sub(MANY) } else { 0 };
            let count = self.rng.range(low.max(2), self.list.len());
            self.back(count);
        }
    }
}
