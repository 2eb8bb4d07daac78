//! A job: records in their order, the plain list of terms, the codes, the answers.
use crate::chain::{CONG, SYMM, joins};
use crate::format::{FOUR, Format};
use crate::kind::{BACK, CHAIN, CONSTANT, FOUR_BYTES, STEP, shape};
use crate::limited::Limited;
use crate::pool::{Id, NO, Pool, YES};
use crate::rule::{STEP_RULES, verdict};
use std::collections::HashSet;

pub const LONGEST: usize = 16_777_216;

/// The greatest width, and the most terms with `true` and `false`, as a caller states them; above the rack's they are the rack's.
#[derive(Debug, Clone, Copy, PartialEq, Eq)]
pub struct Limits {
    pub width: u32,
    pub terms: u32,
}

/// The rack's, of which a job has what its format allows.
pub const RACK: Limits = Limits { width: 64, terms: FOUR.most_terms as u32 };

/// The bytes of work memory and of answers that are lent.
#[derive(Debug, Clone, Copy)]
pub struct Lent {
    pub work: usize,
    pub room: usize,
}

#[derive(Debug, Clone, Copy, PartialEq, Eq)]
pub struct Outcome {
    pub stop: u16,
    pub records: usize,
    pub answers: usize,
    pub terms: usize,
    /// Records of terms that were on the list already.
    pub repeats: usize,
}

#[derive(Debug, Clone, Copy, PartialEq, Eq)]
pub struct Answer {
    pub rule: u16,
    pub code: u16,
    pub depth: u64,
}

/// An answered step, with the terms that its literals name.
pub struct Step<'a> {
    pub pool: &'a Pool,
    pub literals: &'a [Id],
    pub answer: Answer,
}

/// What a chain asks of an earlier step: whether it was held, its literal and that one's number, and whether a back has dropped
/// the literal since.
struct Answered {
    held: bool,
    literal: Option<Id>,
    number: usize,
    dropped: bool,
}

struct Run<'a> {
    format: Format,
    pool: Pool,
    list: Vec<Id>,
    /// The records of the list, from place 2 on, in order and as a set.
    records: Vec<&'a [u8]>,
    kept: HashSet<&'a [u8]>,
    steps: Vec<Answered>,
    repeats: usize,
    lent: Lent,
    limits: Limits,
}

/// The list as a job left it: a term's place is its number.
pub struct Final {
    pub pool: Pool,
    pub list: Vec<Id>,
}

/// Runs a job; `seen` gets each answered step.
pub fn run(job: &[u8], lent: Lent, seen: impl FnMut(Step)) -> Outcome {
    run_whole(job, lent, seen).0
}

/// The same with the list at the end.
pub fn run_whole(job: &[u8], lent: Lent, seen: impl FnMut(Step)) -> (Outcome, Final) {
    run_within(job, lent, RACK, seen)
}

/// The same under limits.
pub fn run_within(job: &[u8], lent: Lent, limits: Limits, mut seen: impl FnMut(Step)) -> (Outcome, Final) {
    let mut outcome = Outcome { stop: 0, records: 0, answers: 0, terms: 2, repeats: 0 };
    let (records, kept, steps) = Default::default();
    let (format, pool, list) = (Format::of(job), Pool::default(), vec![YES, NO]);
    let mut run = Run { format, pool, list, records, kept, steps, repeats: 0, lent, limits };
    let mut rest = job;
    if job.len() > LONGEST {
        outcome.stop = 2;
        rest = &[];
    }
    while !rest.is_empty() {
        let first = outcome.records == 0;
        match cut(rest).and_then(|(record, after)| run.record(record, first, &mut seen).map(|()| after)) {
            Ok(after) => rest = after,
            Err(code) => {
                outcome.stop = code;
                break;
            }
        }
        outcome.records += 1;
    }
    outcome.answers = run.steps.len();
    outcome.terms = run.list.len();
    outcome.repeats = run.repeats;
    (outcome, Final { pool: run.pool, list: run.list })
}

fn word(bytes: &[u8]) -> u16 {
    u16::from_le_bytes([bytes[0], bytes[1]])
}

fn words(bytes: &[u8]) -> Vec<usize> {
    bytes.chunks(2).map(|pair| usize::from(word(pair))).collect()
}

/// The first record without its length, and what follows it.
fn cut(rest: &[u8]) -> Result<(&[u8], &[u8]), u16> {
    if rest.len() < 2 {
        return Err(3);
    }
    let length = usize::from(word(rest));
    if length < 2 || length > rest.len() - 2 { Err(3) } else { Ok(rest[2..].split_at(length)) }
}

impl<'a> Run<'a> {
    fn record(&mut self, record: &'a [u8], first: bool, seen: &mut impl FnMut(Step)) -> Result<(), u16> {
        match word(record) {
            // It has said how long numbers are; elsewhere it is no kind of record.
            FOUR_BYTES if first => {
                if record.len() == 2 {
                    Ok(())
                } else {
                    Err(5)
                }
            }
            STEP => self.step(&record[2..], seen),
            BACK => self.back(&record[2..]),
            CHAIN => self.chain(&record[2..], seen),
            _ => self.term(record),
        }
    }

    fn term(&mut self, record: &'a [u8]) -> Result<(), u16> {
        let (kind, body) = (word(record), &record[2..]);
        let shape = shape(kind).ok_or(4u16)?;
        let fits = |count: usize| body.len() == shape.own + self.format.number * count;
        if !(shape.least..=shape.most).any(fits) {
            return Err(5);
        }
        let (own, args) = body.split_at(shape.own);
        let args = self.named(&self.format.numbers(args))?;
        let id = self.pool.try_add(kind, &own_numbers(kind, own), &args).ok_or(7u16)?;
        // Whatever made it: a variable, a constant, bits, an operation. A Bool has no width.
        if self.pool.width(id) > self.limits.width as usize {
            return Err(7);
        }
        if self.kept.contains(record) {
            self.repeats += 1;
            return Ok(());
        }
        // `true` and `false` are on the list, but need no memory.
        let most_terms = self.format.most_terms.min(self.limits.terms as usize);
        if self.list.len() >= most_terms || (self.records.len() + 1) * self.format.row > self.lent.work {
            return Err(8);
        }
        self.list.push(id);
        self.records.push(record);
        self.kept.insert(record);
        Ok(())
    }

    /// The terms at some places of the list.
    fn named(&self, places: &[usize]) -> Result<Vec<Id>, u16> {
        places.iter().map(|&place| self.list.get(place).copied().ok_or(6)).collect()
    }

    fn step(&mut self, body: &[u8], seen: &mut impl FnMut(Step)) -> Result<(), u16> {
        if !(0..=64).any(|count| body.len() == 2 + self.format.number * count) {
            return Err(5);
        }
        let numbers = self.format.numbers(&body[2..]);
        let literals = self.named(&numbers)?;
        let rule = word(body);
        if !(1..=STEP_RULES).contains(&rule) {
            return Err(9);
        }
        self.room_left()?;
        let code = verdict(&mut self.pool, rule, &literals);
        self.answer(rule, code, &numbers, seen);
        Ok(())
    }

    /// A rule, a count of premises, so many premises, and a literal.
    fn chain(&mut self, body: &[u8], seen: &mut impl FnMut(Step)) -> Result<(), u16> {
        let count = if body.len() < 4 { 0 } else { usize::from(word(&body[2..])) };
        if !(1..=64).contains(&count) || body.len() != 4 + 2 * count + self.format.number {
            return Err(5);
        }
        let (premises, literal) = body[4..].split_at(2 * count);
        let (premises, literal) = (words(premises), self.format.numbers(literal));
        let conclusion = self.named(&literal)?[0];
        let rule = word(body);
        if !(SYMM..=CONG).contains(&rule) {
            return Err(9);
        }
        self.room_left()?;
        let premises: Option<Vec<Id>> = premises.iter().map(|&place| self.premise(place)).collect();
        let code = match premises {
            None => 24,
            Some(premises) if joins(&self.pool, rule, &premises, conclusion) => 0,
            Some(_) => 11,
        };
        self.answer(rule, code, &literal, seen);
        Ok(())
    }

    /// The literal of the step at a place, from 1, if it can be a premise now.
    fn premise(&self, place: usize) -> Option<Id> {
        let step = self.steps.get(place.checked_sub(1)?)?;
        if step.held && !step.dropped { step.literal } else { None }
    }

    fn room_left(&self) -> Result<(), u16> {
        if (self.steps.len() + 1) * self.format.answer > self.lent.room { Err(19) } else { Ok(()) }
    }

    fn answer(&mut self, rule: u16, code: u16, numbers: &[usize], seen: &mut impl FnMut(Step)) {
        let literals: Vec<Id> = numbers.iter().map(|&number| self.list[number]).collect();
        let accepted = (code <= 1).then(|| self.pool.sides(literals[0])).flatten();
        let depth = accepted.map_or(0, |(_, right)| self.pool.depth(right));
        let answer = Answer { rule, code, depth };
        let number = numbers.first().copied().unwrap_or(0);
        self.steps.push(Answered { held: code == 0, literal: literals.first().copied(), number, dropped: false });
        seen(Step { pool: &self.pool, literals: &literals, answer });
    }

    fn back(&mut self, body: &[u8]) -> Result<(), u16> {
        if body.len() != self.format.number {
            return Err(5);
        }
        let count = self.format.numbers(body)[0];
        if count < 2 || count > self.list.len() {
            return Err(18);
        }
        self.list.truncate(count);
        for dropped in self.records.drain(count - 2..) {
            self.kept.remove(dropped);
        }
        for step in self.steps.iter_mut().filter(|step| step.number >= count) {
            step.dropped = true;
        }
        Ok(())
    }
}

/// The numbers before the arguments: two bytes each, a constant's value eight.
fn own_numbers(kind: u16, own: &[u8]) -> Vec<u64> {
    if kind == CONSTANT {
        let value = own[2..].try_into().expect("eight bytes");
        return vec![u64::from(word(own)), u64::from_le_bytes(value)];
    }
    words(own).iter().map(|&n| n as u64).collect()
}

/// The text of an .expect file, as far as it is about the job.
pub fn expect_text(job: &[u8], lent: Lent) -> String {
    let Limited { outcome, bytes } = Limited::of(job, lent, RACK);
    let Outcome { stop, records, answers, terms, repeats } = outcome;
    let Lent { work, room } = lent;
    format!(
        "work {work}\nroom {room}\nstop {stop}\nrecords {records}\nanswers {answers}\nterms {terms}\nrepeats {repeats}\nbytes {bytes}\n"
    )
}

/// What bbcheck prints for a job.
pub fn bbcheck(job: &[u8]) -> String {
    const LIMIT: usize = 65_536;
    if job.len() > LIMIT {
        return "too long\n".to_owned();
    }
    let mut lines = String::new();
    let mut place = 0;
    let out = run(job, Lent { work: LIMIT, room: LIMIT }, |step| {
        place += 1;
        let Answer { rule, code, depth } = step.answer;
        lines += &format!("{place} {rule} {code} {depth}\n");
    });
    format!("steps {} terms {} repeats {} stop {}\n{lines}", out.answers, out.terms, out.repeats, out.stop)
}
