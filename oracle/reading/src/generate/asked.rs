//! Jobs with questions about their final list.
use super::{Case, IN_FOUR_BYTES, MANY, Maker, lend_around};
use crate::job::{Final, run_whole};
use crate::kind::*;
use crate::partial::is_of_bits;
use crate::pool::{Id, NO, YES};
use crate::question::{Answer, CELL, MOST_WIDTH, Question, Standing};
use std::collections::HashSet;

/// The evaluations that one question may cost; one case in so many may cost more.
const CHEAP: usize = 1 << 19;
const DEAR: usize = 1 << 24;
const SELDOM: usize = 40;

/// The first so many cases have numbers that two bytes do not hold.
const LONG: usize = 4;

/// So many of the last terms are asked about where there are very many.
const LAST: usize = 100;

/// A question, its answer, and what is known of it without the answer.
pub struct Asked {
    pub question: Question,
    pub answer: Answer,
    /// On how many assignments the asked Equals is false, by the making of the terms or because a step is held.
    pub known: Option<u64>,
    /// The kinds of what stands in the asked term, its own the last, and the evaluations that the answer takes.
    pub kinds: Vec<u16>,
    pub evaluations: usize,
    /// Where derived bits are not true, or not kept where one more input is known.
    pub untrue: Option<String>,
}

/// Case number `i` of a seed: the kinds in their turn.
pub fn asked_case(seed: u64, i: usize) -> Case {
    let mut maker = Maker::new(seed.wrapping_mul(1_000_033).wrapping_add(i as u64));
    let kinds: Vec<u16> = terms().filter(|&kind| shape(kind).is_some_and(|shape| shape.least > 0)).collect();
    let dear = i % SELDOM == SELDOM - 1;
    if i < LONG || maker.rng.chance(IN_FOUR_BYTES) {
        maker.in_four_bytes();
    }
    if i < LONG {
        maker.past_two_bytes();
    }
    match maker.rng.below(20) {
        0 => maker.mixture(),
        1..=4 => maker.gates(),
        _ => maker.equalities(kinds[i % kinds.len()], dear),
    }
    if maker.rng.chance(6) {
        maker.bad_record();
    }
    let mut case = Case::of(&mut maker);
    if maker.rng.chance(6) {
        lend_around(&mut maker, &mut case);
    } else {
        case.lent.work += maker.rng.below(40);
        case.lent.room += maker.rng.below(40);
    }
    let mut held = HashSet::new();
    let (outcome, store) = run_whole(&case.job, case.lent, |step| {
        if step.answer.code == 0 {
            held.insert(step.literals[0]);
        }
    });
    let most = if dear { DEAR } else { CHEAP };
    let questions = maker.questions(&store);
    case.asked = questions.into_iter().filter_map(|q| maker.ask(q, outcome.stop, &store, &held, most)).collect();
    case
}

impl Maker {
    /// Questions about a final list: its equalities, its narrow terms, its terms of bits, other numbers, and lent memory around what is needed.
    fn questions(&mut self, store: &Final) -> Vec<Question> {
        let kept = store.list.len();
        // Of very many terms the last ones are what the job is about.
        let first = if kept > MANY { kept - LAST } else { 0 };
        let places = |asked: &dyn Fn(Id) -> bool| (first..kept).filter(|&place| asked(store.list[place])).collect();
        let equals: Vec<usize> = places(&|id| store.pool.kind(id) == EQUALS);
        let narrow: Vec<usize> = places(&|id| store.pool.width(id) <= MOST_WIDTH);
        let all_of_bits = |id: Id| store.pool.below(&[id]).iter().all(|&id| is_of_bits(&store.pool, id));
        let of_bits: Vec<usize> = places(&all_of_bits);
        // The last equality is most often what the job is about.
        let last = equals.last().map(|&place| place as u32);
        let sweep = Question::Sweep { number: last.unwrap_or(0), values: self.buffer(CELL * kept) };
        let mut questions = vec![sweep];
        // The later ones are over more of the others.
        let of_bits = &of_bits[if self.rng.chance(80) { of_bits.len() / 2 } else { 0 }..];
        // Where gates are much of the job, most questions are about their bits.
        let gates = of_bits.len() > (kept - first) / 4;
        for _ in 0..if gates || first > 0 { self.rng.range(6, 14) } else { self.rng.range(2, 6) } {
            let sort = if gates { self.rng.pick(&[0, 1, 2, 2, 2, 2]) } else { self.rng.below(3) };
            let fitting = [&equals[..], &narrow, of_bits][sort];
            let any = self.rng.chance(15) || fitting.is_empty();
            let number = if any { self.any_number(kept) } else { self.rng.pick(fitting) as u32 };
            let values = self.buffer(CELL * kept);
            let width = store.list.get(number as usize).map_or(0, |&id| store.pool.width(id));
            questions.push(match sort {
                0 => Question::Sweep { number, values },
                1 => Question::Count { number, values, run: self.run_around(width) },
                _ => {
                    let bits = store.list.get(number as usize).map_or(0, |&id| Standing::of(store, id).bits);
                    Question::Derive { number, values, room: self.room_around(width), inputs: self.some_inputs(bits) }
                }
            });
        }
        questions
    }

    /// A number of counts around what a width needs.
    fn run_around(&mut self, width: usize) -> usize {
        let need = 1 << width.clamp(1, MOST_WIDTH + 1);
        match self.rng.below(8) {
            0 => need - 1,
            1 => self.rng.below(need),
            2..=4 => need,
            _ => need + self.rng.range(1, 20),
        }
    }

    /// A number of any size, also one whose low bytes name a kept term.
    fn any_number(&mut self, kept: usize) -> u32 {
        let some = self.rng.below(kept) as u32;
        let (yes, no, kept) = (YES as u32, NO as u32, kept as u32);
        self.rng.pick(&[
            yes,
            no,
            some,
            kept - 1,
            kept,
            kept + 1,
            some + 65_536,
            some + (1 << 24),
            some + (1 << 31),
            u32::MAX,
        ])
    }

    /// A length around what is needed.
    fn buffer(&mut self, need: usize) -> usize {
        match self.rng.below(10) {
            0 => need - 1,
            1 => need - 2 * CELL,
            2 => self.rng.below(need),
            3..=5 => need,
            6 => need + 1,
            _ => need + self.rng.below(200),
        }
    }

    /// The question with its answer; None where that would cost too much.
    fn ask(&mut self, question: Question, stop: u16, store: &Final, held: &HashSet<Id>, most: usize) -> Option<Asked> {
        let Some((root, standing)) = question.asked(stop, store) else {
            let answer = question.answer(stop, store);
            return Some(Asked { question, answer, known: None, kinds: vec![], evaluations: 0, untrue: None });
        };
        let evaluations = question.cost(&standing);
        if evaluations > most {
            return None;
        }
        let made = self.list.get(question.number() as usize).and_then(|id| self.known.get(id)).copied();
        let known = if held.contains(&root) { Some(0) } else { made };
        let kinds = standing.below.iter().map(|&id| store.pool.kind(id)).collect();
        let answer = question.answer(stop, store);
        let untrue = match (&question, &answer) {
            (Question::Derive { inputs, .. }, Answer::Derived { code: 0, bits }) => {
                self.untrue(store, root, &standing, inputs, bits)
            }
            _ => None,
        };
        Some(Asked { question, answer, known, kinds, evaluations, untrue })
    }
}
