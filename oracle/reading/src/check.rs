//! What a batch of cases reaches, and a look at their answers that needs no other program: sides of held steps have equal values,
//! and the claims that the generator knows to be right or wrong are answered so.
use crate::chain::CONG;
use crate::format::{FOUR, Format, TWO};
use crate::generate::Case;
use crate::job::{RACK, Step, run};
use crate::kind::{BOOL, VARIABLE, shape, terms};
use crate::pool::{Id, Pool};
use crate::rng::Rng;
use crate::rule::{RULES, STEP_RULES};
use crate::value::fill;
use std::collections::{BTreeMap, BTreeSet};
use std::fmt::Write as _;

const CODES: [u16; 11] = [0, 1, 10, 11, 12, 13, 14, 15, 16, 17, 24];
const STOPS: [u16; 11] = [0, 2, 3, 4, 5, 6, 7, 8, 9, 18, 19];

/// Up to so many bits of variables every assignment is tried.
const FEW_BITS: usize = 10;

/// What jobs come to under limits, beside the rack's.
#[derive(Default)]
struct Limited {
    /// The same, with fewer terms than the limit, and with just as many.
    same: usize,
    full: usize,
    /// Code 7, and code 8, where the rack has none or another.
    wide: usize,
    many: usize,
    /// Code 8 behind a repeat.
    repeated: usize,
}

/// What jobs whose numbers have four bytes come to.
#[derive(Default)]
struct InFourBytes {
    jobs: usize,
    stops: BTreeSet<u16>,
    /// The rules that were answered, and whether they were accepted.
    answered: BTreeSet<(u16, bool)>,
    /// The greatest depth, and the most terms at a job's end.
    deepest: u64,
    most_terms: usize,
}

impl InFourBytes {
    /// What a batch should have and has not.
    fn missing(&self) -> Vec<String> {
        let stops = STOPS.iter().filter(|&&stop| stop != 2 && !self.stops.contains(&stop));
        let mut missing: Vec<String> = stops.map(|stop| format!("four bytes with stop {stop}")).collect();
        let answers = (1..=RULES.len() as u16).flat_map(|rule| [true, false].map(|accepted| (rule, accepted)));
        let absent = answers.filter(|answer| !self.answered.contains(answer));
        missing.extend(absent.map(|(rule, accepted)| format!("four bytes with rule {rule} accepted: {accepted}")));
        let many = [(self.deepest, "depth"), (self.most_terms as u64, "number of terms")];
        let few = many.iter().filter(|(most, _)| *most <= TWO.most_terms as u64);
        missing.extend(few.map(|(_, what)| format!("a {what} that two bytes do not hold")));
        missing.extend((self.most_terms < FOUR.most_terms).then(|| "all the terms that there may be".to_owned()));
        missing
    }
}

#[derive(Default)]
pub struct Summary {
    answers: BTreeMap<(u16, u16), usize>,
    stops: BTreeMap<u16, usize>,
    /// The kinds of the operations that a held cong joined.
    joined: BTreeSet<u16>,
    assignments: usize,
    exhaustive: usize,
    right: usize,
    wrong: usize,
    limits: Limited,
    four: InFourBytes,
    pub faults: Vec<String>,
}

impl Summary {
    pub fn look(&mut self, name: usize, case: &Case) {
        let (mut place, in_four) = (0, Format::of(&case.job) == FOUR);
        let out = run(&case.job, case.lent, |step| {
            if in_four {
                self.four.answered.insert((step.answer.rule, step.answer.code <= 1));
                self.four.deepest = self.four.deepest.max(step.answer.depth);
            }
            *self.answers.entry((step.answer.rule, step.answer.code)).or_default() += 1;
            if let Some(fault) = self.fault(&step, case.claims.get(place).copied().flatten(), name) {
                self.faults.push(format!("case {name} answer {} rule {}: {fault}", place + 1, step.answer.rule));
            }
            place += 1;
        });
        *self.stops.entry(out.stop).or_default() += 1;
        if in_four {
            self.four.jobs += 1;
            self.four.stops.insert(out.stop);
            self.four.most_terms = self.four.most_terms.max(out.terms);
        }
        self.limits(name, case);
    }

    /// A job that stops with neither 7 nor 8 under some limits is as under the rack's.
    fn limits(&mut self, name: usize, case: &Case) {
        if case.under.is_empty() {
            return;
        }
        let rack = case.limited(RACK);
        for &limits in &case.under {
            let found = case.limited(limits);
            let seen = &mut self.limits;
            match found.outcome.stop {
                _ if found == rack && found.outcome.terms == limits.terms as usize => seen.full += 1,
                _ if found == rack => seen.same += 1,
                7 => seen.wide += 1,
                8 if found.outcome.repeats > 0 => seen.repeated += 1,
                8 => seen.many += 1,
                stop => self.faults.push(format!("case {name} {limits:?}: stop {stop}, but not as under the rack's")),
            }
        }
    }

    fn fault(&mut self, step: &Step, claim: Option<bool>, name: usize) -> Option<&'static str> {
        let accepted = step.answer.code <= 1;
        self.right += usize::from(claim == Some(true));
        self.wrong += usize::from(claim == Some(false));
        if claim.is_some_and(|right| right != accepted) {
            return Some(if accepted { "a wrong claim is accepted" } else { "a right claim is refused" });
        }
        if step.answer.code == 0 && !self.sides_agree(step.pool, step.literals[0], name as u64) {
            return Some("the sides of a held step differ");
        }
        if step.answer.rule == CONG && step.answer.code == 0 {
            self.joined.insert(step.pool.kind(step.pool.args(step.literals[0])[0]));
        }
        None
    }

    /// Both sides on every assignment where there are few, else on some.
    fn sides_agree(&mut self, pool: &Pool, literal: Id, seed: u64) -> bool {
        let (left, right) = pool.sides(literal).expect("an accepted literal is an Equals");
        let below = pool.below(&[left, right]);
        let variables: Vec<Id> = below.iter().copied().filter(|&id| matches!(pool.kind(id), BOOL | VARIABLE)).collect();
        let bits: usize = variables.iter().map(|&id| pool.width(id).max(1)).sum();
        let mut values = vec![0; literal];
        let mut rng = Rng::new(seed);
        let every = bits <= FEW_BITS;
        self.exhaustive += usize::from(every);
        let tries = if every { 1 << bits } else { 16 };
        self.assignments += tries;
        (0..tries as u64).all(|digits| {
            let mut left_over = digits;
            let mut given = |id: Id| {
                if !every {
                    return rng.value();
                }
                let digit = left_over;
                left_over >>= pool.width(id).max(1);
                digit
            };
            fill(pool, &below, &mut values, &mut given);
            values[left] == values[right]
        })
    }

    /// The answers and stops that a batch should have and has not.
    pub fn missing(&self) -> Vec<String> {
        let answers = (1..=RULES.len() as u16).flat_map(|rule| CODES.map(|code| (rule, code)));
        let absent = answers.filter(|answer| can_end(answer.0, answer.1) && !self.answers.contains_key(answer));
        let mut missing: Vec<String> = absent.map(|(rule, code)| format!("rule {rule} code {code}")).collect();
        let stops = STOPS.iter().filter(|stop| !self.stops.contains_key(stop));
        missing.extend(stops.map(|stop| format!("stop {stop}")));
        let kinds = terms().filter(|&kind| shape(kind).is_some_and(|s| s.least > 0) && !self.joined.contains(&kind));
        missing.extend(kinds.map(|kind| format!("cong over kind {kind}")));
        let Limited { same, full, wide, many, repeated } = self.limits;
        let limits =
            [(same, "the same"), (full, "as many terms"), (wide, "7"), (many, "8"), (repeated, "8 after a repeat")];
        missing.extend(limits.iter().filter(|(n, _)| *n == 0).map(|(_, what)| format!("limits with {what}")));
        missing.extend(self.four.missing());
        missing
    }

    pub fn text(&self) -> String {
        let mut out = format!("{:<19}", "answers by code");
        for code in CODES {
            let _ = write!(out, "{code:>8}");
        }
        for (rule, name) in (1..).zip(RULES) {
            let _ = write!(out, "\n{rule:>2} {name:<16}");
            for code in CODES {
                let count = self.answers.get(&(rule, code)).map_or(".".to_owned(), usize::to_string);
                let _ = write!(out, "{count:>8}");
            }
        }
        let stops: Vec<String> = self.stops.iter().map(|(stop, count)| format!("{stop}: {count}")).collect();
        let _ = writeln!(out, "\njobs by stop code: {}", stops.join(", "));
        let _ = writeln!(out, "claims known to be right: {}, to be wrong: {}", self.right, self.wrong);
        let Limited { same, full, wide, many, repeated } = self.limits;
        let _ = writeln!(
            out,
            "under limits as under the rack's: {same}, with as many terms: {full}; 7: {wide}, 8: {many}, after a repeat: {repeated}"
        );
        let InFourBytes { jobs, deepest, most_terms, .. } = self.four;
        let _ = writeln!(out, "jobs in four bytes: {jobs}, of up to {most_terms} terms, depth up to {deepest}");
        let (tried, every) = (self.assignments, self.exhaustive);
        let _ = writeln!(out, "assignments tried on held steps: {tried}, on {every} steps all there are");
        let _ = writeln!(
            out,
            "not reached: {}",
            if self.missing().is_empty() { "nothing".to_owned() } else { self.missing().join(", ") }
        );
        let _ = writeln!(out, "faults: {}", self.faults.len());
        self.faults.iter().take(20).for_each(|fault| out += &format!("FAULT {fault}\n"));
        out
    }
}

/// Whether a rule's step can have a code.
fn can_end(rule: u16, code: u16) -> bool {
    if rule > STEP_RULES {
        return matches!(code, 0 | 11 | 24);
    }
    match code {
        0 => !matches!(rule, 21 | 22),
        1 => matches!(rule, 20..=22),
        10 | 11 => true,
        12 => matches!(rule, 2 | 13),
        13..=15 => rule == 1,
        16 => rule != 1,
        17 => rule == 23,
        _ => false,
    }
}
