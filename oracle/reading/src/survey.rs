//! What a batch of questions reaches, and a look at the answers that needs no other program: those that are known by the making of the
//! terms, or because a step is held, are given.
use crate::generate::{Asked, Case};
use crate::kind::*;
use crate::partial::OPEN;
use crate::question::{Answer, MOST_BITS, MOST_WIDTH, Question};
use std::collections::{BTreeMap, BTreeSet};
use std::fmt::Write as _;

#[derive(Default)]
pub struct Survey {
    cases: usize,
    /// The answers by code.
    sweeps: BTreeMap<u16, usize>,
    counts: BTreeMap<u16, usize>,
    derivings: BTreeMap<u16, usize>,
    /// The kinds in swept equalities whose sides differ nowhere, and somewhere.
    same: BTreeSet<u16>,
    apart: BTreeSet<u16>,
    /// The kinds in counted terms, and the numbers of their values.
    counted: BTreeSet<u16>,
    sizes: BTreeSet<usize>,
    /// The kinds of terms whose bits were derived where some input is not known, each with a bit that it had.
    derived: BTreeSet<(u16, u8)>,
    /// Those with more inputs than are swept, and bits that are known though an input is not.
    many_inputs: usize,
    settled: usize,
    /// Sweeps whose sides differ on one assignment of more.
    once: usize,
    /// Counted terms with a value that no assignment leads to.
    gaps: usize,
    /// The accepted questions about terms whose numbers two bytes do not hold.
    great: BTreeMap<&'static str, usize>,
    assignments: u64,
    evaluations: usize,
    known: usize,
    pub faults: Vec<String>,
}

impl Survey {
    pub fn look(&mut self, name: usize, case: &Case) {
        self.cases += 1;
        for asked in &case.asked {
            let fault = match &asked.answer {
                Answer::Swept { code: 0, assignments, differing } => self.swept(asked, *assignments, *differing),
                Answer::Counted { code: 0, counts } => self.counted(asked, counts),
                Answer::Derived { code: 0, bits } => self.derived(asked, bits),
                _ => None,
            };
            let (codes, code, sort) = match asked.answer {
                Answer::Swept { code, .. } => (&mut self.sweeps, code, "sweeps"),
                Answer::Counted { code, .. } => (&mut self.counts, code, "counts"),
                Answer::Derived { code, .. } => (&mut self.derivings, code, "bits"),
            };
            *codes.entry(code).or_default() += 1;
            if code == 0 && asked.question.number() > u32::from(u16::MAX) {
                *self.great.entry(sort).or_default() += 1;
            }
            self.known += usize::from(code == 0 && asked.known.is_some());
            self.evaluations += if code == 0 { asked.evaluations } else { 0 };
            if let Some(fault) = fault {
                self.faults.push(format!("case {name} term {}: {fault}", asked.question.number()));
            }
        }
    }

    fn swept(&mut self, asked: &Asked, assignments: u64, differing: u64) -> Option<String> {
        let kinds = if differing == 0 { &mut self.same } else { &mut self.apart };
        kinds.extend(&asked.kinds);
        self.once += usize::from(differing == 1 && assignments > 1);
        self.assignments += assignments;
        let wrong = asked.known.is_some_and(|known| known != differing);
        wrong.then(|| format!("{differing} differ, not {:?}", asked.known))
    }

    fn counted(&mut self, asked: &Asked, counts: &[u64]) -> Option<String> {
        self.counted.extend(&asked.kinds);
        self.sizes.insert(counts.len());
        self.gaps += usize::from(counts.contains(&0));
        let all: u64 = counts.iter().sum();
        self.assignments += all;
        if all as usize * asked.kinds.len() != asked.evaluations {
            return Some(format!("the counts sum to {all}"));
        }
        let wrong = asked.known.is_some_and(|known| known != counts[0]);
        wrong.then(|| format!("{} are false, not {:?}", counts[0], asked.known))
    }

    fn derived(&mut self, asked: &Asked, bits: &[u8]) -> Option<String> {
        let Question::Derive { inputs, .. } = &asked.question else {
            return Some("an answer to another question".to_owned());
        };
        self.many_inputs += usize::from(inputs.len() > MOST_BITS);
        if let (true, Some(&kind)) = (inputs.contains(&OPEN), asked.kinds.last()) {
            self.derived.extend(bits.iter().map(|&bit| (kind, bit)));
            self.settled += bits.iter().filter(|&&bit| bit != OPEN).count();
        }
        asked.untrue.clone()
    }

    /// What a batch should have and has not.
    pub fn missing(&self) -> Vec<String> {
        let mut missing = Vec::new();
        missing.extend(lacking(&self.sweeps, &[0, 20, 21]).map(|code| format!("sweep with code {code}")));
        missing.extend(lacking(&self.counts, &[0, 20, 21, 22]).map(|code| format!("count with code {code}")));
        missing.extend(lacking(&self.derivings, &[0, 20, 21, 23]).map(|code| format!("bits with code {code}")));
        for kind in [VARIABLE, NOT, AND, OR, XOR, EQUALS, ITE, BIT_OF, BB_TERM] {
            let bits = (0..=OPEN).filter(|&bit| !self.derived.contains(&(kind, bit)));
            missing.extend(bits.map(|bit| format!("kind {kind} with bit {bit} where some input is not known")));
        }
        missing.extend((self.many_inputs == 0).then(|| "bits of more inputs than are swept".to_owned()));
        missing.extend(kinds_lacking(&self.same, "without a difference"));
        missing.extend(kinds_lacking(&self.apart, "with a difference"));
        missing.extend(kinds_lacking(&self.counted, "counted"));
        let widths = (1..=MOST_WIDTH).filter(|&width| !self.sizes.contains(&(1 << width)));
        missing.extend(widths.map(|width| format!("counts of width {width}")));
        let few = ["sweeps", "counts", "bits"].into_iter().filter(|sort| !self.great.contains_key(sort));
        missing.extend(few.map(|sort| format!("{sort} of a number that two bytes do not hold")));
        missing.extend((self.once == 0).then(|| "a difference on just one assignment".to_owned()));
        missing.extend((self.gaps == 0).then(|| "a value that never occurs".to_owned()));
        missing
    }

    pub fn text(&self) -> String {
        let by_code = |codes: &BTreeMap<u16, usize>| {
            codes.iter().map(|(code, count)| format!("{code}: {count}")).collect::<Vec<_>>().join(", ")
        };
        let mut out = format!("jobs: {}, sweeps by code: {}\n", self.cases, by_code(&self.sweeps));
        let _ =
            writeln!(out, "counts by code: {}, with a value that never occurs: {}", by_code(&self.counts), self.gaps);
        let _ = writeln!(
            out,
            "derived bits by code: {}, known where some input is not: {}",
            by_code(&self.derivings),
            self.settled
        );
        let _ = writeln!(out, "assignments: {}, evaluations: {}", self.assignments, self.evaluations);
        let _ = writeln!(out, "differing on just one assignment: {}, known beforehand: {}", self.once, self.known);
        let great: Vec<String> = self.great.iter().map(|(sort, count)| format!("{sort} {count}")).collect();
        let _ = writeln!(out, "about numbers that two bytes do not hold: {}", great.join(", "));
        let missing = self.missing();
        let _ = writeln!(
            out,
            "not reached: {}",
            if missing.is_empty() { "nothing".to_owned() } else { missing.join(", ") }
        );
        let _ = writeln!(out, "faults: {}", self.faults.len());
        self.faults.iter().take(20).for_each(|fault| out += &format!("FAULT {fault}\n"));
        out
    }
}

fn lacking(found: &BTreeMap<u16, usize>, codes: &[u16]) -> impl Iterator<Item = u16> {
    codes.iter().copied().filter(|code| !found.contains_key(code))
}

fn kinds_lacking(found: &BTreeSet<u16>, how: &str) -> impl Iterator<Item = String> {
    terms().filter(|kind| !found.contains(kind)).map(move |kind| format!("kind {kind} {how}"))
}
