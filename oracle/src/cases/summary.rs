//! What the cases reach, and a spot check of accepted steps on random assignments.
use super::Case;
use crate::job;
use crate::rng::Rng;
use crate::sem;
use std::collections::BTreeMap;
use std::fmt::Write as _;

#[derive(Default)]
pub struct Summary {
    pub answers: BTreeMap<(u16, u16), usize>,
    pub stops: BTreeMap<u16, usize>,
    /// Form-only steps whose sides differ on an assignment tried, per rule.
    pub form_only_differ: BTreeMap<u16, usize>,
    /// Held steps whose sides differ: must stay empty.
    pub held_differ: Vec<String>,
    pub depth_broken: Vec<String>,
    pub tried: usize,
}

impl Summary {
    /// Runs a case once more, looking at each answered step.
    pub fn look(&mut self, i: usize, c: &Case) {
        let mut rng = Rng::new(i as u64);
        let mut k = 0;
        let out = job::run_traced(&c.job, c.work, c.room, |s| {
            k += 1;
            *self.answers.entry((s.rule, s.code)).or_default() += 1;
            if s.code > 1 {
                return;
            }
            let terms = &s.list.terms;
            let record = &terms[s.literals[0]].record;
            let side = |at: usize| usize::from(u16::from_le_bytes([record[at], record[at + 1]]));
            let (l, r) = (side(2), side(4));
            self.depths(i, k, &s, l);
            let tries = if terms.len() > 3_000 { 4 } else { 16 };
            let mut differ = false;
            for _ in 0..tries {
                let salt = rng.number();
                let style = rng.below(4);
                let var = |bytes: &[u8]| {
                    let mut h = Rng::new(bytes.iter().fold(salt, |a, &b| a.wrapping_mul(257).wrapping_add(b.into())));
                    match style {
                        0 => h.number(),
                        1 => h.number() >> h.below(64),
                        2 => *h.clone().pick(&[0, 1, u64::MAX, h.0 % 8]),
                        _ => u64::MAX << h.below(64),
                    }
                };
                self.tried += 1;
                differ |= sem::eval(terms, l, &var) != sem::eval(terms, r, &var);
            }
            if differ && s.code == 0 {
                self.held_differ.push(format!("case {} step {} rule {}", i, k, s.rule));
            }
            if differ && s.code == 1 {
                *self.form_only_differ.entry(s.rule).or_default() += 1;
            }
        });
        *self.stops.entry(out.stop).or_default() += 1;
    }

    /// Document 01's bound 2 x n + 2, and the depth that is found in fact: 2 x n, and one more for neg.
    fn depths(&mut self, i: usize, k: usize, s: &job::Step, left: usize) {
        let terms = &s.list.terms;
        let r = &terms[left].record;
        let args: Vec<usize> = r[2..].chunks_exact(2).map(|c| usize::from(u16::from_le_bytes([c[0], c[1]]))).collect();
        let plain = |a: &usize| terms[*a].record.first() != Some(&31);
        let ok = matches!(s.rule, 8 | 9 | 12) || (s.rule == 10 && args.len() == 2);
        if !ok || !args.iter().all(plain) {
            return;
        }
        let job::Sort::Bv(n) = terms[args[0]].sort else { return };
        let exact = if s.rule == 12 { 2 * n + 1 } else { 2 * n };
        if u32::from(s.depth) > 2 * n + 2 || u32::from(s.depth) != exact {
            self.depth_broken.push(format!("case {} step {} rule {} width {} depth {}", i, k, s.rule, n, s.depth));
        }
    }

    pub fn text(&self) -> String {
        let codes = [0, 1, 10, 11, 12, 13, 14, 15, 16, 17];
        let mut out = String::from("answers by rule and code\nrule             ");
        for c in codes {
            let _ = write!(out, "{:>7}", c);
        }
        out.push('\n');
        for rule in 1..=23u16 {
            let name = crate::checker::rules::RULES[usize::from(rule) - 1].0;
            let _ = write!(out, "{:>2} {:<14}", rule, name);
            for c in codes {
                let n = self.answers.get(&(rule, c)).copied().unwrap_or(0);
                let _ = write!(out, "{:>7}", if n == 0 { ".".to_owned() } else { n.to_string() });
            }
            out.push('\n');
        }
        out.push_str("jobs by stop code\n");
        for (c, n) in &self.stops {
            let _ = write!(out, " {}:{}", c, n);
        }
        let _ = write!(
            out,
            "\nassignments tried on accepted steps: {}\nheld steps with differing sides: {:?}\n\
             form-only steps with differing sides, by rule: {:?}\nsteps of another depth: {:?}\n",
            self.tried, self.held_differ, self.form_only_differ, self.depth_broken
        );
        let mut missing = Vec::new();
        for rule in 1..=23u16 {
            let accepted: &[u16] = match rule {
                20 => &[0, 1],
                21 | 22 => &[1],
                _ => &[0],
            };
            for &c in accepted.iter().chain([if rule == 1 { &15 } else { &16 }]) {
                if !self.answers.contains_key(&(rule, c)) {
                    missing.push(format!("rule {} code {}", rule, c));
                }
            }
        }
        for c in (2..=9).chain(18..=19) {
            if !self.stops.contains_key(&c) {
                missing.push(format!("stop {}", c));
            }
        }
        for c in 10..=17 {
            if !self.answers.keys().any(|k| k.1 == c) {
                missing.push(format!("answer {}", c));
            }
        }
        let _ = writeln!(out, "not reached: {:?}", missing);
        out
    }
}
