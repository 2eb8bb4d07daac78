//! Document 01's own examples, and checks of the oracle itself.
#![cfg(original)]
use oracle::ast::{Operator, Sort as RustSort};
use oracle::job::{self, Outcome, Sort, expect_text, run_traced};
use oracle::maker::{Maker, T};
use oracle::{cases, sem};

fn hex(text: &str) -> Vec<u8> {
    text.split_whitespace().map(|b| u8::from_str_radix(b, 16).unwrap()).collect()
}

/// (rule, code, depth) of each answer, and what the job returned.
fn answers(bytes: &[u8]) -> (Vec<(u16, u16, u16)>, Outcome) {
    let mut list = Vec::new();
    let out = run_traced(bytes, 1 << 20, 1 << 20, |s| list.push((s.rule, s.code, s.depth)));
    (list, out)
}

fn stop(text: &str) -> u16 {
    answers(&hex(text)).1.stop
}

/// The one answer of a job with the step (= left right).
fn claim(m: &mut Maker, rule: u16, left: &T, right: &T) -> (u16, u16) {
    let mut fresh = Maker::new(0);
    std::mem::swap(&mut fresh.pool, &mut m.pool);
    fresh.list = vec![fresh.pool.bool_true(), fresh.pool.bool_false()];
    fresh.num = fresh.list.iter().cloned().zip(0..).collect();
    fresh.claim(rule, left, right);
    let (list, out) = answers(&fresh.bytes);
    std::mem::swap(&mut fresh.pool, &mut m.pool);
    assert_eq!((out.stop, out.answers), (0, 1));
    assert_eq!(list[0].0, rule);
    (list[0].1, list[0].2)
}

struct Two {
    m: Maker,
    x: T,
    y: T,
    x0: T,
    y0: T,
}

fn two(w: usize) -> Two {
    let mut m = Maker::new(0);
    let (x, y) = (m.var(w, 0), m.var(w, 1));
    let (x0, y0) = (m.bit(0, &x), m.bit(0, &y));
    Two { m, x, y, x0, y0 }
}

#[test]
fn hex_specimen() {
    let bytes = hex(cases::SPECIMEN);
    assert_eq!(job::bbcheck(&bytes), "steps 1 terms 10 repeats 0 stop 0\n1 9 0 2\n");
    let (text, out, _) = expect_text(&bytes, 64, 10);
    assert_eq!(out, Outcome { stop: 0, records: 9, answers: 1, terms: 10, repeats: 0 });
    assert!(text.ends_with("bytes 0800c800090000000200\n"));
}

#[test]
fn bbcheck_limits() {
    assert_eq!(job::bbcheck(&[]), "steps 0 terms 2 repeats 0 stop 0\n");
    assert_eq!(job::bbcheck(&vec![0; 65_536]), "steps 0 terms 2 repeats 0 stop 3\n");
    assert_eq!(job::bbcheck(&vec![0; 65_537]), "too long\n");
    // 8,192 rows of work
    let mut m = Maker::new(0);
    for n in 0..8_193 {
        let v = m.bool_var(n);
        m.emit(&v);
    }
    assert_eq!(job::bbcheck(&m.bytes), "steps 0 terms 8194 repeats 0 stop 8\n");
    // 6,553 answers
    let mut m = Maker::new(0);
    for _ in 0..6_554 {
        m.step(1, &[0]);
    }
    let text = job::bbcheck(&m.bytes);
    assert!(text.starts_with("steps 6553 terms 2 repeats 0 stop 19\n1 1 11 0\n"));
}

#[test]
fn specimens_table() {
    // bvslt, n 1: (and x0 (not y0)) held, depth 2
    let Two { mut m, x, y, x0, y0 } = two(1);
    let left = m.op2(Operator::BvSLt, &x, &y);
    let not = m.not(&y0);
    let right = m.op2(Operator::And, &x0, &not);
    assert_eq!(claim(&mut m, 9, &left, &right), (0, 2));
    // =, n 1: (= x0 y0) held; inside an And 16
    let left = m.eq(&x, &y);
    let right = m.eq(&x0, &y0);
    assert_eq!(claim(&mut m, 13, &left, &right), (0, 1));
    let and = m.op(Operator::And, vec![right]);
    assert_eq!(claim(&mut m, 13, &left, &and), (16, 0));
    for w in [1, 2, 64] {
        let Two { mut m, x, .. } = two(w);
        // bvand, one argument: x held
        let left = m.op(Operator::BvAnd, vec![x.clone()]);
        assert_eq!(claim(&mut m, 3, &left, &x), (0, 0));
        // bvadd, one variable: BvBbTerm of its bits held; x 16
        let left = m.op(Operator::BvAdd, vec![x.clone()]);
        let bits = m.bits(&x);
        let right = m.bb(bits);
        assert_eq!(claim(&mut m, 10, &left, &right), (0, 0));
        assert_eq!(claim(&mut m, 10, &left, &x), (16, 0));
        // sign_extend 0: x held
        let left = m.sign_extend(0, &x);
        assert_eq!(claim(&mut m, 17, &left, &x), (0, 0));
    }
    // bvneg, n 1: depth 3
    let Two { mut m, x, x0, .. } = two(1);
    let left = m.op(Operator::BvNeg, vec![x.clone()]);
    let not = m.not(&x0);
    let (t, f) = (m.lit(true), m.lit(false));
    let inner = m.op2(Operator::Xor, &not, &f);
    let bit = m.op2(Operator::Xor, &inner, &t);
    let right = m.bb(vec![bit]);
    assert_eq!(claim(&mut m, 12, &left, &right), (0, 3));
}

/// The values of both sides of the accepted circuit at x and y: (circuit, standard).
fn values(rule: u16, op: Operator, w: usize, x: u64, y: u64) -> (u64, u64) {
    let Two { mut m, x: vx, y: vy, .. } = two(w);
    let left = m.op2(op, &vx, &vy);
    let right = m.expected(rule, &left);
    m.claim(rule, &left, &right);
    let mut got = None;
    run_traced(&m.bytes, 1 << 20, 1 << 20, |s| {
        assert!(s.code <= 1);
        let r = &s.list.terms[s.literals[0]].record;
        let at = |k: usize| usize::from(u16::from_le_bytes([r[k], r[k + 1]]));
        let value = |t| sem::eval(&s.list.terms, t, &|v: &[u8]| if v[4] == 0 { x } else { y });
        got = Some((value(at(4)), value(at(2))));
    });
    got.unwrap()
}

#[test]
fn specimens_table_values() {
    assert_eq!(values(20, Operator::BvAShr, 1, 1, 1), (0, 1));
    assert_eq!(values(21, Operator::BvUDiv, 1, 0, 1), (1, 0));
    assert_eq!(values(22, Operator::BvURem, 1, 1, 1), (1, 0));
    assert_eq!(values(11, Operator::BvMul, 2, 3, 3), (1, 1));
}

#[test]
fn codes_table() {
    let (_, out) = answers(&vec![0; 16_777_217]);
    assert_eq!(out, Outcome { stop: 2, records: 0, answers: 0, terms: 2, repeats: 0 });
    assert_eq!(stop("06 00 0B"), 3);
    assert_eq!(stop("02 00 63 00"), 4);
    assert_eq!(stop("06 00 14 00 00 00 01 00"), 5);
    assert_eq!(stop("04 00 14 00 02 00"), 6);
    assert_eq!(stop("06 00 0B 00 41 00 00 00"), 7);
    let variable = hex("06 00 0B 00 01 00 00 00");
    assert_eq!(expect_text(&variable, 7, 0).1.stop, 8);
    assert_eq!(expect_text(&variable, 8, 0).1.stop, 0);
    assert_eq!(stop("04 00 64 00 63 00"), 9);
    assert_eq!(answers(&hex("04 00 64 00 01 00")).0, [(1, 10, 0)]);
    // rule 1 on `true`
    assert_eq!(answers(&hex("06 00 64 00 01 00 00 00")).0, [(1, 11, 0)]);
    let Two { mut m, x, y, x0, y0 } = two(1);
    // rule 2 on (= true true)
    let (t, f) = (m.lit(true), m.lit(false));
    assert_eq!(claim(&mut m, 2, &t, &t).0, 12);
    // rule 13 on Bools, where Rust panics
    let bools = m.eq(&t, &f);
    assert_eq!(claim(&mut m, 13, &bools, &t).0, 12);
    let bb0 = m.bb(vec![f.clone()]);
    let bb1 = m.bb(vec![t.clone()]);
    let bbx = m.bb(vec![x0.clone()]);
    let zero = m.constant(1, 0);
    assert_eq!(claim(&mut m, 1, &x, &bb0).0, 13);
    assert_eq!(claim(&mut m, 1, &zero, &bbx).0, 14);
    assert_eq!(claim(&mut m, 1, &zero, &bb1).0, 15);
    assert_eq!(claim(&mut m, 1, &zero, &bb0).0, 0);
    // rule 9, the And's arguments swapped
    let left = m.op2(Operator::BvSLt, &x, &y);
    let not = m.not(&y0);
    let right = m.op2(Operator::And, &not, &x0);
    assert_eq!(claim(&mut m, 9, &left, &right).0, 16);
    // low slice first
    let Two { mut m, x, y, .. } = two(2);
    let left = m.op2(Operator::BvAnd, &x, &y);
    let slices: Vec<T> = (0..2)
        .map(|i| {
            let (a, b) = (m.extract(i, i, &x), m.extract(i, i, &y));
            m.op2(Operator::BvAnd, &a, &b)
        })
        .collect();
    let low = m.op2(Operator::BvConcat, &slices[0], &slices[1]);
    let high = m.op2(Operator::BvConcat, &slices[1], &slices[0]);
    assert_eq!(claim(&mut m, 23, &left, &low).0, 17);
    assert_eq!(claim(&mut m, 23, &left, &high).0, 0);
    // both extracts of a slice carry equal indices
    let (a, b) = (m.extract(1, 1, &x), m.extract(0, 0, &y));
    let odd = m.op2(Operator::BvAnd, &a, &b);
    let right = m.op2(Operator::BvConcat, &odd, &slices[0]);
    assert_eq!(claim(&mut m, 23, &left, &right).0, 11);
    assert_eq!(stop("04 00 65 00 01 00"), 18);
    let step = hex("06 00 64 00 01 00 00 00");
    assert_eq!(expect_text(&step, 0, 9).1.stop, 19);
    assert_eq!(expect_text(&step, 0, 10).1.stop, 0);
}

#[test]
fn order_of_tests() {
    // a step: 6 before 9, 9 before 19, 19 before 10
    assert_eq!(stop("06 00 64 00 63 00 02 00"), 6);
    assert_eq!(expect_text(&hex("06 00 64 00 63 00 00 00"), 0, 0).1.stop, 9);
    assert_eq!(expect_text(&hex("04 00 64 00 01 00"), 0, 0).1.stop, 19);
    // a term: 5 before 6 before 7 before 8
    assert_eq!(stop("06 00 14 00 09 00 09 00"), 5);
    assert_eq!(stop("06 00 1E 00 63 00 02 00"), 6);
    assert_eq!(expect_text(&hex("06 00 1E 00 00 00 00 00"), 0, 0).1.stop, 7);
    // a repeated record needs no memory
    let twice = hex("04 00 0A 00 07 00 04 00 0A 00 07 00");
    let out = expect_text(&twice, 8, 0).1;
    assert_eq!(out, Outcome { stop: 0, records: 2, answers: 0, terms: 3, repeats: 1 });
    // back: space is used again, and the number stands for another term
    let again = hex("04 00 0A 00 07 00 04 00 65 00 02 00 04 00 0A 00 08 00 04 00 14 00 02 00");
    let out = expect_text(&again, 15, 0).1;
    assert_eq!(out, Outcome { stop: 8, records: 3, answers: 0, terms: 3, repeats: 0 });
    // rule 1: 14 wins over 15 also where the wrong bit is lower
    let mut m = Maker::new(0);
    let c = m.constant(2, 0);
    let (t, b) = (m.lit(true), m.bool_var(0));
    let right = m.bb(vec![t, b]);
    assert_eq!(claim(&mut m, 1, &c, &right).0, 14);
}

/// Records equal in all bytes are the terms that the original code's pool makes one, and the sorts
/// are the pool's.
#[test]
fn bytes_and_pool_agree() {
    let mut steps = 0;
    for i in (3..700).step_by(3) {
        let c = cases::case(77, i);
        if c.job.len() > 40_000 {
            continue;
        }
        run_traced(&c.job, c.work, c.room, |s| {
            steps += 1;
            let mut seen = std::collections::HashSet::new();
            for t in &s.list.terms {
                assert!(seen.insert(t.term.clone()), "two numbers, one term");
                let want = match t.sort {
                    Sort::Bool => RustSort::Bool,
                    Sort::Bv(w) => RustSort::BitVec(w as usize),
                };
                assert!(*s.list.pool.sort(&t.term) == want);
            }
        });
    }
    assert!(steps > 500);
}

#[test]
fn every_rule_and_code_is_reached() {
    let mut summary = cases::Summary::default();
    for i in (0..700).chain(cases::fixed()..cases::fixed() + 500) {
        let c = cases::case(5, i);
        if c.job.len() > 40_000 && i > 0 {
            continue;
        }
        summary.look(i, &c);
    }
    let text = summary.text();
    assert!(text.contains("not reached: []"), "{}", text);
    assert!(summary.held_differ.is_empty() && summary.depth_broken.is_empty(), "{}", text);
}

/// Every rule on every kept Equals of many jobs, called directly: only rule 13 over Bools panics.
#[test]
fn only_rule_13_panics() {
    use std::panic::{AssertUnwindSafe, catch_unwind};
    std::panic::set_hook(Box::new(|info| {
        let text = info.to_string();
        if !text.contains("trying to get size of non-bitvector term") {
            eprintln!("{}", text);
        }
    }));
    let (mut calls, mut panics) = (0, 0);
    for i in (3..700).chain(cases::fixed()..cases::fixed() + 800).step_by(2) {
        let c = cases::case(99, i);
        if c.job.len() > 6_000 {
            continue;
        }
        let mut last = None;
        run_traced(&c.job, c.work, c.room, |s| {
            let list: Vec<_> = s.list.terms.iter().map(|t| (t.term.clone(), t.record.clone())).collect();
            if last == Some(list.len()) {
                return;
            }
            last = Some(list.len());
            for (t, record) in list {
                if record.first() != Some(&24) {
                    continue;
                }
                for rule in 1..=23 {
                    calls += 1;
                    let pool = &mut s.list.pool;
                    let one = [t.clone()];
                    let r = catch_unwind(AssertUnwindSafe(|| job::call_rule(pool, rule, &one)));
                    match r {
                        Ok(Err(e)) => drop(job::code_of(rule, &e)),
                        Ok(Ok(())) => {}
                        Err(_) => {
                            panics += 1;
                            assert_eq!(rule, 13, "{}", t);
                        }
                    }
                }
            }
        });
    }
    let _ = std::panic::take_hook();
    assert!(calls > 50_000 && panics > 20, "{} {}", calls, panics);
}
