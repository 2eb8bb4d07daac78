//! Document 01's job, written plainly from the document: records, the list of terms, codes 2 to 19
//! in their order, depth, answers, what is returned. The verdict of a step comes from the original
//! function of its rule.
use crate::ast::pool::{Build, Pool};
use crate::ast::{Constant, Operator, ParamOperator, Rc, Sort as RustSort, Term};
use crate::checker::error::{CheckerError, EqualityError};
use crate::checker::rules::{RULES, RuleArgs, RuleResult};
use std::collections::HashMap;
use std::panic::{AssertUnwindSafe, catch_unwind};

pub const MAX_JOB: usize = 16_777_216;
pub const MAX_WIDTH: u32 = 64;
pub const MAX_ARGS: usize = 64;
pub const MAX_TERMS: usize = 65_535;
pub const ROW: usize = 8;
pub const ANSWER: usize = 10;

#[derive(Debug, Clone, Copy, PartialEq, Eq)]
pub enum Sort {
    Bool,
    Bv(u32),
}

/// What a job returns.
#[derive(Debug, Clone, Copy, PartialEq, Eq)]
pub struct Outcome {
    pub stop: u16,
    pub records: usize,
    pub answers: usize,
    pub terms: usize,
    pub repeats: usize,
}

/// A term of the plain list.
#[derive(Clone)]
pub struct Kept {
    /// The record's bytes after its length: kind and body. Empty for `true` and `false`.
    pub record: Vec<u8>,
    pub sort: Sort,
    pub depth: u16,
    pub term: Rc<Term>,
}

/// The plain list, with the pool that the original code works in.
pub struct List {
    pub pool: Pool,
    pub terms: Vec<Kept>,
    by_bytes: HashMap<Vec<u8>, usize, Build>,
}

impl Default for List {
    fn default() -> Self {
        Self::new()
    }
}

impl Drop for List {
    fn drop(&mut self) {
        // Terms above their arguments go first: no drop recurses.
        while self.terms.pop().is_some() {}
    }
}

impl List {
    pub fn new() -> Self {
        let mut pool = Pool::new();
        let terms = [pool.bool_true(), pool.bool_false()]
            .map(|term| Kept { record: Vec::new(), sort: Sort::Bool, depth: 0, term })
            .to_vec();
        List { pool, terms, by_bytes: HashMap::default() }
    }

    fn back(&mut self, count: usize) {
        while self.terms.len() > count {
            let dropped = self.terms.pop().unwrap();
            self.by_bytes.remove(&dropped.record);
        }
    }
}

/// A step that was answered, as seen by a caller that traces a job.
pub struct Step<'a> {
    pub list: &'a mut List,
    pub rule: u16,
    pub literals: &'a [usize],
    pub code: u16,
    pub depth: u16,
}

fn word(bytes: &[u8], at: usize) -> u16 {
    u16::from_le_bytes([bytes[at], bytes[at + 1]])
}

fn words(bytes: &[u8]) -> Vec<usize> {
    bytes.chunks_exact(2).map(|c| usize::from(word(c, 0))).collect()
}

/// Runs a job as document 01 has it: `work` is all zero afterwards, `answers` is untouched past the
/// last answer.
pub fn run(job: &[u8], work: &mut [u8], answers: &mut [u8]) -> Outcome {
    let mut at = 0;
    let room = answers.len();
    let out = run_traced(job, work.len(), room, |s| {
        for (i, w) in [8, 200, s.rule, s.code, s.depth].into_iter().enumerate() {
            answers[at + 2 * i..at + 2 * i + 2].copy_from_slice(&w.to_le_bytes());
        }
        at += ANSWER;
    });
    work.fill(0);
    out
}

/// The same with lengths only; `on_step` gets every answered step in order.
pub fn run_traced(job: &[u8], work: usize, room: usize, mut on_step: impl FnMut(Step)) -> Outcome {
    let mut list = List::new();
    let mut done = Outcome { stop: 0, records: 0, answers: 0, terms: 2, repeats: 0 };
    if job.len() > MAX_JOB {
        done.stop = 2;
        return done;
    }
    let mut at = 0;
    loop {
        if at == job.len() {
            break;
        }
        match record(&mut list, &job[at..], work, room, &mut done, &mut on_step) {
            Ok(length) => {
                at += length;
                done.records += 1;
            }
            Err(code) => {
                done.stop = code;
                break;
            }
        }
    }
    done.terms = list.terms.len();
    done
}

/// One record at the start of `rest`, which is not empty: its length with the length field, or the
/// code that stops the job.
fn record(
    list: &mut List,
    rest: &[u8],
    work: usize,
    room: usize,
    done: &mut Outcome,
    on_step: &mut impl FnMut(Step),
) -> Result<usize, u16> {
    // 3: just 1 byte left, L below 2, or L beyond the end
    if rest.len() < 2 {
        return Err(3);
    }
    let length = usize::from(word(rest, 0));
    if length < 2 || length > rest.len() - 2 {
        return Err(3);
    }
    let bytes = &rest[2..2 + length];
    let kind = word(bytes, 0);
    let body = &bytes[2..];
    // 4: kind unknown; 5: body length not the kind's
    if !body_fits(kind, body.len())? {
        return Err(5);
    }
    let count = list.terms.len();
    match kind {
        100 => {
            let rule = word(body, 0);
            let literals = words(&body[2..]);
            if literals.iter().any(|&l| l >= count) {
                return Err(6);
            }
            if !(1..=23).contains(&rule) {
                return Err(9);
            }
            if room - done.answers * ANSWER < ANSWER {
                return Err(19);
            }
            let code = verdict(list, rule, &literals);
            let depth = if code <= 1 { right_side_depth(list, literals[0]) } else { 0 };
            done.answers += 1;
            on_step(Step { list, rule, literals: &literals, code, depth });
        }
        101 => {
            let to = usize::from(word(body, 0));
            if to < 2 || to > count {
                return Err(18);
            }
            list.back(to);
        }
        _ => {
            let (args, numbers) = arguments(kind, body);
            if args.iter().any(|&a| a >= count) {
                return Err(6);
            }
            let sort = sort_of(list, kind, &args, &numbers).ok_or(7u16)?;
            if !list.by_bytes.contains_key(bytes) {
                if (count - 2 + 1) * ROW > work || count >= MAX_TERMS {
                    return Err(8);
                }
                let depth = depth_of(list, kind, &args);
                let term = rust_term(list, kind, &args, &numbers);
                list.by_bytes.insert(bytes.to_vec(), count);
                list.terms.push(Kept { record: bytes.to_vec(), sort, depth, term });
            } else {
                done.repeats += 1;
            }
        }
    }
    Ok(2 + length)
}

/// Whether a body of `n` bytes is one of the kind's. Err(4) for an unknown kind.
fn body_fits(kind: u16, n: usize) -> Result<bool, u16> {
    let list = |from: usize, to: usize| n % 2 == 0 && (2 * from..=2 * to).contains(&n);
    Ok(match kind {
        10 => n == 2,
        11 => n == 4,
        12 => n == 10,
        20 | 40 | 41 => n == 2,
        23 | 24 | 30 | 47..=55 | 58 => n == 4,
        25 | 57 => n == 6,
        21 | 22 | 31 | 42..=46 | 56 => list(1, MAX_ARGS),
        100 => list(1, 1 + MAX_ARGS),
        101 => n == 2,
        _ => return Err(4),
    })
}

/// The arguments (term numbers) of a term's body, and its other numbers.
fn arguments(kind: u16, body: &[u8]) -> (Vec<usize>, Vec<u64>) {
    let number = |at: usize| u64::from(word(body, at));
    match kind {
        10 => (vec![], vec![number(0)]),
        11 => (vec![], vec![number(0), number(2)]),
        12 => (vec![], vec![number(0), u64::from_le_bytes(body[2..10].try_into().unwrap())]),
        30 | 58 => (words(&body[2..]), vec![number(0)]),
        57 => (words(&body[4..]), vec![number(0), number(2)]),
        _ => (words(body), vec![]),
    }
}

/// The sort of a term whose arguments are all kept, or None where code 7 applies.
fn sort_of(list: &List, kind: u16, args: &[usize], numbers: &[u64]) -> Option<Sort> {
    let sorts: Vec<Sort> = args.iter().map(|&a| list.terms[a].sort).collect();
    let width = |w: u64| (1..=u64::from(MAX_WIDTH)).contains(&w).then_some(Sort::Bv(w as u32));
    let bools = || sorts.iter().all(|&s| s == Sort::Bool);
    let one_width = || match sorts[0] {
        Sort::Bv(w) if sorts.iter().all(|&s| s == sorts[0]) => Some(w),
        _ => None,
    };
    match kind {
        10 => Some(Sort::Bool),
        11 => width(numbers[0]),
        12 => {
            let sort = width(numbers[0])?;
            (u128::from(numbers[1]) < 1u128 << numbers[0]).then_some(sort)
        }
        20..=23 | 25 => bools().then_some(Sort::Bool),
        24 => (sorts[0] == sorts[1]).then_some(Sort::Bool),
        30 => (numbers[0] < u64::from(one_width()?)).then_some(Sort::Bool),
        31 => bools().then_some(Sort::Bv(args.len() as u32)),
        40..=47 | 51..=55 => one_width().map(Sort::Bv),
        48 => one_width().map(|_| Sort::Bv(1)),
        49 | 50 => one_width().map(|_| Sort::Bool),
        56 => {
            let mut sum = 0;
            for s in sorts {
                match s {
                    Sort::Bv(w) => sum += u64::from(w),
                    Sort::Bool => return None,
                }
            }
            width(sum)
        }
        57 => {
            let n = u64::from(one_width()?);
            let (i, j) = (numbers[0], numbers[1]);
            (j <= i && i < n).then(|| Sort::Bv((i - j + 1) as u32))
        }
        58 => width(u64::from(one_width()?) + numbers[0]),
        _ => unreachable!(),
    }
}

fn depth_of(list: &List, kind: u16, args: &[usize]) -> u16 {
    let deepest = args.iter().map(|&a| list.terms[a].depth).max().unwrap_or(0);
    match kind {
        20..=23 | 25 => deepest + 1,
        24 if list.terms[args[0]].sort == Sort::Bool => deepest + 1,
        31 => deepest,
        _ => 0,
    }
}

fn operator(kind: u16) -> Operator {
    match kind {
        20 => Operator::Not,
        21 => Operator::And,
        22 => Operator::Or,
        23 => Operator::Xor,
        24 => Operator::Equals,
        25 => Operator::Ite,
        31 => Operator::BvBbTerm,
        40 => Operator::BvNot,
        41 => Operator::BvNeg,
        42 => Operator::BvAnd,
        43 => Operator::BvOr,
        44 => Operator::BvXor,
        45 => Operator::BvAdd,
        46 => Operator::BvMul,
        47 => Operator::BvXNor,
        48 => Operator::BvComp,
        49 => Operator::BvULt,
        50 => Operator::BvSLt,
        51 => Operator::BvShl,
        52 => Operator::BvLShr,
        53 => Operator::BvAShr,
        54 => Operator::BvUDiv,
        55 => Operator::BvURem,
        56 => Operator::BvConcat,
        _ => unreachable!(),
    }
}

/// The term as the original code sees it.
fn rust_term(list: &mut List, kind: u16, args: &[usize], numbers: &[u64]) -> Rc<Term> {
    let args: Vec<Rc<Term>> = args.iter().map(|&a| list.terms[a].term.clone()).collect();
    let pool = &mut list.pool;
    let mut index = |n: u64| pool.add(Term::new_int(n));
    let term = match kind {
        10 => Term::new_var(numbers[0].to_string(), pool.add_sort(RustSort::Bool)),
        11 => {
            let sort = pool.add_sort(RustSort::BitVec(numbers[0] as usize));
            Term::new_var(numbers[1].to_string(), sort)
        }
        12 => Term::Const(Constant::BitVec(numbers[1].into(), numbers[0] as usize)),
        30 => Term::ParamOp { op: ParamOperator::BvBitOf, op_args: vec![index(numbers[0])], args },
        57 => {
            let op_args = vec![index(numbers[0]), index(numbers[1])];
            Term::ParamOp { op: ParamOperator::BvExtract, op_args, args }
        }
        58 => Term::ParamOp { op: ParamOperator::SignExtend, op_args: vec![index(numbers[0])], args },
        _ => Term::Op(operator(kind), args),
    };
    list.pool.add(term)
}

/// Calls the original function of a rule.
pub fn call_rule(pool: &mut Pool, rule: u16, conclusion: &[Rc<Term>]) -> RuleResult {
    RULES[usize::from(rule) - 1].1(RuleArgs { conclusion, args: &[], pool })
}

/// The depth of the right side of an accepted literal, an Equals.
fn right_side_depth(list: &List, literal: usize) -> u16 {
    let record = &list.terms[literal].record;
    assert_eq!(word(record, 0), 24, "an accepted literal is an Equals");
    list.terms[usize::from(word(record, 4))].depth
}

/// The code of a step's answer: 0, 1, 10 to 17.
fn verdict(list: &mut List, rule: u16, literals: &[usize]) -> u16 {
    let conclusion: Vec<Rc<Term>> = literals.iter().map(|&l| list.terms[l].term.clone()).collect();
    if rule == 13 && operands_are_bool(&list.pool, &conclusion) {
        return 12; // the original function panics here
    }
    let pool = &mut list.pool;
    let result = catch_unwind(AssertUnwindSafe(|| call_rule(pool, rule, &conclusion)));
    let result = match result {
        Ok(r) => r,
        Err(_) => {
            eprintln!("FINDING: rule {} panicked on {}", rule, conclusion[0]);
            panic!("FINDING: the original code panicked, see above");
        }
    };
    match result {
        Ok(()) if rule == 20 && tops_with_false(&conclusion[0]) => 0,
        Ok(()) if (20..=22).contains(&rule) => 1,
        Ok(()) => 0,
        Err(e) => code_of(rule, &e),
    }
}

/// Whether (= (bvashr x y) r) has for x a BvBbTerm whose last bit is `false`. The original only accepts; which accepted steps of
/// rule 20 are held is document 02's.
fn tops_with_false(literal: &Term) -> bool {
    let Some((Operator::Equals, [left, _])) = literal.as_op() else { return false };
    let Some((Operator::BvAShr, [x, _])) = left.as_op() else { return false };
    matches!(x.as_op(), Some((Operator::BvBbTerm, [.., top])) if top.is_bool_false())
}

/// Rule 13 on (= (= a b) r) with a and b Bools.
fn operands_are_bool(pool: &Pool, conclusion: &[Rc<Term>]) -> bool {
    let [literal] = conclusion else { return false };
    let Some((Operator::Equals, [left, _])) = literal.as_op() else { return false };
    let Some((Operator::Equals, [x, _])) = left.as_op() else { return false };
    matches!(pool.sort(x).as_ref(), RustSort::Bool)
}

/// The original's error as document 01's code.
pub fn code_of(rule: u16, e: &CheckerError) -> u16 {
    match e {
        CheckerError::WrongLengthOfClause(..) => 10,
        CheckerError::TermOfWrongForm(..) => 11,
        CheckerError::Explanation(_) if rule == 2 => 12,
        CheckerError::Explanation(s) if rule == 1 && s == "Not a const being bitblasted." => 13,
        CheckerError::Explanation(s) if rule == 1 && s.ends_with("neither true nor false") => 14,
        CheckerError::Explanation(s) if rule == 1 && s.starts_with("const is ") => 15,
        CheckerError::TermEquality(EqualityError::ExpectedEqual(..)) => 16,
        CheckerError::ExpectedInteger(..) if rule == 23 => 17,
        other => panic!("FINDING: rule {} gave an error without a code: {:?}", rule, other),
    }
}

/// A case's text: lengths lent, what the job returned, the answers in hex.
pub fn expect_text(job: &[u8], work: usize, room: usize) -> (String, Outcome, Vec<u8>) {
    // The buffers hold garbage at the start, so that what a job leaves in them can be seen.
    let mut work_bytes: Vec<u8> = (0..work).map(|i| (i * 31 + 7) as u8).collect();
    let before: Vec<u8> = (0..room).map(|i| (i * 17 + 165) as u8).collect();
    let mut answers = before.clone();
    let out = run(job, &mut work_bytes, &mut answers);
    assert!(work_bytes.iter().all(|&b| b == 0), "work memory is not zero");
    let written = out.answers * ANSWER;
    assert!(answers[written..] == before[written..], "answers changed past the last one");
    answers.truncate(written);
    let hex: String = answers.iter().map(|b| format!("{:02x}", b)).collect();
    let text = format!(
        "work {}\nroom {}\nstop {}\nrecords {}\nanswers {}\nterms {}\nrepeats {}\nbytes {}\n",
        work, room, out.stop, out.records, out.answers, out.terms, out.repeats, hex
    );
    (text, out, answers)
}

/// What bbcheck prints for a job on its standard input.
pub fn bbcheck(job: &[u8]) -> String {
    const LIMIT: usize = 65_536;
    if job.len() > LIMIT {
        return "too long\n".to_owned();
    }
    let mut lines = String::new();
    let mut place = 0;
    let out = run_traced(job, LIMIT, LIMIT, |s| {
        place += 1;
        lines += &format!("{} {} {} {}\n", place, s.rule, s.code, s.depth);
    });
    format!("steps {} terms {} repeats {} stop {}\n{}", out.answers, out.terms, out.repeats, out.stop, lines)
}
