//! Questions about a job's final list, with answers worked out by hand.
use reading::generate::{Maker, asked_case};
use reading::job::{Final, Lent, run_whole};
use reading::kind::*;
use reading::pool::{Id, NO, YES};
use reading::question::{Answer, Question, Standing};
use reading::rule::expected;
use reading::{specimen, survey::Survey};

const MUCH: Lent = Lent { work: 1 << 20, room: 1 << 16 };

fn sweep(job: &[u8], lent: Lent, number: u32, values: usize) -> (u16, u64, u64) {
    match answer(job, lent, Question::Sweep { number, values }) {
        Answer::Swept { code, assignments, differing } => (code, assignments, differing),
        other => panic!("a sweep is answered by {other:?}"),
    }
}

fn answer(job: &[u8], lent: Lent, question: Question) -> Answer {
    let (outcome, store) = run_whole(job, lent, |_| {});
    question.answer(outcome.stop, &store)
}

fn count(job: &[u8], number: u32, values: usize, run: usize) -> (u16, Vec<u64>) {
    match answer(job, MUCH, Question::Count { number, values, run }) {
        Answer::Counted { code, counts } => (code, counts),
        other => panic!("a count is answered by {other:?}"),
    }
}

/// The counts of a term, with enough memory.
fn counted(build: impl FnOnce(&mut Maker) -> Id) -> (u16, Vec<u64>) {
    let mut maker = Maker::new(0);
    let term = build(&mut maker);
    let number = maker.emit(term);
    count(&maker.bytes, number, 8 * maker.list.len(), 256)
}

/// The sweep of an Equals of two terms, with enough memory.
fn swept(build: impl FnOnce(&mut Maker) -> (Id, Id)) -> (u16, u64, u64) {
    let mut maker = Maker::new(0);
    let (left, right) = build(&mut maker);
    let equality = maker.equals(left, right);
    let number = maker.emit(equality);
    sweep(&maker.bytes, MUCH, number, 8 * maker.list.len())
}

/// The left side of a rule over two variables, and its circuit.
fn circuit(maker: &mut Maker, rule: u16, kind: u16, width: usize) -> (Id, Id) {
    let (x, y) = (maker.variable(width, 0), maker.variable(width, 1));
    let left = maker.pool.op(kind, &[x, y]);
    (left, expected(&mut maker.pool, rule, left))
}

#[test]
fn the_specimen() {
    let job = specimen();
    assert_eq!(sweep(&job, MUCH, 9, 80), (0, 4, 0));
    assert_eq!(sweep(&job, MUCH, 9, 1000), (0, 4, 0));
    assert_eq!(sweep(&job, MUCH, 9, 79), (21, 0, 0));
    // Terms that are no Equals, numbers that are none's: before the buffer is looked at.
    for number in [0, 1, 2, 8, 10, 65_536 + 9, u32::MAX] {
        assert_eq!(sweep(&job, MUCH, number, 80), (20, 0, 0), "{number}");
        assert_eq!(sweep(&job, MUCH, number, 0), (20, 0, 0), "{number}");
    }
}

#[test]
fn jobs_that_stop_early() {
    let job = specimen();
    assert_eq!(sweep(&job, Lent { work: 64, room: 9 }, 9, 80), (20, 0, 0));
    assert_eq!(sweep(&job, Lent { work: 63, room: 10 }, 9, 80), (20, 0, 0));
    assert_eq!(sweep(&job[..job.len() - 1], MUCH, 9, 80), (20, 0, 0));
    assert_eq!(sweep(&vec![0; 16_777_217], MUCH, 9, 80), (20, 0, 0));
}

/// Document 01's rows of values at width 1: bvashr differs at x 1, y 1 alone.
#[test]
fn circuits_that_are_not_the_standards() {
    assert_eq!(swept(|m| circuit(m, 20, BV_ASHR, 1)), (0, 4, 1));
    assert_eq!(swept(|m| circuit(m, 26, BV_ASHR, 1)), (0, 4, 0));
    assert_eq!(swept(|m| circuit(m, 11, BV_MUL, 2)), (0, 16, 0));
    assert_eq!(swept(|m| circuit(m, 24, BV_UDIV, 3)), (0, 64, 0));
}

#[test]
fn variables() {
    assert_eq!(swept(|_| (YES, NO)), (0, 1, 1));
    assert_eq!(swept(|_| (YES, YES)), (0, 1, 0));
    // A Bool variable has one bit, and the same variable on both sides counts once.
    assert_eq!(swept(|m| (m.pool.add(BOOL, &[3], &[]), YES)), (0, 2, 1));
    assert_eq!(swept(|m| (m.variable(5, 3), m.variable(5, 3))), (0, 32, 0));
    assert_eq!(swept(|m| (m.variable(5, 3), m.variable(5, 4))), (0, 1024, 1024 - 32));
    assert_eq!(swept(|m| (m.variable(16, 0), m.pool.add(CONSTANT, &[16, 7], &[]))), (0, 65_536, 65_535));
    assert_eq!(swept(|m| (m.variable(17, 0), m.pool.add(CONSTANT, &[17, 7], &[]))), (20, 0, 0));
}

/// The variable with the lowest number, not the one made first, is the lowest digit; assignments go upward from zero.
#[test]
fn the_order_of_assignments() {
    let mut maker = Maker::new(0);
    let (x, y) = (maker.variable(2, 0), maker.pool.add(BOOL, &[0], &[]));
    let x0 = maker.pool.bit(0, x);
    let equality = maker.equals(x0, y);
    maker.emit(equality);
    maker.back(2);
    maker.emit(y);
    maker.emit(x);
    let number = maker.emit(equality);
    let (_, store) = run_whole(&maker.bytes, MUCH, |_| {});
    let Final { pool, list } = &store;
    assert_eq!((pool.kind(list[2]), pool.kind(list[3])), (BOOL, VARIABLE));
    let mut seen = Vec::new();
    let standing = Standing::of(&store, list[number as usize]);
    standing.each_assignment(pool, |values| seen.push((values[list[2]], values[list[3]])));
    assert_eq!(seen, [(0, 0), (1, 0), (0, 1), (1, 1), (0, 2), (1, 2), (0, 3), (1, 3)]);
}

/// The specimen's terms: true, false, x and y of width 1, their bits, Not, And, bvslt, Equals.
#[test]
fn counts_of_the_specimen() {
    let job = specimen();
    for (number, expected) in [
        (0, vec![0, 1]),
        (1, vec![1, 0]),
        (2, vec![1, 1]),
        (4, vec![1, 1]),
        (6, vec![1, 1]),
        (7, vec![3, 1]),
        (8, vec![3, 1]),
        (9, vec![0, 4]),
    ] {
        assert_eq!(count(&job, number, 80, 2), (0, expected), "{number}");
        // 20, 21 and 22 in their order.
        assert_eq!(count(&job, number, 80, 1), (22, vec![]));
        assert_eq!(count(&job, number, 79, 1), (21, vec![]));
        assert_eq!(count(&job, number + 10, 79, 1), (20, vec![]));
    }
    assert_eq!(count(&job[..job.len() - 1], 9, 80, 2), (20, vec![]));
}

#[test]
fn counts() {
    let of_two = |kind: u16| {
        counted(move |m| {
            let args = [0, 1].map(|name| m.variable(2, name));
            m.pool.op(kind, &args)
        })
    };
    assert_eq!(of_two(BV_ADD), (0, vec![4, 4, 4, 4]));
    // 1 is 1 * 1 and 3 * 3; 2 is 1 * 2, 2 * 1, 2 * 3 and 3 * 2; 3 is 1 * 3 and 3 * 1.
    assert_eq!(of_two(BV_MUL), (0, vec![8, 2, 4, 2]));
    assert_eq!(of_two(BV_ULT), (0, vec![10, 6]));
    assert_eq!(counted(|m| m.pool.add(CONSTANT, &[3, 5], &[])), (0, vec![0, 0, 0, 0, 0, 1, 0, 0]));
    assert_eq!(counted(|m| m.variable(8, 0)), (0, vec![1; 256]));
    assert_eq!(counted(|m| m.variable(9, 0)), (20, vec![]));
    let bit_of = |width: usize| {
        counted(move |m| {
            let x = m.variable(width, 0);
            m.pool.bit(3, x)
        })
    };
    assert_eq!((bit_of(16), bit_of(17)), ((0, vec![32_768; 2]), (20, vec![])));
}

/// The bits of a term, with enough memory.
fn derived(inputs: &[u8], build: impl FnOnce(&mut Maker) -> Id) -> (u16, Vec<u8>) {
    let mut maker = Maker::new(0);
    let term = build(&mut maker);
    let number = maker.emit(term);
    derive(&maker.bytes, number, 8 * maker.list.len(), 64, inputs)
}

fn derive(job: &[u8], number: u32, values: usize, room: usize, inputs: &[u8]) -> (u16, Vec<u8>) {
    match answer(job, MUCH, Question::Derive { number, values, room, inputs: inputs.to_vec() }) {
        Answer::Derived { code, bits } => (code, bits),
        other => panic!("bits are answered by {other:?}"),
    }
}

/// A gate over the Bool variables 0, 1 and so on.
fn gate(kind: u16, inputs: &[u8]) -> Vec<u8> {
    let (code, bits) = derived(inputs, |m| {
        let args: Vec<Id> = (0..inputs.len() as u64).map(|name| m.pool.add(BOOL, &[name], &[])).collect();
        for &arg in &args {
            m.emit(arg);
        }
        m.pool.op(kind, &args)
    });
    assert_eq!(code, 0);
    bits
}

#[test]
fn gates_of_which_part_is_known() {
    for (kind, rows) in [
        (AND, &[(&[0, 2, 2][..], 0), (&[2, 1, 0], 0), (&[1, 1, 1], 1), (&[1, 2, 1], 2)][..]),
        (OR, &[(&[2, 2, 1], 1), (&[1, 0, 2], 1), (&[0, 0, 0], 0), (&[0, 0, 2], 2)]),
        (NOT, &[(&[0], 1), (&[1], 0), (&[2], 2)]),
        (XOR, &[(&[0, 1], 1), (&[1, 1], 0), (&[2, 0], 2), (&[1, 2], 2)]),
        (EQUALS, &[(&[0, 1], 0), (&[1, 1], 1), (&[2, 0], 2), (&[1, 2], 2)]),
        (ITE, &[(&[1, 0, 2], 0), (&[0, 0, 2], 2), (&[0, 2, 1], 1), (&[2, 1, 1], 1), (&[2, 0, 1], 2), (&[2, 2, 2], 2)]),
    ] {
        for &(inputs, expected) in rows {
            assert_eq!(gate(kind, inputs), [expected], "kind {kind} of {inputs:?}");
        }
    }
    // Not even a term that is the same on both sides is looked through.
    for kind in [XOR, EQUALS] {
        let same = |m: &mut Maker| {
            let x = m.pool.add(BOOL, &[0], &[]);
            m.pool.op(kind, &[x, x])
        };
        assert_eq!(derived(&[2], same), (0, vec![2]));
    }
}

/// The variable with the lowest number first, bit 0 first in each.
#[test]
fn bits_in_their_order() {
    let build = |m: &mut Maker| {
        let (x, c) = (m.variable(3, 0), m.pool.add(CONSTANT, &[2, 2], &[]));
        let y = m.pool.add(BOOL, &[0], &[]);
        m.emit(y);
        m.emit(x);
        let bits = [(2, x), (0, x), (1, c), (0, c), (1, x)].map(|(k, term)| m.pool.bit(k, term));
        let bits = [&bits[..], &[y]].concat();
        m.pool.op(BB_TERM, &bits)
    };
    assert_eq!(derived(&[1, 0, 2, 1], build), (0, vec![1, 0, 1, 0, 2, 1]));
    assert_eq!(derived(&[2, 1, 1, 0], build), (0, vec![0, 1, 1, 0, 1, 2]));
    for wrong in [&[1, 0, 2][..], &[1, 0, 2, 1, 0], &[1, 0, 3, 1], &[1, 0, 255, 1], &[]] {
        assert_eq!(derived(wrong, build), (23, vec![]), "{wrong:?}");
    }
    let wide: Vec<u8> = (0..64).map(|k| k % 3).collect();
    assert_eq!(derived(&wide, |m| m.variable(64, 0)), (0, wide.clone()));
}

#[test]
fn bits_that_are_refused() {
    // An operation on bit-vectors, also far below, and an Equals of bit-vectors.
    let over = |kind: u16| {
        move |m: &mut Maker| {
            let args = [0, 1].map(|name| m.variable(1, name));
            let term = m.pool.op(kind, &args);
            let bit = if m.pool.width(term) == 0 { term } else { m.pool.bit(0, term) };
            m.pool.op(AND, &[YES, bit])
        }
    };
    for kind in [BV_AND, BV_ADD, BV_XNOR, BV_COMP, BV_ULT, BV_SLT, BV_UDIV, EQUALS] {
        assert_eq!(derived(&[0, 0], over(kind)), (23, vec![]), "{kind}");
    }
    // 20, 21 and 23 in their order; the output has room for each bit.
    let job = specimen();
    assert_eq!(derive(&job, 7, 80, 1, &[1, 2]), (0, vec![2]));
    assert_eq!(derive(&job, 7, 80, 0, &[1, 2]), (23, vec![]));
    assert_eq!(derive(&job, 7, 79, 0, &[1]), (21, vec![]));
    assert_eq!(derive(&job, 10, 79, 0, &[1]), (20, vec![]));
    assert_eq!(derive(&job, 0, 80, 1, &[]), (0, vec![1]));
    assert_eq!(derive(&job[..job.len() - 1], 7, 80, 1, &[1, 2]), (20, vec![]));
    for (room, code) in [(4, 23), (5, 0), (6, 0)] {
        let mut maker = Maker::new(0);
        let x = maker.variable(5, 0);
        let number = maker.emit(x);
        assert_eq!(derive(&maker.bytes, number, 24, room, &[2; 5]).0, code);
    }
}

#[test]
fn lines() {
    let deriving = Question::Derive { number: 7, values: 80, room: 1, inputs: vec![1, 255] };
    assert_eq!(deriving.text(), "derive 7 80 1 01ff\n");
    assert_eq!(Question::parse("derive 7 80 1 01ff"), Some(deriving));
    let none = Question::Derive { number: 0, values: 16, room: 1, inputs: vec![] };
    assert_eq!((none.text(), Question::parse("derive 0 16 1 -")), ("derive 0 16 1 -\n".to_owned(), Some(none)));
    assert_eq!(Answer::Derived { code: 0, bits: vec![2, 0] }.text(), "derived 0 0200\n");
    assert_eq!(Answer::Derived { code: 23, bits: vec![] }.text(), "derived 23 -\n");
    for other in ["derive 7 80 1", "derive 7 80 1 012", "derive 7 80 1 0g", "derived 0 02"] {
        assert_eq!(Question::parse(other), None, "{other}");
    }
    let counting = Question::Count { number: 9, values: 80, run: 2 };
    assert_eq!(counting.text(), "count 9 80 2\n");
    assert_eq!(Question::parse("count 9 80 2"), Some(counting));
    assert_eq!(Answer::Counted { code: 0, counts: vec![0, 4] }.text(), "counted 0 0 4\n");
    assert_eq!(Answer::Counted { code: 22, counts: vec![] }.text(), "counted 22\n");
    let question = Question::Sweep { number: 9, values: 80 };
    assert_eq!(question.text(), "sweep 9 80\n");
    assert_eq!(Question::parse("sweep 9 80"), Some(question));
    for other in ["swept 0 4 0", "sweep 9", "sweep 9 80 1", "sweep -1 80", "count 9 80", "counted 0 0 4", "terms 10"] {
        assert_eq!(Question::parse(other), None, "{other}");
    }
}

/// Every kind is swept with and without a difference, and counted, every gate has every bit where some input is not known, and nothing contradicts what is known beforehand.
#[test]
fn cases_reach_everything() {
    let mut survey = Survey::default();
    (0..2_000).for_each(|i| survey.look(i, &asked_case(7, i)));
    assert_eq!((survey.faults.clone(), survey.missing()), (vec![], vec![]));
}
