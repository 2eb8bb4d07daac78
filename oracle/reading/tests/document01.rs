//! Document 01's own examples, and values worked out by hand.
use reading::generate::{Maker, case};
use reading::job::{Lent, Outcome, bbcheck, expect_text, run};
use reading::kind::*;
use reading::pool::{Id, NO, YES};
use reading::rule::{expected, verdict};
use reading::value::fill;
use reading::{check::Summary, hex, specimen};

const MUCH: Lent = Lent { work: 1 << 20, room: 1 << 16 };

fn stop(bytes: &[u8], work: usize, room: usize) -> u16 {
    run(bytes, Lent { work, room }, |_| {}).stop
}

/// The codes and depths of a job's answers.
fn answers(bytes: &[u8]) -> Vec<(u16, u64)> {
    let mut found = Vec::new();
    run(bytes, MUCH, |step| found.push((step.answer.code, step.answer.depth)));
    found
}

/// The answer to a claim, through a job's bytes.
fn claim(rule: u16, build: impl FnOnce(&mut Maker) -> (Id, Id)) -> (u16, u64) {
    let mut maker = Maker::new(0);
    let (left, right) = build(&mut maker);
    let literal = maker.equals(left, right);
    maker.step(rule, &[literal], None);
    answers(&maker.bytes)[0]
}

/// A left side over variables x and y of a width, and x0, y0.
fn over(maker: &mut Maker, kind: u16, width: usize, count: usize) -> (Id, [Id; 2]) {
    let x = [0, 1].map(|name| maker.variable(width, name));
    let bits = x.map(|v| maker.pool.bit(0, v));
    (maker.pool.op(kind, &x[..count]), bits)
}

#[test]
fn the_specimen() {
    assert_eq!(bbcheck(&specimen()), "steps 1 terms 10 repeats 0 stop 0\n1 9 0 2\n");
    let outcome = run(&specimen(), Lent { work: 64, room: 10 }, |_| {});
    assert_eq!(outcome, Outcome { stop: 0, records: 9, answers: 1, terms: 10, repeats: 0 });
    assert!(expect_text(&specimen(), MUCH).ends_with("bytes 0800c800090000000200\n"));
    assert_eq!(stop(&specimen(), 63, 10), 8);
    assert_eq!(stop(&specimen(), 64, 9), 19);
}

#[test]
fn the_codes_that_stop() {
    assert_eq!(stop(&vec![0; 16_777_217], 0, 0), 2);
    for (code, text) in [
        (3, "06 00 0B"),
        (4, "02 00 63 00"),
        (5, "06 00 14 00 00 00 01 00"),
        (6, "04 00 14 00 02 00"),
        (7, "06 00 0B 00 41 00 00 00"),
        (9, "04 00 64 00 63 00"),
        (18, "04 00 65 00 01 00"),
    ] {
        assert_eq!(stop(&hex(text), 800, 100), code, "{text}");
    }
    assert_eq!(stop(&hex("06 00 0B 00 01 00 00 00"), 7, 0), 8);
    assert_eq!(stop(&hex("06 00 64 00 01 00 00 00"), 0, 9), 19);
}

#[test]
fn the_order_of_tests() {
    assert_eq!(stop(&hex("06 00 64 00 63 00 02 00"), 0, 0), 6);
    assert_eq!(stop(&hex("04 00 64 00 63 00"), 0, 0), 9);
    assert_eq!(stop(&hex("04 00 64 00 01 00"), 0, 0), 19);
    assert_eq!(stop(&hex("06 00 1E 00 63 00 02 00"), 0, 0), 6);
    assert_eq!(stop(&hex("06 00 1E 00 00 00 00 00"), 0, 0), 7);
    // A repeat needs no memory; after a back the same bytes are a new term.
    assert_eq!(stop(&hex("04 00 0A 00 07 00 04 00 0A 00 07 00"), 8, 0), 0);
    let again = hex("04 00 0A 00 07 00 04 00 65 00 02 00 04 00 0A 00 07 00 04 00 14 00 02 00");
    let outcome = run(&again, Lent { work: 15, room: 0 }, |_| {});
    assert_eq!((outcome.stop, outcome.records, outcome.terms), (8, 3, 3));
}

/// A repeat is a record of a term on the list as it stands then; a back takes none away, and the stopping record is none.
#[test]
fn repeats() {
    let outcome = |text: &str| {
        let out = run(&hex(text), Lent { work: 800, room: 0 }, |_| {});
        (out.stop, out.terms, out.repeats)
    };
    assert_eq!(outcome("04 00 0A 00 07 00 04 00 0A 00 07 00 04 00 0A 00 07 00"), (0, 3, 2));
    assert_eq!(outcome("04 00 0A 00 07 00 04 00 0A 00 07 00 04 00 65 00 02 00 04 00 0A 00 07 00"), (0, 3, 1));
    assert_eq!(outcome("04 00 0A 00 07 00 04 00 0A 00 07 00 04 00 14 00 09 00"), (6, 3, 1));
    assert_eq!(run(&vec![0; 16_777_217], Lent { work: 0, room: 0 }, |_| {}).repeats, 0);
}

#[test]
fn the_codes_of_answers() {
    assert_eq!(answers(&hex("04 00 64 00 01 00")), [(10, 0)]);
    assert_eq!(answers(&hex("06 00 64 00 01 00 00 00")), [(11, 0)]);
    assert_eq!(claim(2, |_| (YES, YES)).0, 12);
    let zero = |m: &mut Maker| m.pool.add(CONSTANT, &[1, 0], &[]);
    let bits = |m: &mut Maker, bit: Id| m.pool.bb(&[bit]);
    assert_eq!(claim(1, |m| (m.variable(1, 0), bits(m, NO))).0, 13);
    assert_eq!(
        claim(1, |m| (zero(m), {
            let x = m.variable(1, 0);
            let bit = m.pool.bit(0, x);
            bits(m, bit)
        }))
        .0,
        14
    );
    assert_eq!(claim(1, |m| (zero(m), bits(m, YES))).0, 15);
    assert_eq!(claim(1, |m| (zero(m), bits(m, NO))).0, 0);
    let swapped = |m: &mut Maker| {
        let (left, [x0, y0]) = over(m, BV_SLT, 1, 2);
        let not = m.pool.not(y0);
        (left, m.pool.op(AND, &[not, x0]))
    };
    assert_eq!(claim(9, swapped).0, 16);
    let low_first = |m: &mut Maker| {
        let (left, _) = over(m, BV_AND, 2, 2);
        let args = m.pool.args(left).to_vec();
        let slice = |m: &mut Maker, i: u64| {
            let parts: Vec<Id> = args.iter().map(|&x| m.pool.add(EXTRACT, &[i, i], &[x])).collect();
            m.pool.op(BV_AND, &parts)
        };
        let slices = [slice(m, 0), slice(m, 1)];
        (left, m.pool.op(CONCAT, &slices))
    };
    assert_eq!(claim(23, low_first).0, 17);
}

#[test]
fn the_rows_of_specimens() {
    let slt = |m: &mut Maker| {
        let (left, [x0, y0]) = over(m, BV_SLT, 1, 2);
        let not = m.pool.not(y0);
        (left, m.pool.op(AND, &[x0, not]))
    };
    assert_eq!(claim(9, slt), (0, 2));
    let equal = |m: &mut Maker, inside: bool| {
        let (left, bits) = over(m, EQUALS, 1, 2);
        let right = m.pool.op(EQUALS, &bits);
        (left, if inside { m.pool.op(AND, &[right]) } else { right })
    };
    assert_eq!(claim(13, |m| equal(m, false)), (0, 1));
    assert_eq!(claim(13, |m| equal(m, true)), (16, 0));
    let alone = |m: &mut Maker, kind: u16| {
        let (left, _) = over(m, kind, 5, 1);
        (left, m.variable(5, 0))
    };
    assert_eq!(claim(3, |m| alone(m, BV_AND)), (0, 0));
    assert_eq!(claim(10, |m| alone(m, BV_ADD)), (16, 0));
    let neg = |m: &mut Maker| {
        let (left, _) = over(m, BV_NEG, 1, 1);
        (left, expected(&mut m.pool, 12, left))
    };
    assert_eq!(claim(12, neg), (0, 3));
}

/// The values of a rule's circuit and of its left side at x and y.
fn both(rule: u16, kind: u16, width: usize, x: u64, y: u64) -> (u64, u64) {
    let mut maker = Maker::new(0);
    let (left, _) = over(&mut maker, kind, width, 2);
    let right = expected(&mut maker.pool, rule, left);
    let claim = maker.equals(left, right);
    assert!(verdict(&mut maker.pool, rule, &[claim]) <= 1);
    let below = maker.pool.below(&[claim]);
    let mut values = vec![0; claim + 1];
    let pool = &maker.pool;
    fill(pool, &below, &mut values, &mut |id| if pool.term(id).numbers[1] == 0 { x } else { y });
    (values[right], values[left])
}

#[test]
fn the_rows_of_values() {
    assert_eq!(both(20, BV_ASHR, 1, 1, 1), (0, 1));
    assert_eq!(both(21, BV_UDIV, 1, 0, 1), (1, 0));
    assert_eq!(both(22, BV_UREM, 1, 1, 1), (1, 0));
    assert_eq!(both(11, BV_MUL, 2, 3, 3), (1, 1));
    // By 0 and beyond the width.
    assert_eq!(both(21, BV_UDIV, 4, 5, 0), (15, 15));
    assert_eq!(both(22, BV_UREM, 4, 5, 0), (5, 5));
    assert_eq!(both(20, BV_ASHR, 4, 9, 2), (14, 14));
    assert_eq!(both(20, BV_ASHR, 4, 9, 4), (0, 15));
    assert_eq!(both(19, BV_LSHR, 64, u64::MAX, 63), (1, 1));
    assert_eq!(both(9, BV_SLT, 64, 1 << 63, 0), (1, 1));
}

/// Rules 24 to 26 on every pair of values of the widths 1 to 5, by division and shift of whole numbers.
#[test]
fn the_standards_circuits() {
    for width in 1..=5 {
        let end = 1u64 << width;
        for (x, y) in (0..end).flat_map(|x| (0..end).map(move |y| (x, y))) {
            let quotient = x.checked_div(y).unwrap_or(end - 1);
            assert_eq!(both(24, BV_UDIV, width, x, y), (quotient, quotient), "{x} by {y}, width {width}");
            let rest = x.checked_rem(y).unwrap_or(x);
            assert_eq!(both(25, BV_UREM, width, x, y), (rest, rest), "{x} by {y}, width {width}");
            let below = if x >= end / 2 { end - 1 } else { 0 };
            let shifted = (0..y).fold(x, |x, _| (x >> 1) | (below & (end / 2)));
            assert_eq!(both(26, BV_ASHR, width, x, y), (shifted, shifted), "{x} by {y}, width {width}");
        }
    }
}

/// Amounts that fit and that do not, on a variable of width 2 or 16: the job's stop code.
#[test]
fn amounts() {
    let code = |kind: u16, width: u16, k: u16| {
        let mut maker = Maker::new(0);
        maker.words(VARIABLE, &[width, 0], &[]);
        maker.words(kind, &[k], &[2]);
        stop(&maker.bytes, 800, 0)
    };
    for (kind, width, fit, unfit) in [
        (ZERO_EXTEND, 1, &[0, 1, 63][..], &[64, 65, 65_535][..]),
        (ZERO_EXTEND, 16, &[0, 48], &[49, 63, 64]),
        (ROTATE_LEFT, 2, &[0, 1, 2, 3, 65_535], &[]),
        (ROTATE_RIGHT, 64, &[0, 63, 64, 65, 65_535], &[]),
        (REPEAT, 1, &[1, 2, 64], &[0, 65, 65_535]),
        (REPEAT, 16, &[1, 4], &[0, 5, 64]),
    ] {
        assert!(fit.iter().all(|&k| code(kind, width, k) == 0), "kind {kind} width {width}");
        assert!(unfit.iter().all(|&k| code(kind, width, k) == 7), "kind {kind} width {width}");
    }
}

/// Rules 27 to 30 on variables of width 3 and 4: the bits that they claim.
#[test]
fn moved_bits() {
    let code = |rule: u16, kind: u16, width: usize, k: u64, places: &[usize]| {
        let build = |m: &mut Maker| {
            let x = m.variable(width, 0);
            let left = m.pool.add(kind, &[k], &[x]);
            let bits: Vec<Id> = places.iter().map(|&i| if i < width { m.pool.bit(i, x) } else { NO }).collect();
            (left, m.pool.bb(&bits))
        };
        claim(rule, build).0
    };
    assert_eq!(code(27, ZERO_EXTEND, 3, 2, &[0, 1, 2, 9, 9]), 0);
    assert_eq!(code(27, ZERO_EXTEND, 3, 2, &[9, 9, 0, 1, 2]), 16);
    assert_eq!(code(28, ROTATE_LEFT, 4, 1, &[3, 0, 1, 2]), 0);
    assert_eq!(code(28, ROTATE_LEFT, 4, 65_535, &[1, 2, 3, 0]), 0);
    assert_eq!(code(29, ROTATE_RIGHT, 4, 1, &[1, 2, 3, 0]), 0);
    assert_eq!(code(29, ROTATE_RIGHT, 4, 1, &[3, 0, 1, 2]), 16);
    assert_eq!(code(29, ROTATE_LEFT, 4, 1, &[1, 2, 3, 0]), 11);
    assert_eq!(code(30, REPEAT, 3, 2, &[0, 1, 2, 0, 1, 2]), 0);
    assert_eq!(code(30, REPEAT, 3, 2, &[0, 1, 2, 9, 9, 9]), 16);
    let itself = |m: &mut Maker| {
        let x = m.variable(3, 0);
        (m.pool.add(ZERO_EXTEND, &[0], &[x]), x)
    };
    assert_eq!(claim(27, itself).0, 16);
    assert_eq!(code(27, ZERO_EXTEND, 3, 0, &[0, 1, 2]), 0);
}

/// Rule 20 on a BvBbTerm of two bits: held exactly where its last bit is `false` itself.
#[test]
fn an_arithmetic_shift_is_held_below_a_literal_false() {
    let code = |low: fn(&mut Maker) -> Id, top: fn(&mut Maker) -> Id| {
        let build = |m: &mut Maker| {
            let bits = [low(m), top(m)];
            let (x, y) = (m.pool.bb(&bits), m.variable(2, 1));
            let left = m.pool.op(BV_ASHR, &[x, y]);
            (left, expected(&mut m.pool, 20, left))
        };
        claim(20, build).0
    };
    let not_true: fn(&mut Maker) -> Id = |m| m.pool.not(YES);
    assert_eq!(code(|_| YES, |_| NO), 0);
    assert_eq!(code(|_| NO, |_| YES), 1);
    assert_eq!(code(|_| NO, not_true), 1);
    let constant = |m: &mut Maker| {
        let x = m.pool.add(CONSTANT, &[2, 0], &[]);
        let left = m.pool.op(BV_ASHR, &[x, x]);
        (left, expected(&mut m.pool, 20, left))
    };
    assert_eq!(claim(20, constant).0, 1);
}

/// Every rule is answered in every way that it can be, and nothing contradicts what the generator knows.
#[test]
fn cases_reach_everything() {
    let mut summary = Summary::default();
    (0..3_000).for_each(|i| summary.look(i, &case(7, i)));
    assert_eq!((summary.faults.clone(), summary.missing()), (vec![], vec![]));
}

/// A job with x and y of width 1, and the held steps 1: (= x bb(x0)), 2: (= y bb(y0)) of rule 2.
fn two_premises() -> (Maker, [Id; 4]) {
    let mut maker = Maker::new(0);
    let [x, y] = [0, 1].map(|name| maker.variable(1, name));
    let [a, b] = [x, y].map(|v| expected(&mut maker.pool, 2, v));
    for (v, bits) in [(x, a), (y, b)] {
        let claim = maker.equals(v, bits);
        maker.step(2, &[claim], None);
    }
    (maker, [x, a, y, b])
}

/// The code of one chain after the two premises.
fn chained(rule: u16, places: &[u16], conclusion: impl FnOnce(&mut Maker, [Id; 4]) -> Id) -> u16 {
    let (mut maker, terms) = two_premises();
    let literal = conclusion(&mut maker, terms);
    maker.chain(rule, places, literal, None);
    answers(&maker.bytes)[2].0
}

#[test]
fn chains_join() {
    let turned = |m: &mut Maker, [x, a, _, _]: [Id; 4]| m.equals(a, x);
    assert_eq!(chained(31, &[1], turned), 0);
    assert_eq!(chained(31, &[1, 1], turned), 11);
    assert_eq!(chained(31, &[1], |m, [x, a, _, _]| m.equals(x, a)), 11);
    for place in [0, 3, 4, 65_535] {
        assert_eq!(chained(31, &[place], turned), 24);
    }
    assert_eq!(chained(32, &[1], |m, [x, a, _, _]| m.equals(x, a)), 11);
    assert_eq!(chained(32, &[1, 2], |m, [x, _, _, b]| m.equals(x, b)), 11);
    let sum = |m: &mut Maker, left: [Id; 2], right: [Id; 2]| {
        let sides = [left, right].map(|args| m.pool.op(BV_ADD, &args));
        m.equals(sides[0], sides[1])
    };
    assert_eq!(chained(33, &[1, 2], |m, [x, a, y, b]| sum(m, [x, y], [a, b])), 0);
    assert_eq!(chained(33, &[2, 1], |m, [x, a, y, b]| sum(m, [x, y], [a, b])), 11);
    assert_eq!(chained(33, &[1], |m, [x, a, y, b]| sum(m, [x, y], [a, b])), 11);
    let rotated = |m: &mut Maker, [x, a, _, _]: [Id; 4], k: u64| {
        let sides = [(0, x), (k, a)].map(|(k, v)| m.pool.add(ROTATE_LEFT, &[k], &[v]));
        m.equals(sides[0], sides[1])
    };
    assert_eq!(chained(33, &[1], |m, terms| rotated(m, terms, 0)), 0);
    assert_eq!(chained(33, &[1], |m, terms| rotated(m, terms, 1)), 11);
}

/// A premise whose literal a back has dropped is none, even where the same term is there again under the same number.
#[test]
fn a_dropped_premise() {
    let code = |count: usize| {
        let (mut maker, [x, a, _, _]) = two_premises();
        let (premise, turned) = (maker.equals(x, a), maker.equals(a, x));
        maker.back(count);
        maker.emit(premise);
        maker.chain(31, &[1], turned, None);
        answers(&maker.bytes)[2].0
    };
    let (maker, [x, a, _, _]) = two_premises();
    let place = maker.list.iter().position(|&id| maker.pool.sides(id) == Some((x, a))).unwrap();
    assert_eq!((code(place), code(place + 1)), (24, 0));
}

#[test]
fn the_order_of_tests_in_a_chain() {
    // Count, literal, rule, room: 5, 6, 9, 19.
    assert_eq!(stop(&hex("0A 00 68 00 63 00 00 00 01 00 09 00"), 0, 0), 5);
    assert_eq!(stop(&hex("0A 00 68 00 63 00 02 00 01 00 09 00"), 0, 0), 5);
    assert_eq!(stop(&hex("0A 00 68 00 63 00 01 00 01 00 09 00"), 0, 0), 6);
    assert_eq!(stop(&hex("0A 00 68 00 1E 00 01 00 01 00 00 00"), 0, 0), 9);
    assert_eq!(stop(&hex("0A 00 68 00 1F 00 01 00 01 00 00 00"), 0, 9), 19);
    assert_eq!(answers(&hex("0A 00 68 00 1F 00 01 00 01 00 00 00")), [(24, 0)]);
    assert_eq!(stop(&hex("06 00 64 00 1F 00 00 00"), 0, 0), 9);
}
