//! The job writer: its right claims are accepted at all kinds of widths, its wrong ones refused.
use bitblast_host::{
    Service, Verdict,
    circuits::is_quadratic,
    jobs::{self, JobWriter, Kind},
    rng::Rng,
    words::RULES,
};

fn service() -> Service {
    Service::new(1 << 20, 1 << 16)
}

fn right_code(rule: u16) -> u16 {
    u16::from(matches!(rule, 20..=22))
}

#[test]
fn right_claims_of_every_rule() {
    let mut service = service();
    for rule in 1..=RULES.len() as u16 {
        let widths: &[usize] = match is_quadratic(rule) {
            true => &[1, 2, 3, 4, 5, 8, 12],
            false => &[1, 2, 3, 4, 5, 7, 8, 9, 16, 31, 32, 33, 63, 64],
        };
        for &width in widths {
            let report = service.check(&jobs::right_claim(rule, width));
            assert_eq!(report.outcome().stop, 0, "rule {rule} width {width}");
            let codes: Vec<u16> = report.answers().map(|answer| answer.code).collect();
            assert_eq!(codes, [right_code(rule)], "rule {rule} width {width}");
        }
    }
}

#[test]
fn wide_products_and_divisions_fit() {
    let mut service = service();
    for (rule, width, terms) in
        [(11, 64, 12_106), (21, 64, 58_732), (22, 64, 56_723), (24, 64, 63_534), (25, 64, 61_582)]
    {
        let report = service.check(&jobs::right_claim(rule, width));
        assert_eq!((report.outcome().stop, report.outcome().terms), (0, terms), "rule {rule}");
        assert!(report.answers().all(|answer| answer.code == right_code(rule)));
    }
}

/// The standard's divisions and arithmetic shift at every width; the original's circuits for the same operations are no claims of these rules.
#[test]
fn the_standards_divisions_and_shift() {
    let mut service = service();
    for (original, rule) in [(20, 26), (21, 24), (22, 25)] {
        for width in 1..=64 {
            let mut job = JobWriter::new();
            let left = job.left_side(rule, width);
            let right = job.circuit(rule, left);
            job.claim(rule, left, right);
            let report = service.check(&job.finish());
            assert!(report.all_held(), "rule {rule} width {width}: {:?}", report.outcome());
        }
        let mut job = JobWriter::new();
        let left = job.left_side(rule, 6);
        let (right, wrong) = (job.circuit(rule, left), job.circuit(original, left));
        for (rule, right) in [(rule, wrong), (original, right), (original, wrong), (rule, right)] {
            job.claim(rule, left, right);
        }
        let codes: Vec<u16> = service.check(&job.finish()).answers().map(|answer| answer.code).collect();
        assert_eq!(codes, [16, 16, 1, 0], "rule {rule}");
    }
}

/// The four kinds that move bits, with their rules, and amounts that fit a term of n bits.
fn moves(n: usize) -> Vec<(u16, Kind, usize)> {
    let rotations = [0, 1, n - 1, n, n + 1, 3 * n, 65_535];
    let fits = |by: &usize| n + by <= 64;
    let mut moves: Vec<(u16, Kind, usize)> = Vec::new();
    moves.extend([0, 1, n - 1, n, n + 1, 64 - n].into_iter().filter(fits).map(|by| (27, Kind::ZeroExtend, by)));
    moves.extend(rotations.map(|by| (28, Kind::RotateLeft, by)));
    moves.extend(rotations.map(|by| (29, Kind::RotateRight, by)));
    moves.extend((1..=64 / n).map(|by| (30, Kind::Repeat, by)));
    moves
}

/// Of a variable, and of a BvBbTerm, whose bits are its arguments; repeated to exactly 64 bits where n divides 64.
#[test]
fn moved_bits_of_every_width() {
    let mut service = service();
    for n in 1..=64 {
        let mut job = JobWriter::new();
        let x = job.bv_var(n, 0);
        let bits: Vec<jobs::Term> = (0..n).map(|k| job.bool_var(k as u16)).collect();
        let list = job.term(Kind::BvBbTerm, &bits);
        for (rule, kind, by) in moves(n) {
            for operand in [x, list] {
                let left = job.moved(kind, by, operand);
                let right = job.circuit(rule, left);
                job.claim(rule, left, right);
            }
        }
        let report = service.check(&job.finish());
        assert_eq!(report.outcome().answers as usize, 2 * moves(n).len());
        assert!(report.all_held(), "width {n}: {:?}", report.answers().find(|answer| answer.code != 0));
    }
}

/// The move by which the circuit is made, and another move on the left side: code 16, and under another kind's rule 11.
#[test]
fn other_moves_are_refused() {
    let codes = |rule: u16, kind: Kind, by: usize, right_kind: Kind, right_by: usize| -> Vec<u16> {
        let mut job = JobWriter::new();
        let x = job.bv_var(5, 0);
        let (left, other) = (job.moved(kind, by, x), job.moved(right_kind, right_by, x));
        let rules = [(Kind::ZeroExtend, 27), (Kind::RotateLeft, 28), (Kind::RotateRight, 29), (Kind::Repeat, 30)];
        let right = job.circuit(rules.into_iter().find(|(k, _)| *k == right_kind).unwrap().1, other);
        job.claim(rule, left, right);
        service().check(&job.finish()).answers().map(|answer| answer.code).collect()
    };
    assert_eq!(codes(28, Kind::RotateLeft, 2, Kind::RotateRight, 3), [0]);
    assert_eq!(codes(28, Kind::RotateLeft, 2, Kind::RotateLeft, 65_002), [0]);
    assert_eq!(codes(28, Kind::RotateLeft, 2, Kind::RotateRight, 2), [16]);
    assert_eq!(codes(29, Kind::RotateRight, 1, Kind::RotateRight, 2), [16]);
    assert_eq!(codes(28, Kind::RotateRight, 2, Kind::RotateLeft, 3), [11]);
    assert_eq!(codes(27, Kind::Repeat, 2, Kind::ZeroExtend, 5), [11]);
    assert_eq!(codes(30, Kind::Repeat, 2, Kind::ZeroExtend, 5), [16]);
    assert_eq!(codes(27, Kind::ZeroExtend, 0, Kind::Repeat, 1), [0]);
}

/// By 0 or 1 the circuit is the BvBbTerm of the operand's bits, and the operand itself only where it is one.
#[test]
fn moves_that_change_nothing() {
    for (rule, kind, by) in
        [(27, Kind::ZeroExtend, 0), (28, Kind::RotateLeft, 0), (29, Kind::RotateRight, 4), (30, Kind::Repeat, 1)]
    {
        let mut job = JobWriter::new();
        let x = job.bv_var(4, 0);
        let list = job.circuit(2, x);
        for (operand, right) in [(x, list), (x, x), (list, list)] {
            let left = job.moved(kind, by, operand);
            job.claim(rule, left, right);
        }
        let codes: Vec<u16> = service().check(&job.finish()).answers().map(|answer| answer.code).collect();
        assert_eq!(codes, [0, 16, 0], "rule {rule}");
    }
}

/// A wrong amount, or more than 64 bits, stops the job with 7. The writer keeps to the record and leaves that to the library.
#[test]
fn amounts_that_do_not_fit() {
    let stop = |kind: Kind, by: usize, width: usize| {
        let mut job = JobWriter::new();
        let x = job.bv_var(width, 0);
        let left = job.moved(kind, by, x);
        job.number(left);
        service().check(&job.finish()).outcome().stop
    };
    for (kind, by, width) in [
        (Kind::ZeroExtend, 64, 1),
        (Kind::ZeroExtend, 1, 64),
        (Kind::ZeroExtend, 65_535, 1),
        (Kind::Repeat, 0, 1),
        (Kind::Repeat, 65, 1),
        (Kind::Repeat, 2, 33),
        (Kind::Repeat, 65_535, 64),
    ] {
        assert_eq!(stop(kind, by, width), 7, "{kind:?} {by} {width}");
    }
    for (kind, by, width) in [(Kind::ZeroExtend, 63, 1), (Kind::Repeat, 64, 1), (Kind::RotateLeft, 65_535, 1)] {
        assert_eq!(stop(kind, by, width), 0, "{kind:?} {by} {width}");
    }
}

#[test]
fn a_variable_for_the_circuit_is_refused() {
    let mut service = service();
    for rule in 1..=RULES.len() as u16 {
        let mut job = JobWriter::new();
        let left = job.left_side(rule, 4);
        let other = match job.width(left) {
            0 => job.bool_var(9),
            width => job.bv_var(width, 9),
        };
        job.claim(rule, left, other);
        let report = service.check(&job.finish());
        let answer = report.answers().next().unwrap();
        assert_eq!(answer.verdict(), Verdict::Refused, "rule {rule}");
        assert_eq!(answer.code, if matches!(rule, 1 | 15 | 16 | 23) { 11 } else { 16 }, "rule {rule}");
    }
}

#[test]
fn random_right_jobs_are_accepted() {
    let mut rng = Rng::new(3);
    let mut service = service();
    for k in 0..500 {
        let (job, expected) = jobs::random_right(&mut rng);
        let report = service.check(&job);
        assert_eq!(report.outcome().stop, 0, "job {k}");
        let codes: Vec<u16> = report.answers().map(|answer| answer.code).collect();
        assert_eq!(codes, expected, "job {k}");
    }
    assert_eq!(service.tally().jobs, 500);
    assert_eq!(service.tally().refused, 0);
}

#[test]
fn bytes_of_the_specimen() {
    let text = "06 00 0B 00 01 00 00 00 06 00 0B 00 01 00 01 00 06 00 1E 00 00 00 02 00 06 00 1E 00 00 00 03 00 \
        04 00 14 00 05 00 06 00 15 00 04 00 06 00 06 00 32 00 02 00 03 00 06 00 18 00 08 00 07 00 06 00 64 00 09 00 09 00";
    let bytes: Vec<u8> = text.split(' ').map(|byte| u8::from_str_radix(byte, 16).unwrap()).collect();
    assert_eq!(jobs::specimen(), bytes);
}

#[test]
fn backs_drop_terms() {
    let mut job = JobWriter::new();
    let (x, y) = (job.bool_var(0), job.bool_var(1));
    let gate = job.term(Kind::Xor, &[x, y]);
    assert_eq!(job.number(gate), 4);
    job.back(3);
    assert_eq!((job.number(y), job.number(gate), job.count()), (3, 4, 5));
    let report = service().check(&job.finish()).outcome();
    assert_eq!((report.stop, report.records, report.terms), (0, 6, 5));
}
