//! Chains: what is joined, what a premise may be, and in which order a chain's record is looked at.
use bitblast_host::{
    Service,
    jobs::{CONG, JobWriter, Kind, SYMM, TRANS, TRUE, Term},
    run_job,
};

fn codes(job: JobWriter) -> Vec<u16> {
    let mut service = Service::new(1 << 16, 1 << 16);
    let report = service.check(&job.finish());
    assert_eq!(report.outcome().stop, 0);
    report.answers().map(|answer| answer.code).collect()
}

fn equality(job: &mut JobWriter, left: Term, right: Term) -> Term {
    job.term(Kind::Equals, &[left, right])
}

/// A held step `x = bits` over the variable of that name, and its two sides.
fn variable(job: &mut JobWriter, width: usize, name: u16) -> (Term, Term) {
    let x = job.bv_var(width, name);
    let bits = job.circuit(2, x);
    job.claim(2, x, bits);
    (x, bits)
}

/// A held step `(bvult x y) = gate`, and its two sides.
fn comparison(job: &mut JobWriter, width: usize) -> (Term, Term) {
    let left = job.left_side(8, width);
    let right = job.circuit(8, left);
    job.claim(8, left, right);
    (left, right)
}

#[test]
fn symm_and_trans() {
    let mut job = JobWriter::new();
    let (x, bits) = variable(&mut job, 3, 0);
    let (forth, back) = (equality(&mut job, x, bits), equality(&mut job, bits, x));
    let (same_x, same_bits) = (equality(&mut job, x, x), equality(&mut job, bits, bits));
    job.chain(SYMM, &[1], back);
    job.chain(TRANS, &[1, 2], same_x);
    job.chain(TRANS, &[2, 1], same_bits);
    job.chain(TRANS, &[3, 3, 1, 4], forth);
    let there_and_back: Vec<u16> = (0..64).map(|k| 1 + k % 2).collect();
    job.chain(TRANS, &there_and_back, same_x);
    job.chain(SYMM, &[6], same_x);
    assert_eq!(codes(job), [0; 7]);
}

/// The answer has the chain's rule and the depth of its right side.
#[test]
fn answers_of_chains() {
    let mut job = JobWriter::new();
    let (left, gate) = comparison(&mut job, 3);
    let (forth, back) = (equality(&mut job, left, gate), equality(&mut job, gate, left));
    job.chain(SYMM, &[1], back);
    job.chain(SYMM, &[2], forth);
    job.chain(SYMM, &[2], back);
    let mut service = Service::new(1 << 16, 1 << 16);
    let report = service.check(&job.finish());
    let answers: Vec<_> = report.answers().map(|a| (a.step, a.rule, a.code, a.depth)).collect();
    assert_eq!(answers, [(1, 8, 0, 6), (2, SYMM, 0, 0), (3, SYMM, 0, 6), (4, SYMM, 11, 0)]);
    assert_eq!((report.tally().held, report.tally().refused), (3, 1));
}

/// Over kinds with one, two, three and 64 arguments, with and without numbers of their own.
#[test]
fn cong_over_every_sort_of_kind() {
    let mut job = JobWriter::new();
    let (x, bits_x) = variable(&mut job, 3, 0);
    let (y, bits_y) = variable(&mut job, 3, 1);
    let (less, gate) = comparison(&mut job, 3);
    let both = |job: &mut JobWriter, make: &dyn Fn(&mut JobWriter, [Term; 3]) -> Term| {
        let (left, right) = (make(job, [x, y, less]), make(job, [bits_x, bits_y, gate]));
        equality(job, left, right)
    };
    type Make = fn(&mut JobWriter, [Term; 3]) -> Term;
    let cases: [(&[u16], Make); 11] = [
        (&[1], |job, [x, _, _]| job.term(Kind::BvNot, &[x])),
        (&[1, 2], |job, [x, y, _]| job.term(Kind::BvUDiv, &[x, y])),
        (&[1, 2, 1], |job, [x, y, _]| job.term(Kind::BvAdd, &[x, y, x])),
        (&[2, 1], |job, [x, y, _]| job.term(Kind::Equals, &[y, x])),
        (&[1], |job, [x, _, _]| job.bit(2, x)),
        (&[1], |job, [x, _, _]| job.extract(2, 1, x)),
        (&[1], |job, [x, _, _]| job.moved(Kind::RotateLeft, 9, x)),
        (&[3], |job, [_, _, less]| job.term(Kind::Not, &[less])),
        (&[3, 3, 3], |job, [_, _, less]| job.term(Kind::Ite, &[less, less, less])),
        (&[3, 3], |job, [_, _, less]| job.term(Kind::BvBbTerm, &[less, less])),
        (&[3; 64], |job, [_, _, less]| job.term(Kind::And, &[less; 64])),
    ];
    for (premises, make) in cases {
        let literal = both(&mut job, &make);
        job.chain(CONG, premises, literal);
    }
    assert_eq!(codes(job), [0; 14]);
}

/// Places that are no earlier step, and steps that are not held. A chain that is refused is no premise either.
#[test]
fn premises_that_are_no_held_step() {
    let mut job = JobWriter::new();
    let (x, bits) = variable(&mut job, 1, 0);
    let (forth, back) = (equality(&mut job, x, bits), equality(&mut job, bits, x));
    let left = job.left_side(21, 3);
    let form_only = job.circuit(21, left);
    job.claim(21, left, form_only);
    job.claim(3, x, bits);
    job.chain(TRANS, &[1], back);
    for place in [0, 2, 3, 4, 5, 6, 65_535] {
        let (rule, literal) = if place == 2 { (SYMM, equality(&mut job, form_only, left)) } else { (SYMM, back) };
        job.chain(rule, &[place], literal);
    }
    job.chain(SYMM, &[1], back);
    job.chain(SYMM, &[12], forth);
    let mut expected = vec![0, 1, 11, 11];
    expected.extend([24; 7]);
    expected.extend([0, 0]);
    assert_eq!(codes(job), expected);
}

/// All premises are looked at before the form.
#[test]
fn a_broken_premise_comes_before_a_wrong_form() {
    let mut job = JobWriter::new();
    let (x, bits) = variable(&mut job, 1, 0);
    let same = equality(&mut job, x, x);
    let back = equality(&mut job, bits, x);
    job.chain(SYMM, &[1, 0], back);
    job.chain(CONG, &[1, 9], TRUE);
    job.chain(TRANS, &[1, 1, 0], same);
    job.chain(TRANS, &[1, 1], same);
    assert_eq!(codes(job), [0, 24, 24, 24, 11]);
}

/// A back that drops the literal breaks the premise for good, also where the same term is added again; one that keeps it does not.
#[test]
fn premises_that_were_dropped() {
    for (kept, code) in [(0, 24), (1, 0)] {
        let mut job = JobWriter::new();
        let (x, bits) = variable(&mut job, 1, 0);
        let (forth, back) = (equality(&mut job, x, bits), equality(&mut job, bits, x));
        let count = job.number(forth) as usize + kept;
        job.back(count);
        job.number(forth);
        job.chain(SYMM, &[1], back);
        job.claim(2, x, bits);
        job.chain(SYMM, &[3], back);
        assert_eq!(codes(job), [0, code, 0, 0], "count {count}");
    }
}

/// The codes of chains from `x = bits` at place 1 and 4, `y = bits` at 2 and `bits = x` at 3, under the rule.
fn wrong_forms(rule: u16, make: impl Fn(&mut JobWriter, [(Term, Term); 2]) -> Vec<(Vec<u16>, Term, Term)>) -> Vec<u16> {
    let mut job = JobWriter::new();
    let (x, y) = (variable(&mut job, 3, 0), variable(&mut job, 3, 1));
    let back = equality(&mut job, x.1, x.0);
    job.chain(SYMM, &[1], back);
    job.claim(2, x.0, x.1);
    for (premises, left, right) in make(&mut job, [x, y]) {
        let literal = equality(&mut job, left, right);
        job.chain(rule, &premises, literal);
    }
    codes(job).split_off(4)
}

#[test]
fn wrong_forms_of_symm_and_trans() {
    // Not turned round, of another step, of two.
    let symm = wrong_forms(SYMM, |_, [(x, bits), _]| {
        vec![(vec![1], x, bits), (vec![2], bits, x), (vec![1, 4], bits, x), (vec![4], bits, x)]
    });
    assert_eq!(symm, [11, 11, 11, 0]);
    // One premise, out of order, a gap, another end, turned round.
    let trans = wrong_forms(TRANS, |_, [(x, bits), (_, other)]| {
        vec![
            (vec![1], x, bits),
            (vec![3, 1], x, x),
            (vec![1, 2], x, other),
            (vec![1, 3], x, bits),
            (vec![1, 3, 4], bits, x),
            (vec![1, 3, 4], x, bits),
        ]
    });
    assert_eq!(trans, [11, 11, 11, 11, 11, 0]);
}

#[test]
fn wrong_forms_of_cong() {
    let cong = wrong_forms(CONG, |job, [(x, bits_x), (y, bits_y)]| {
        let [and, or] =
            [Kind::BvAnd, Kind::BvOr].map(|kind| (job.term(kind, &[x, y]), job.term(kind, &[bits_x, bits_y])));
        let three = job.term(Kind::BvAnd, &[bits_x, bits_y, bits_y]);
        let (bit_0, bit_1) = (job.bit(0, x), job.bit(1, bits_x));
        vec![
            // Another kind, another number in it, another count of arguments, no arguments.
            (vec![1, 2], and.0, or.1),
            (vec![1], bit_0, bit_1),
            (vec![1, 2], and.0, three),
            (vec![1], x, x),
            // Premises out of order, too few, too many; turned round.
            (vec![2, 1], and.0, and.1),
            (vec![1], and.0, and.1),
            (vec![1, 2, 2], and.0, and.1),
            (vec![1, 2], and.1, and.0),
            (vec![4, 2], and.0, and.1),
        ]
    });
    assert_eq!(cong, [11, 11, 11, 11, 11, 11, 11, 11, 0]);
}

/// A literal that is no equality is of no rule's form.
#[test]
fn literals_that_are_no_equality() {
    let mut job = JobWriter::new();
    variable(&mut job, 1, 0);
    for rule in SYMM..=CONG {
        job.chain(rule, &[1], TRUE);
    }
    assert_eq!(codes(job), [0, 11, 11, 11]);
}

/// The stop code of a chain's record behind a held step whose literal has the number 5.
fn stop(words: &[u16], room: usize) -> u32 {
    let mut job = JobWriter::new();
    variable(&mut job, 1, 0);
    let mut job = job.finish();
    job.extend((2 * words.len() as u16).to_le_bytes());
    job.extend(words.iter().flat_map(|word| word.to_le_bytes()));
    run_job(&job, &mut [0; 64], &mut vec![0; room]).stop
}

/// In the order 5, 6, 9, 19; only then is there an answer.
#[test]
fn chains_that_stop_a_job() {
    assert_eq!(stop(&[104, SYMM, 1, 1, 5], 20), 0);
    let too_many: Vec<u16> = [104, 0, 65].into_iter().chain([1; 65]).chain([9]).collect();
    for words in
        [&[104][..], &[104, 0], &[104, 0, 0, 9], &[104, 0, 1, 9], &[104, 0, 2, 1, 9], &[104, 0, 1, 1, 1, 9], &too_many]
    {
        assert_eq!(stop(words, 10), 5, "{words:?}");
    }
    assert_eq!(stop(&[104, 0, 1, 1, 6], 10), 6);
    for rule in [0, 1, 30, 34, 65_535] {
        assert_eq!(stop(&[104, rule, 1, 1, 5], 10), 9, "rule {rule}");
    }
    for rule in SYMM..=CONG {
        assert_eq!(stop(&[100, rule, 5], 10), 9, "rule {rule}");
    }
    assert_eq!(stop(&[104, SYMM, 1, 0, 5], 19), 19);
    assert_eq!(stop(&[104, SYMM, 1, 0, 5], 20), 0);
}
