//! Sweeps, counts and derived bits: the service, and the library beside a plain evaluator of the same terms.
use bitblast_host::{
    MAX_SWEPT_BITS, Service, Tally, Verdict,
    jobs::{self, JobWriter, Kind, TRUE, Term},
    plain::Plain,
    rng::Rng,
    words,
};

/// A job that claims nothing, and the number of an equality in it.
fn equality(build: impl FnOnce(&mut JobWriter) -> (Term, Term)) -> (Vec<u8>, u32) {
    let mut job = JobWriter::new();
    let (left, right) = build(&mut job);
    let equality = job.term(Kind::Equals, &[left, right]);
    let number = job.number(equality);
    (job.finish(), number)
}

#[test]
fn a_service_sweeps() {
    let mut service = Service::new(1 << 16, 100);
    let sweep = service.sweep(&jobs::specimen(), 9);
    assert_eq!((sweep.code(), sweep.assignments(), sweep.differing(), sweep.no_difference()), (0, 4, 0, true));
    assert_eq!(sweep.outcome().numbers(), [0, 9, 1, 10, 0]);
    assert_eq!(sweep.answers().map(|answer| answer.verdict()).collect::<Vec<_>>(), [Verdict::Held]);
    assert_eq!(service.tally(), Tally::default());
    // A larger store, then the small one again in the larger buffer.
    let (wide, number) = equality(|job| {
        let (x, c) = (job.bv_var(16, 0), job.constant(16, 9));
        for k in 0..1_000 {
            let other = job.bool_var(k);
            job.number(other);
        }
        (x, c)
    });
    let sweep = service.sweep(&wide, number);
    assert_eq!((sweep.outcome().terms, number), (1_005, 1_004));
    assert_eq!((sweep.assignments(), sweep.differing(), sweep.no_difference()), (65_536, 65_535, false));
    assert!(service.sweep(&jobs::specimen(), 9).no_difference());
    for number in [8, 10, u32::MAX] {
        let sweep = service.sweep(&jobs::specimen(), number);
        assert_eq!((sweep.code(), sweep.assignments(), sweep.no_difference()), (20, 0, false));
        assert_eq!(sweep.meaning(), words::sweep_meaning(20));
    }
    assert_eq!(service.sweep(&jobs::specimen()[..69], 9).outcome().stop, 3);
}

/// One pattern of sixteen bits makes the difference, and seventeen bits are refused.
#[test]
fn one_assignment_in_many() {
    let mut service = Service::new(1 << 16, 100);
    for value in [0, 1, 300, 65_535] {
        let (job, number) = equality(|job| {
            let (x, y, z) = (job.bool_var(1), job.bv_var(7, 1), job.bv_var(8, 1));
            let values = [job.constant(7, value >> 1), job.constant(8, value >> 8)];
            let not_x = job.term(Kind::Not, &[x]);
            let tests = [
                if value % 2 == 1 { x } else { not_x },
                job.term(Kind::Equals, &[y, values[0]]),
                job.term(Kind::Equals, &[values[1], z]),
            ];
            let all = job.term(Kind::And, &tests);
            (job.term(Kind::Not, &[all]), TRUE)
        });
        let sweep = service.sweep(&job, number);
        assert_eq!((sweep.code(), sweep.assignments(), sweep.differing()), (0, 65_536, 1), "{value}");
    }
    let (job, number) = equality(|job| (job.bv_var(17, 0), job.bv_var(17, 0)));
    assert_eq!(service.sweep(&job, number).code(), 20);
}

#[test]
fn a_service_counts() {
    let mut service = Service::new(1 << 16, 100);
    let count = service.count(&jobs::specimen(), 7);
    assert_eq!((count.code(), count.counts()), (0, &[3, 1][..]));
    assert_eq!(count.outcome().numbers(), [0, 9, 1, 10, 0]);
    assert_eq!(count.answers().map(|answer| answer.verdict()).collect::<Vec<_>>(), [Verdict::Held]);
    assert_eq!(service.tally(), Tally::default());
    let wide = |width: usize| {
        let mut job = JobWriter::new();
        let x = job.bv_var(width, 0);
        job.number(x);
        job.finish()
    };
    assert_eq!(service.count(&wide(8), 2).counts(), [1; 256]);
    // What a larger count has left there is not taken for counts.
    assert_eq!(service.count(&wide(2), 2).counts(), [1; 4]);
    for (job, number) in [(wide(9), 2), (wide(8), 3), (jobs::specimen()[..69].to_vec(), 7)] {
        let count = service.count(&job, number);
        assert_eq!((count.code(), count.counts(), count.meaning()), (20, &[][..], words::count_meaning(20)));
    }
}

/// Every narrow term of random jobs: the library and the plain evaluator count the same.
#[test]
fn counts_beside_a_plain_evaluator() {
    let mut rng = Rng::new(21);
    let mut service = Service::new(1 << 20, 1 << 12);
    let (mut counted, mut refused) = (0, 0);
    for _ in 0..100 {
        let (job, _) = jobs::random_right(&mut rng);
        let plain = Plain::read(&job);
        let terms = service.check(&job).outcome().terms;
        for number in (2..terms).step_by(7) {
            let mut program = plain.program(number as usize).unwrap();
            if program.bits() > 8 {
                continue;
            }
            let count = service.count(&job, number);
            if program.width() > 8 {
                refused += 1;
                assert_eq!((count.code(), count.counts()), (20, &[][..]));
                continue;
            }
            let mut counts = vec![0; 1 << program.width().max(1)];
            program.each_value(|value| counts[value as usize] += 1);
            assert_eq!((count.code(), count.counts()), (0, &counts[..]), "term {number}");
            counted += 1;
        }
    }
    assert!(counted > 500 && refused > 5, "{counted} counted, {refused} refused");
}

#[test]
fn a_service_derives_bits() {
    let mut service = Service::new(1 << 16, 100);
    let known = service.known(&jobs::specimen(), 7, &[2, 1]);
    assert_eq!((known.code(), known.bits()), (0, &[0][..]));
    assert_eq!(known.outcome().numbers(), [0, 9, 1, 10, 0]);
    assert_eq!(known.answers().map(|answer| answer.verdict()).collect::<Vec<_>>(), [Verdict::Held]);
    assert_eq!(service.tally(), Tally::default());
    // 64 bits of a variable, more than are swept; then one that leaves nothing of them.
    let mut job = JobWriter::new();
    let x = job.bv_var(64, 0);
    job.number(x);
    let job = job.finish();
    let inputs: Vec<u8> = (0..64).map(|k| k % 3).collect();
    assert_eq!(service.known(&job, 2, &inputs).bits(), inputs);
    assert_eq!(service.known(&jobs::specimen(), 6, &[2]).bits(), [2]);
    for (number, inputs, code) in
        [(7, &[2, 3][..], 23), (7, &[2], 23), (8, &[2, 2], 23), (9, &[2, 2], 23), (10, &[], 20)]
    {
        let known = service.known(&jobs::specimen(), number, inputs);
        assert_eq!((known.code(), known.bits(), known.meaning()), (code, &[][..], words::known_meaning(code)));
    }
}

/// Terms of random jobs with some of their inputs: what is derived is the bit of the plain evaluator under every assignment that fits, with all
/// inputs known every bit is, and one input more changes no bit that was known.
#[test]
fn bits_beside_a_plain_evaluator() {
    let mut rng = Rng::new(22);
    let mut service = Service::new(1 << 20, 1 << 12);
    let (mut settled, mut open, mut refused) = (0, 0, 0);
    for _ in 0..100 {
        let (job, _) = jobs::random_right(&mut rng);
        let plain = Plain::read(&job);
        let terms = service.check(&job).outcome().terms;
        for number in (2..terms).step_by(5) {
            let mut program = plain.program(number as usize).unwrap();
            let (bits, width) = (program.bits() as usize, program.width().max(1) as usize);
            if bits > 8 {
                continue;
            }
            let mut values = Vec::new();
            program.each_value(|value| values.push(value));
            let assignment = rng.below(values.len());
            let truth = |k: usize| (assignment >> k & 1) as u8;
            let mut inputs: Vec<u8> = (0..bits).map(|k| if rng.below(2) == 0 { 2 } else { truth(k) }).collect();
            let known = service.known(&job, number, &inputs);
            if known.code() != 0 {
                refused += 1;
                assert_eq!((known.code(), known.bits()), (23, &[][..]), "term {number}");
                continue;
            }
            let mut before = known.bits().to_vec();
            assert_eq!(before.len(), width, "term {number}");
            let fits = |a: usize, inputs: &[u8]| (0..bits).all(|k| inputs[k] == 2 || inputs[k] == (a >> k & 1) as u8);
            for (a, value) in values.iter().enumerate().filter(|(a, _)| fits(*a, &inputs)) {
                let agrees = |(k, &bit): (usize, &u8)| bit == 2 || bit == (value >> k & 1) as u8;
                assert!(before.iter().enumerate().all(agrees), "term {number}, assignment {a}");
            }
            for k in (0..bits).filter(|&k| inputs[k] == 2).collect::<Vec<_>>() {
                open += before.iter().filter(|&&bit| bit == 2).count();
                inputs[k] = truth(k);
                let after = service.known(&job, number, &inputs).bits().to_vec();
                assert!(
                    before.iter().zip(&after).all(|(&old, &new)| old == 2 || old == new),
                    "term {number}, input {k}"
                );
                before = after;
            }
            let all: Vec<u8> = (0..width).map(|k| (values[assignment] >> k & 1) as u8).collect();
            assert_eq!(before, all, "term {number}");
            settled += 1;
        }
    }
    assert!(settled > 300 && open > 300 && refused > 20, "{settled} settled, {open} open, {refused} refused");
}

/// Every equality of random jobs: the library and the plain evaluator find the same, and none where the step is held.
#[test]
fn beside_a_plain_evaluator() {
    let mut rng = Rng::new(20);
    let mut service = Service::new(1 << 20, 1 << 12);
    let (mut same, mut apart, mut refused) = (0, 0, 0);
    for _ in 0..400 {
        let (job, _) = jobs::random_right(&mut rng);
        let terms = service.check(&job).outcome().terms;
        let plain = Plain::read(&job);
        for number in (0..terms).filter(|&number| plain.kind(number as usize) == Some(Kind::Equals)) {
            let mut program = plain.program(number as usize).unwrap();
            let bits = program.bits() as usize;
            if bits > 10 && bits <= MAX_SWEPT_BITS {
                continue;
            }
            let sweep = service.sweep(&job, number);
            if bits > MAX_SWEPT_BITS {
                refused += 1;
                assert_eq!((sweep.code(), sweep.assignments(), sweep.differing()), (20, 0, 0));
                continue;
            }
            assert_eq!((sweep.code(), (sweep.assignments(), sweep.differing())), (0, program.sweep()), "term {number}");
            *if sweep.no_difference() { &mut same } else { &mut apart } += 1;
        }
    }
    assert!(same > 100 && apart > 20 && refused > 50, "{same} equal, {apart} not, {refused} refused");
}
