//! The safe interface: every code, words, limits, and that nothing panics.
use bitblast_host::{
    MAX_JOB_BYTES, Outcome, Service, Tally, Verdict,
    jobs::{self, JobWriter, Kind, TRUE},
    rng::Rng,
    run_job, tally_answers, words,
};

fn hex(text: &str) -> Vec<u8> {
    text.split(' ').map(|byte| u8::from_str_radix(byte, 16).unwrap()).collect()
}

fn check(job: &[u8]) -> (Outcome, Vec<(u16, u16, u32)>) {
    let mut service = Service::new(1 << 16, 1 << 16);
    let report = service.check(job);
    (report.outcome(), report.answers().map(|a| (a.rule, a.code, a.depth)).collect())
}

#[test]
fn the_specimen() {
    let mut service = Service::new(64, 10);
    let report = service.check(&jobs::specimen());
    assert_eq!(report.outcome().numbers(), [0, 9, 1, 10, 0]);
    assert_eq!(report.stop_meaning(), "the job ran to its end");
    assert!(report.all_held());
    let answers: Vec<_> = report.answers().collect();
    assert_eq!(answers.len(), 1);
    let answer = answers[0];
    assert_eq!((answer.step, answer.rule, answer.code, answer.depth), (1, 9, 0, 2));
    assert_eq!((answer.rule_name(), answer.meaning(), answer.verdict()), ("slt", "held", Verdict::Held));
    assert_eq!(report.tally().numbers(), [1, 1, 0, 0]);
    assert!(service.check(&jobs::specimen()).all_held());
    assert_eq!(service.tally().numbers(), [2, 2, 0, 0]);
}

#[test]
fn codes_that_stop_a_job() {
    let stop = |text: &str| check(&hex(text)).0.stop;
    let too_long = vec![0; MAX_JOB_BYTES + 1];
    assert_eq!(check(&too_long).0.numbers(), [2, 0, 0, 2, 0]);
    assert_eq!(check(&too_long[1..]).0.stop, 3);
    assert_eq!(stop("06 00 0B"), 3);
    assert_eq!(stop("02 00 63 00"), 4);
    assert_eq!(stop("06 00 14 00 00 00 01 00"), 5);
    assert_eq!(stop("04 00 14 00 02 00"), 6);
    assert_eq!(stop("06 00 0B 00 41 00 00 00"), 7);
    assert_eq!(stop("04 00 64 00 63 00"), 9);
    assert_eq!(stop("04 00 65 00 01 00"), 18);
    let variable = hex("06 00 0B 00 01 00 00 00");
    assert_eq!(run_job(&variable, &mut [0; 7], &mut []).stop, 8);
    assert_eq!(run_job(&variable, &mut [0; 8], &mut []).stop, 0);
    let step = hex("06 00 64 00 01 00 00 00");
    assert_eq!(run_job(&step, &mut [], &mut [0; 9]).stop, 19);
    assert_eq!(run_job(&step, &mut [], &mut [0; 10]).stop, 0);
}

/// One answer for the claim that `make` builds.
fn code(rule: u16, make: impl FnOnce(&mut JobWriter) -> (jobs::Term, jobs::Term)) -> u16 {
    let mut job = JobWriter::new();
    let (left, right) = make(&mut job);
    job.claim(rule, left, right);
    let (outcome, answers) = check(&job.finish());
    assert_eq!((outcome.stop, answers.len(), answers[0].0), (0, 1, rule));
    answers[0].1
}

#[test]
fn codes_of_answers() {
    assert_eq!(check(&hex("04 00 64 00 01 00")).1, [(1, 10, 0)]);
    assert_eq!(check(&hex("06 00 64 00 01 00 00 00")).1, [(1, 11, 0)]);
    assert_eq!(code(2, |_| (TRUE, TRUE)), 12);
    let bit = |j: &mut JobWriter, value| j.term(Kind::BvBbTerm, &[if value { TRUE } else { jobs::FALSE }]);
    assert_eq!(code(1, |j| (j.bv_var(1, 0), bit(j, false))), 13);
    assert_eq!(
        code(1, |j| {
            let b = j.bool_var(0);
            (j.constant(1, 0), j.term(Kind::BvBbTerm, &[b]))
        }),
        14
    );
    assert_eq!(code(1, |j| (j.constant(1, 0), bit(j, true))), 15);
    assert_eq!(code(1, |j| (j.constant(1, 0), bit(j, false))), 0);
    assert_eq!(
        code(9, |j| {
            let (x, y) = (j.bv_var(1, 0), j.bv_var(1, 1));
            let (x0, y0) = (j.bit(0, x), j.bit(0, y));
            let not = j.term(Kind::Not, &[y0]);
            (j.term(Kind::BvSLt, &[x, y]), j.term(Kind::And, &[not, x0]))
        }),
        16
    );
    assert_eq!(
        code(23, |j| {
            let left = j.left_side(23, 2);
            let right = j.circuit(23, left);
            let mut slices = j.node(right).unwrap().arguments.clone();
            slices.reverse();
            (left, j.term(Kind::BvConcat, &slices))
        }),
        17
    );
    assert_eq!(
        code(20, |j| {
            let left = j.left_side(20, 3);
            (left, j.circuit(20, left))
        }),
        1
    );
}

#[test]
fn every_code_has_words() {
    for code in [0, 2, 3, 4, 5, 6, 7, 8, 9, 18, 19] {
        assert_ne!(words::stop_meaning(code), "unknown code");
    }
    for code in [0, 1, 10, 11, 12, 13, 14, 15, 16, 17, 24] {
        assert_ne!(words::answer_meaning(code), "unknown code");
    }
    assert_eq!(words::stop_meaning(1), "unknown code");
    assert_eq!(words::answer_meaning(65_535), "unknown code");
    assert_eq!(
        (words::rule_name(0), words::rule_name(1), words::rule_name(23)),
        ("unknown", "value", "bitwise_slicing")
    );
    for (rule, name) in words::rules() {
        assert_eq!(words::rule_name(rule), name);
    }
    let last = (words::RULES.len() + words::CHAIN_RULES.len()) as u16;
    assert_eq!((words::rule_name(last), words::rule_name(last + 1)), ("cong", "unknown"));
}

#[test]
fn the_tally_holds_at_its_largest() {
    let answers = |codes: &[u8]| -> Vec<u8> { codes.iter().flat_map(|&c| [8, 0, 200, 0, 1, 0, c, 0, 0, 0]).collect() };
    let bytes = answers(&[0, 1, 10, 0, 17, 1, 16]);
    let mut tally = Tally::default();
    (tally.jobs, tally.held, tally.form_only) = (u64::MAX, u64::MAX - 1, u64::MAX - 2);
    tally_answers(&mut tally, &bytes, 7);
    assert_eq!(tally.numbers(), [u64::MAX, u64::MAX, u64::MAX, 3]);
    let mut tally = Tally::default();
    tally_answers(&mut tally, &bytes, 2);
    assert_eq!(tally.numbers(), [1, 1, 1, 0]);
    // More answers named than there are.
    tally_answers(&mut tally, &bytes[..19], u32::MAX);
    assert_eq!(tally.numbers(), [2, 2, 1, 0]);
}

#[test]
fn services_of_any_size() {
    for (work, answers) in [(0, 0), (7, 9), (8, 10), (usize::MAX, usize::MAX)] {
        let mut service = Service::new(work, answers);
        let report = service.check(&jobs::specimen());
        let stop = report.outcome().stop;
        assert_eq!(stop, if work < 64 { 8 } else { 0 });
        assert_eq!(report.answers().count() as u32, report.outcome().answers);
    }
}

#[test]
fn reports_in_words() {
    let mut service = Service::new(64, 10);
    let report = service.check(&jobs::specimen());
    assert_eq!(report.to_string(), "the job ran to its end: 1 held, 0 form only, 0 refused");
    assert!(format!("{report:?}").contains("answers: [Answer { step: 1, rule: 9, code: 0, depth: 2 }]"), "{report:?}");
    let mut answers = report.answers();
    assert_eq!(
        (answers.len(), answers.next().map(|answer| answer.verdict().to_string())),
        (1, Some("held".to_owned()))
    );
    assert_eq!((answers.len(), answers.next()), (0, None));
    assert!(format!("{service:?}").starts_with("Service { work_bytes: 64, answer_bytes: 10, limits: Limits { width: 64, terms: 1000000 }, tally: Tally { jobs: 1,"));
}

/// The limit on answers is a limit on steps; it lends no more than there is.
#[test]
fn a_limit_on_answers() {
    let job = jobs::right_claims(8, 2, 5);
    for (room, limit, answers) in
        [(1 << 10, 2, 2), (1 << 10, 0, 0), (1 << 10, 5, 5), (30, 4, 3), (1 << 10, usize::MAX, 5)]
    {
        let mut service = Service::new(1 << 10, room).with_answer_limit(limit);
        let outcome = service.check(&job).outcome();
        assert_eq!((outcome.stop, outcome.answers), (if answers < 5 { 19 } else { 0 }, answers));
    }
}

#[test]
fn all_held_asks_for_a_step() {
    let mut service = Service::new(1 << 16, 1 << 16);
    let specimen = jobs::specimen();
    assert!(service.check(&specimen).all_held());
    for without_step in [&[][..], &specimen[..specimen.len() - 8]] {
        let report = service.check(without_step);
        assert_eq!((report.outcome().stop, report.outcome().answers, report.all_held()), (0, 0, false));
    }
    let cut_behind_the_step = [&specimen[..], &[6]].concat();
    let report = service.check(&cut_behind_the_step);
    assert_eq!((report.outcome().stop, report.outcome().answers, report.all_held()), (3, 1, false));
}

#[test]
fn no_input_makes_it_panic() {
    let mut rng = Rng::new(11);
    let mut service = Service::new(4096, 100);
    let mut job = Vec::new();
    for k in 0..20_000 {
        if k % 2 == 0 {
            jobs::random_bytes(&mut job, &mut rng);
        } else {
            job = jobs::specimen();
            jobs::damage(&mut job, &mut rng);
        }
        let report = service.check(&job);
        assert!(report.answers().count() <= 10);
        assert_ne!(report.stop_meaning(), "unknown code");
        assert!(report.answers().all(|a| a.meaning() != "unknown code" && a.rule_name() != "unknown"));
    }
    assert_eq!(service.tally().jobs, 20_000);
}
