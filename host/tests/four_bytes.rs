//! Jobs whose term numbers have four bytes: the service, memory of every length, the tally, questions, the writer and the command line.
mod json;
mod run;

use bitblast_host::{
    Answers, Format, Memory, Service, Tally, Verdict,
    jobs::{self, JobWriter, Kind, LONG_SPECIMEN_ANSWER, Term},
    lent::Lent,
    plain::Plain,
    rng::Rng,
    run_job, tally_answers,
};
use json::parse;
use run::{bbhost, text};

/// The specimen, in four bytes.
fn specimen() -> Vec<u8> {
    jobs::in_four_bytes(&jobs::specimen())
}

#[test]
fn which_jobs() {
    let long = [&[2, 0, 103, 0][..], &[2, 0, 103, 0, 6]];
    assert!(long.iter().all(|job| Format::of(job) == Format::FourBytes));
    let others = [&[][..], &[2, 0, 103], &[3, 0, 103, 0, 0], &[2, 0, 103, 1], &[2, 1, 103, 0], &[4, 0, 10, 0, 0, 0]];
    assert!(others.iter().all(|job| Format::of(job) == Format::TwoBytes));
}

/// Both formats in one service, one after the other: nothing of a job reaches the next, and the tally counts both.
#[test]
fn a_service_of_both() {
    let mut service = Service::new(1 << 20, 1 << 10);
    let refused = jobs::in_four_bytes(&[6, 0, 100, 0, 1, 0, 0, 0, 6, 0, 100, 0, 2, 0, 0, 0]);
    for round in 1..=3 {
        for (job, format, records) in [(jobs::specimen(), Format::TwoBytes, 9), (specimen(), Format::FourBytes, 10)] {
            let report = service.check(&job);
            assert_eq!((report.format(), report.outcome().numbers()), (format, [0, records, 1, 10, 0]));
            let answer = report.answers().next().unwrap();
            assert_eq!((answer.rule, answer.code, answer.depth, report.all_held()), (9, 0, 2, true));
        }
        let report = service.check(&refused);
        let codes: Vec<(u16, u16)> = report.answers().map(|answer| (answer.rule, answer.code)).collect();
        assert_eq!((codes, report.all_held()), (vec![(1, 11), (2, 11)], false));
        assert_eq!(service.tally().numbers(), [3 * round, 2 * round, 0, 2 * round]);
    }
}

/// The specimen with every length of work memory and answers around what it needs: 96 and 12 bytes.
#[test]
fn fences_around_every_length() {
    let job = specimen();
    let (mut work, mut answers) = (Lent::new(120), Lent::new(40));
    for work_size in 0..=120 {
        for room in 0..=40 {
            let outcome = run_job(&job, work.ready(work_size, room as u64), answers.ready(room, work_size as u64));
            let expected = match (work_size / 12, room) {
                (rows @ 0..=7, _) => [8, rows as u32 + 1, 0, 2 + rows as u32, 0],
                (_, 0..=11) => [19, 9, 0, 10, 0],
                _ => [0, 10, 1, 10, 0],
            };
            assert_eq!(outcome.numbers(), expected, "work {work_size}, answers {room}");
            assert!(work.is_zero() && work.fences_stand(), "work {work_size}, answers {room}");
            let written = 12 * outcome.answers as usize;
            assert_eq!(answers.bytes()[..written], LONG_SPECIMEN_ANSWER[..written]);
            assert!(answers.untouched_from(written) && answers.fences_stand(), "work {work_size}, answers {room}");
        }
    }
}

/// A limit in answers is one in both formats, and so is memory for so many terms.
#[test]
fn limits_in_answers_and_terms() {
    let job = jobs::right_claims(8, 2, 5);
    let long = jobs::in_four_bytes(&job);
    for limit in 0..=6 {
        let mut service = Service::new(1 << 10, 1 << 10).with_answer_limit(limit);
        for job in [&job, &long] {
            let outcome = service.check(job).outcome();
            assert_eq!((outcome.stop, outcome.answers), (if limit < 5 { 19 } else { 0 }, limit.min(5) as u32));
        }
    }
    for (job, format) in [(jobs::specimen(), Format::TwoBytes), (specimen(), Format::FourBytes)] {
        for (terms, answers, stop) in [(10, 1, 0), (9, 1, 8), (10, 0, 19), (0, 0, 8)] {
            let mut service = Service::with_memory(Memory::for_terms(format, terms, answers));
            assert_eq!(service.check(&job).outcome().stop, stop, "{format:?} {terms} {answers}");
        }
    }
}

/// The first two bytes of the memory say how long its answers are.
#[test]
fn the_tally() {
    let answers = |head: u8, depth: &[u8], codes: &[u8]| -> Vec<u8> {
        codes.iter().flat_map(|&code| [&[head, 0, 200, 0, 1, 0, code, 0][..], depth].concat()).collect()
    };
    let counted = |bytes: &[u8], count: u32| {
        let mut tally = Tally::default();
        tally_answers(&mut tally, bytes, count);
        tally.numbers()
    };
    let long = answers(10, &[0, 0, 1, 0], &[0, 1, 16, 0, 24]);
    assert_eq!(counted(&long, 5), [1, 2, 1, 2]);
    assert_eq!((counted(&long, 2), counted(&long, 0)), ([1, 1, 1, 0], [1, 0, 0, 0]));
    assert_eq!((counted(&long[..47], u32::MAX), counted(&long[..48], u32::MAX)), ([1, 1, 1, 1], [1, 2, 1, 1]));
    let short = answers(8, &[0, 0], &[0, 1, 16, 0, 24]);
    assert_eq!(counted(&short, 5), [1, 2, 1, 2]);
    // Only these two bytes: any other memory has answers of ten.
    let other = answers(9, &[0, 0], &[0, 1, 16, 0, 24]);
    assert_eq!(counted(&other, 5), [1, 2, 1, 2]);
}

/// A depth and numbers that two bytes do not hold, and the step's answer.
#[test]
fn many_terms_and_a_great_depth() {
    let mut service = Service::new(12 * 1_000_000, 100);
    for depth in [65_530, 65_533, 65_534, 65_536, 70_000, 999_996] {
        let report = service.check(&jobs::deep_claim(Format::FourBytes, depth));
        assert_eq!((report.outcome().stop, report.outcome().terms as usize), (0, depth + 4), "{depth}");
        let answers: Vec<(u16, u32)> = report.answers().map(|answer| (answer.code, answer.depth)).collect();
        assert_eq!(answers, [(0, depth as u32)]);
    }
    assert_eq!(service.check(&jobs::deep_claim(Format::FourBytes, 999_997)).outcome().stop, 8);
    assert_eq!(service.check(&jobs::deep_claim(Format::TwoBytes, 65_531)).outcome().stop, 0);
    assert_eq!(service.check(&jobs::deep_claim(Format::TwoBytes, 65_532)).outcome().stop, 8);
}

/// A job over terms of great numbers: two divisions of width 64, a back, and a chain of what is left.
#[test]
fn circuits_of_great_numbers() {
    let mut job = JobWriter::of(Format::FourBytes);
    let (x, y) = (job.bv_var(64, 0), job.bv_var(64, 1));
    let operations = [(24, Kind::BvUDiv, [x, y]), (25, Kind::BvURem, [y, x])];
    let sides: [(Term, Term); 2] = operations.map(|(rule, kind, operands)| {
        let left = job.term(kind, &operands);
        let right = job.circuit(rule, left);
        job.claim(rule, left, right);
        (left, right)
    });
    assert!(job.count() > 65_536);
    let kept = job.count();
    let turned = job.term(Kind::Equals, &[sides[1].1, sides[1].0]);
    job.chain(jobs::SYMM, &[2], turned);
    job.back(kept);
    job.chain(jobs::SYMM, &[2], turned);
    job.back(kept - 1);
    job.chain(jobs::SYMM, &[2], turned);
    let job = job.finish();
    let mut service = Service::with_memory(Memory::for_terms(Format::FourBytes, kept + 2, 5));
    let codes: Vec<u16> = service.check(&job).answers().map(|answer| answer.code).collect();
    assert_eq!(codes, [0, 0, 0, 0, 24]);
}

/// The writer in four bytes, and the job in two bytes with its numbers made longer, are the same bytes and come to the same.
#[test]
fn right_jobs_in_both() {
    let mut rng = Rng::new(21);
    let mut service = Service::new(1 << 20, 1 << 12);
    for k in 0..300 {
        let (job, codes) = jobs::random_right(&mut rng);
        let long = jobs::in_four_bytes(&job);
        let found = |service: &mut Service, job: &[u8]| {
            let report = service.check(job);
            let answers: Vec<_> = report.answers().map(|answer| (answer.rule, answer.code, answer.depth)).collect();
            (report.outcome().numbers(), answers)
        };
        let (short, mut other) = (found(&mut service, &job), found(&mut service, &long));
        assert_eq!(short.1.iter().map(|answer| answer.1).collect::<Vec<_>>(), codes, "job {k}");
        // The first record.
        other.0[1] -= 1;
        assert_eq!(short, other, "job {k}");
    }
    for rule in 1..=30 {
        let write = |format: Format| {
            let mut job = JobWriter::of(format);
            let left = job.left_side(rule, 5);
            let right = job.circuit(rule, left);
            job.claim(rule, left, right);
            job.back(3);
            let x = job.bool_var(9);
            job.step(rule, &[x, left]);
            job.finish()
        };
        assert_eq!(jobs::in_four_bytes(&write(Format::TwoBytes)), write(Format::FourBytes), "rule {rule}");
    }
}

/// Every kept term of a long job is swept, counted and derived as in the other, and counted as the plain evaluator counts it.
#[test]
fn questions_in_both() {
    let mut rng = Rng::new(22);
    let mut service = Service::new(1 << 16, 1 << 12);
    let mut asked = 0;
    for _ in 0..12 {
        let job = jobs::random_right(&mut rng).0;
        let long = jobs::in_four_bytes(&job);
        let terms = service.check(&job).outcome().terms;
        for number in (0..=terms).rev().take(40) {
            let sweep = |service: &mut Service, job: &[u8]| {
                let sweep = service.sweep(job, number);
                (sweep.code(), sweep.assignments(), sweep.differing(), sweep.answers().count())
            };
            assert_eq!(sweep(&mut service, &job), sweep(&mut service, &long), "term {number}");
            let count = |service: &mut Service, job: &[u8]| {
                let count = service.count(job, number);
                (count.code(), count.counts().to_vec())
            };
            let (short, counts) = (count(&mut service, &job), count(&mut service, &long));
            assert_eq!(short, counts, "term {number}");
            let known = |service: &mut Service, job: &[u8]| {
                let known = service.known(job, number, &[2, 1, 0]);
                (known.code(), known.bits().to_vec())
            };
            assert_eq!(known(&mut service, &job), known(&mut service, &long), "term {number}");
            if let (0, Some(mut program)) = (counts.0, Plain::read(&long).program(number as usize)) {
                let mut plain = vec![0; counts.1.len()];
                program.each_value(|value| plain[value as usize] += 1);
                assert_eq!(plain, counts.1, "term {number}");
                asked += 1;
            }
        }
    }
    assert!(asked > 100, "{asked} terms");
}

/// A question about a term whose number two bytes do not hold.
#[test]
fn a_great_number_is_swept() {
    let mut job = JobWriter::of(Format::FourBytes);
    for name in 0..65_600 {
        let other = job.bv_var(1 + name / 65_536, name as u16);
        job.number(other);
    }
    let (x, c) = (job.bv_var(9, 9), job.constant(9, 300));
    let equality = job.term(Kind::Equals, &[x, c]);
    let number = job.number(equality);
    let job = job.finish();
    let mut service = Service::new(1 << 20, 0);
    let sweep = service.sweep(&job, number);
    assert_eq!((number, sweep.code(), sweep.assignments(), sweep.differing()), (65_604, 0, 512, 511));
    // Its low bytes are those of a variable.
    assert_eq!(service.sweep(&job, number - 65_536).code(), 20);
    assert_eq!(service.known(&job, number - 2, &[2, 0, 1, 1, 1, 1, 1, 1, 0]).bits(), [2, 0, 1, 1, 1, 1, 1, 1, 0]);
    assert_eq!(service.count(&job, 65_601).counts(), [1, 1, 1, 1]);
    assert_eq!(Plain::read(&job).program(number as usize).unwrap().sweep(), (512, 511));
}

#[test]
fn no_input_makes_it_panic() {
    let mut rng = Rng::new(23);
    let mut service = Service::new(4096, 100);
    let specimen = specimen();
    let mut job = Vec::new();
    for k in 0..20_000 {
        if k % 2 == 0 {
            jobs::random_bytes(&mut job, &mut rng);
            job.splice(..0, [2, 0, 103, 0]);
        } else {
            job.clone_from(&specimen);
            jobs::damage(&mut job, &mut rng);
        }
        let report = service.check(&job);
        assert!(report.answers().count() <= 10);
        assert_ne!(report.stop_meaning(), "unknown code");
        assert!(report.answers().all(|a| a.meaning() != "unknown code" && a.rule_name() != "unknown"));
    }
}

// The command line

#[test]
fn checked_and_shown() {
    let output = bbhost(&["check", "-"], &specimen());
    assert_eq!(output.status.code(), Some(0));
    let found = text(&output.stdout);
    assert!(
        found.starts_with("-: 94 bytes (term numbers of four), 10 records, 10 terms kept, 0 repeats, 1 step\n"),
        "{found}"
    );
    assert!(found.contains("\n      1   9 slt                 0      2  held\n"), "{found}");
    // In a process of its own the same.
    assert_eq!(text(&bbhost(&["check", "--timeout", "600", "-"], &specimen()).stdout), found);
    let shown = bbhost(&["show", "-"], &specimen());
    assert_eq!(shown.status.code(), Some(0));
    let (long, short) = (text(&shown.stdout).to_owned(), bbhost(&["show", "-"], &jobs::specimen()).stdout);
    assert!(
        long.contains("\n      1        0  term numbers have four bytes\n      2        4  term 2: x0w1\n"),
        "{long}"
    );
    let said = |shown: &str| -> Vec<String> {
        let lines = shown.lines().filter_map(|line| line.get(18..).filter(|line| line.contains(": ")));
        lines.map(str::to_owned).collect()
    };
    assert_eq!(said(&long), said(text(&short)));
    let objects = bbhost(&["check", "--json", "-"], &specimen());
    parse(text(&objects.stdout));
    assert!(
        text(&objects.stdout).contains("\"records\":10,\"answers\":1,\"terms\":10,\"repeats\":0,\"number_bytes\":4,")
    );
}

/// A refused step, behind a record that is shown with its place: what is claimed and expected is said as in the other format.
#[test]
fn explained() {
    let mut job = JobWriter::new();
    let left = job.left_side(9, 2);
    let (right, wrong) = (job.circuit(9, left), job.circuit(8, left));
    let not = job.term(Kind::Not, &[right]);
    for claimed in [wrong, not] {
        job.claim(9, left, claimed);
    }
    let equality = job.term(Kind::Equals, &[right, left]);
    job.chain(jobs::SYMM, &[1], equality);
    let job = job.finish();
    let lines = |job: &[u8]| -> Vec<String> {
        let output = bbhost(&["check", "--explain", "-"], job);
        assert_eq!(output.status.code(), Some(1));
        let words = ["left ", "claimed ", "expected ", "differs ", "literal ", "premise "];
        let lines = text(&output.stdout).lines().map(str::trim_start);
        lines.filter(|line| words.iter().any(|word| line.starts_with(word))).map(str::to_owned).collect()
    };
    let (short, long) = (lines(&job), lines(&jobs::in_four_bytes(&job)));
    assert_eq!((short.len(), &long), (10, &short));
}

#[test]
fn limits_and_memory_that_are_lent() {
    let status = |words: &[&str]| {
        let output = bbhost(&[&["check"], words, &["-"]].concat(), &specimen());
        (output.status.code().unwrap(), text(&output.stdout).to_owned())
    };
    assert_eq!(status(&["--terms", "10"]).0, 0);
    assert!(status(&["--terms", "9"]).1.contains("STOPPED at record 9 (code 8)"));
    assert_eq!(status(&["--work", "96", "--answers", "12"]).0, 0);
    assert!(status(&["--work", "95"]).1.contains("STOPPED at record 9 (code 8)"));
    assert!(status(&["--answers", "11"]).1.contains("STOPPED at record 10 (code 19)"));
    let many = jobs::many_terms_in(Format::FourBytes, 70_000);
    for (terms, found) in [("65535", "65,535 terms kept"), ("4294967295", "70,002 terms kept")] {
        let output = bbhost(&["check", "--terms", terms, "-"], &many);
        assert!(text(&output.stdout).contains(found), "{}", text(&output.stdout));
    }
}

#[test]
fn questions_on_the_command_line() {
    let said = |words: &[&str]| text(&bbhost(words, &specimen()).stdout).to_owned();
    assert_eq!(said(&["sweep", "-", "9"]), "-: term 9: 4 assignments, the sides are equal on all\n");
    assert!(said(&["count", "-", "7"]).starts_with("-: term 7: 4 assignments, 2 of 2 values reached\n"));
    assert_eq!(said(&["known", "-", "7", "0x"]), "-: term 7: 0 (1 of 1 known)\n");
    assert_eq!(said(&["sweep", "-", "65545"]), bbhost_refusal());
}

fn bbhost_refusal() -> String {
    text(&bbhost(&["sweep", "-", "65545"], &jobs::specimen()).stdout).to_owned()
}

/// What is left in lent memory is decoded by the format alone.
#[test]
fn answers_are_decoded() {
    let bytes = [10, 0, 200, 0, 7, 0, 1, 0, 112, 17, 1, 0, 10, 0, 200, 0, 24, 0, 16, 0, 0, 0, 0, 0, 9, 9];
    let answers: Vec<_> = Answers::new(Format::FourBytes, &bytes, 9).collect();
    assert_eq!(answers.len(), 2);
    assert_eq!((answers[0].rule, answers[0].depth, answers[0].verdict()), (7, 70_000, Verdict::FormOnly));
    assert_eq!((answers[1].step, answers[1].rule, answers[1].code, answers[1].depth), (2, 24, 16, 0));
    assert_eq!(Answers::new(Format::FourBytes, &bytes, 1).len(), 1);
}
