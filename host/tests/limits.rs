//! Jobs under limits that the caller states: the listed ones, every limit around what a job needs, and that larger limits change nothing more.
use bitblast_host::{
    Answers, Format, Limits, MAX_TERMS, MAX_WIDTH, Outcome, Service,
    jobs::{self, JobWriter, Kind},
    lent::Lent,
    rng::Rng,
    run_job, run_job_within,
};
use std::{fs, path::Path};

/// A job on memory with garbage and fences: the outcome and the answers written; both memories are looked at.
fn within(job: &[u8], [work, room]: [usize; 2], limits: Limits) -> (Outcome, Vec<u8>) {
    let (mut memory, mut answers) = (Lent::new(work), Lent::new(room));
    let outcome = run_job_within(job, memory.ready(work, 3), answers.ready(room, 5), limits);
    let written = Format::of(job).answer_bytes() * outcome.answers as usize;
    assert!(memory.is_zero() && memory.fences_stand(), "{limits:?}");
    assert!(answers.untouched_from(written) && answers.fences_stand(), "{limits:?}");
    (outcome, answers.bytes()[..written].to_vec())
}

/// The lines of tools/listed_jobs.txt that state limits, or have term numbers of four bytes.
#[test]
fn the_listed_jobs() {
    let list = Path::new(env!("CARGO_MANIFEST_DIR")).join("../tools/listed_jobs.txt");
    let mut count = 0;
    let long = |line: &str| ["document 02, P10", "request P10"].iter().any(|name| line.starts_with(name));
    for line in fs::read_to_string(list).unwrap().lines().filter(|line| line.contains(" within ") || long(line)) {
        let parts: Vec<&str> = line.split(';').map(str::trim).collect();
        let [name, lent, room, hex, numbers, answers] = parts[..] else { panic!("{line}") };
        let (work, limits) = lent.split_once(" within ").unwrap_or((lent, "4294967295 4294967295"));
        let (width, terms) = limits.split_once(' ').unwrap();
        let limits = Limits { width: width.parse().unwrap(), terms: terms.parse().unwrap() };
        let job: Vec<u8> = (0..hex.len()).step_by(2).map(|k| u8::from_str_radix(&hex[k..k + 2], 16).unwrap()).collect();
        let (outcome, bytes) = within(&job, [work.parse().unwrap(), room.parse().unwrap()], limits);
        let found = [outcome.stop, outcome.records, outcome.terms, outcome.repeats].map(|number| number.to_string());
        assert_eq!(found.join(" "), numbers, "{name}");
        let found: Vec<String> = Answers::new(Format::of(&job), &bytes, outcome.answers)
            .map(|answer| format!("{}:{}:{}", answer.rule, answer.code, answer.depth))
            .collect();
        assert_eq!(found.join(" "), answers, "{name}");
        count += 1;
    }
    assert_eq!(count, 27 + 30);
}

/// Six kinds of terms whose width is more than any argument's, and a variable and a constant, each at its width and one below.
#[test]
fn every_term_has_its_width_tested() {
    type Make = fn(&mut JobWriter, usize);
    let makes: [(&str, Make); 8] = [
        ("variable", |j, w| {
            let x = j.bv_var(w, 0);
            j.number(x);
        }),
        ("constant", |j, w| {
            let x = j.constant(w, 1);
            j.number(x);
        }),
        ("bits", |j, w| {
            let bits = vec![jobs::TRUE; w];
            let x = j.term(Kind::BvBbTerm, &bits);
            j.number(x);
        }),
        ("concat", |j, w| {
            let (x, y) = (j.bv_var(1, 0), j.bv_var(w - 1, 1));
            let z = j.term(Kind::BvConcat, &[x, y]);
            j.number(z);
        }),
        ("sign_extend", |j, w| {
            let x = j.bv_var(1, 0);
            let y = j.sign_extend(w - 1, x);
            j.number(y);
        }),
        ("zero_extend", |j, w| {
            let x = j.bv_var(1, 0);
            let y = j.moved(Kind::ZeroExtend, w - 1, x);
            j.number(y);
        }),
        ("repeat", |j, w| {
            let x = j.bv_var(1, 0);
            let y = j.moved(Kind::Repeat, w, x);
            j.number(y);
        }),
        ("bvnot", |j, w| {
            let x = j.bv_var(w, 0);
            let y = j.term(Kind::BvNot, &[x]);
            j.number(y);
        }),
    ];
    for (name, make) in makes {
        for width in [2, 16, 17, 64] {
            let mut job = JobWriter::new();
            make(&mut job, width);
            let terms = job.count() as u32;
            let job = job.finish();
            for limit in 0..=70 {
                let limits = Limits { width: limit, terms };
                let (outcome, _) = within(&job, [800, 0], limits);
                assert_eq!(outcome.stop, if limit < width as u32 { 7 } else { 0 }, "{name} {width} {limits:?}");
            }
        }
    }
}

/// The specimen has ten terms of width 1. Under fewer it stops at the first beyond; a repeat of all its terms needs no more.
#[test]
fn every_number_of_terms() {
    let specimen = jobs::specimen();
    let twice = [&specimen[..62], &specimen[..62], &specimen[62..]].concat();
    for terms in 0..=20 {
        let limits = Limits { width: 1, terms };
        let kept = terms.clamp(2, 10);
        for (job, records, repeats) in [(&specimen, 9, 0), (&twice, 17, 8)] {
            let (outcome, _) = within(job, [800, 100], limits);
            let expected = if kept < 10 { [8, kept - 2, 0, kept, 0] } else { [0, records, 1, 10, repeats] };
            assert_eq!(outcome.numbers(), expected, "{limits:?}");
        }
    }
    // As many terms as the rack keeps, and limits around that.
    let job = jobs::many_terms(MAX_TERMS - 2);
    for (terms, stop, kept) in [
        (MAX_TERMS as u32 - 1, 8, MAX_TERMS as u32 - 1),
        (MAX_TERMS as u32, 0, MAX_TERMS as u32),
        (u32::MAX, 0, MAX_TERMS as u32),
        (1024, 8, 1024),
    ] {
        let (outcome, _) = within(&job, [1 << 20, 0], Limits { width: 64, terms });
        assert_eq!((outcome.stop, outcome.terms), (stop, kept), "{terms}");
    }
    // One variable more than numbers: a limit above the rack's is the rack's, and of this format it is this.
    let more = [&job[..], &[6, 0, 11, 0, 63, 0, 9, 0]].concat();
    for terms in [MAX_TERMS as u32 + 1, 1_000_000, u32::MAX] {
        let (outcome, _) = within(&more, [1 << 20, 0], Limits { width: 64, terms });
        assert_eq!((outcome.stop, outcome.terms), (8, MAX_TERMS as u32));
    }
}

/// In four bytes a limit is one up to a million terms.
#[test]
fn every_number_of_terms_in_four_bytes() {
    let job = jobs::many_terms_in(Format::FourBytes, 69_998);
    for (terms, stop, kept) in [
        (0, 8, 2),
        (1_024, 8, 1_024),
        (MAX_TERMS as u32, 8, MAX_TERMS as u32),
        (MAX_TERMS as u32 + 1, 8, MAX_TERMS as u32 + 1),
        (69_999, 8, 69_999),
        (70_000, 0, 70_000),
        (1_000_001, 0, 70_000),
        (u32::MAX, 0, 70_000),
    ] {
        let (outcome, _) = within(&job, [12 * 70_000, 0], Limits { width: 64, terms });
        assert_eq!((outcome.stop, outcome.terms), (stop, kept), "{terms}");
    }
    let most = Format::FourBytes.max_terms();
    for (count, terms, stop) in [(most - 2, u32::MAX, 0), (most - 1, u32::MAX, 8), (most - 1, 1_000_001, 8)] {
        let job = jobs::many_terms_in(Format::FourBytes, count);
        let (outcome, _) = within(&job, [12 * most, 0], Limits { width: 64, terms });
        assert_eq!((outcome.stop, outcome.terms), (stop, most as u32), "{count} under {terms}");
    }
}

/// Right, damaged and random jobs under random limits: where neither 7 nor 8 stops one, it is as under the rack's; and the rack's limits, and
/// any above, are those of `run_job`.
#[test]
fn larger_limits_change_nothing_more() {
    let mut rng = Rng::new(8);
    let (mut same, mut stopped) = (0, 0);
    for k in 0..6_000 {
        let mut job = jobs::random_right(&mut rng).0;
        if k % 4 == 3 {
            job = jobs::in_four_bytes(&job);
        }
        match k % 3 {
            1 => jobs::damage(&mut job, &mut rng),
            2 if k % 2 == 0 => jobs::random_bytes(&mut job, &mut rng),
            _ => {}
        }
        let lent = [rng.below(4_000), rng.below(100)];
        let (mut work, mut answers) = (vec![7; lent[0]], vec![7; lent[1]]);
        let outcome = run_job(&job, &mut work, &mut answers);
        let written = Format::of(&job).answer_bytes() * outcome.answers as usize;
        let rack = (outcome, answers[..written].to_vec());
        assert_eq!(within(&job, lent, Limits::RACK), rack);
        assert_eq!(within(&job, lent, Limits { width: u32::MAX, terms: u32::MAX }), rack);
        let limits = Limits { width: rng.below(20) as u32, terms: rng.below(400) as u32 };
        let found = within(&job, lent, limits);
        if matches!(found.0.stop, 7 | 8) {
            stopped += 1;
            let larger =
                Limits { width: limits.width + rng.below(20) as u32, terms: limits.terms + rng.below(400) as u32 };
            let next = within(&job, lent, larger).0;
            assert!(next.records >= found.0.records, "{limits:?} {larger:?}");
        } else {
            same += 1;
            assert_eq!(found, rack, "{limits:?}");
        }
    }
    assert!(same > 1_000 && stopped > 1_000, "{same} {stopped}");
}

/// A service under limits; its sweeps run a job under the rack's.
#[test]
fn a_service_with_limits() {
    let job = jobs::specimen();
    let mut service = Service::new(1 << 10, 100).with_limits(Limits { width: 1, terms: 9 });
    let report = service.check(&job);
    assert_eq!(report.outcome().numbers(), [8, 7, 0, 9, 0]);
    assert!(!report.all_held());
    assert_eq!(service.sweep(&job, 9).code(), 0);
    assert!(format!("{service:?}").contains("limits: Limits { width: 1, terms: 9 }"));
    let mut service = Service::new(1 << 10, 100).with_limits(Limits { width: 1, terms: 10 });
    assert!(service.check(&job).all_held());
    assert_eq!(Limits::default(), Limits { width: MAX_WIDTH as u32, terms: 1_000_000 });
}
