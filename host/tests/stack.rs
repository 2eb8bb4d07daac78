//! The stack that a call needs.
use bitblast_host::{
    Format, STACK_BYTES, convert_text,
    jobs::{self, JobWriter, Kind},
    known_job, run_job, sweep_job,
};
use std::{fs, path::Path, thread};

/// What a call gives on a thread with just that much stack.
fn on_little_stack<T: Send + 'static>(call: impl FnOnce() -> T + Send + 'static) -> T {
    thread::Builder::new().stack_size(STACK_BYTES).spawn(call).unwrap().join().unwrap()
}

/// The widest divisions on a thread with just that much stack, in both formats. The job is written before, on a larger one.
#[test]
fn the_deepest_jobs() {
    for (rule, format) in [21, 22, 24, 25].into_iter().flat_map(|r| [(r, Format::TwoBytes), (r, Format::FourBytes)]) {
        let mut job = jobs::right_claim(rule, 64);
        if format == Format::FourBytes {
            job = jobs::in_four_bytes(&job);
        }
        let (mut work, mut answers) = (vec![0; 1 << 20], vec![0; format.answer_bytes()]);
        let (outcome, swept) = on_little_stack(move || {
            let outcome = run_job(&job, &mut work, &mut answers);
            (outcome, sweep_job(&job, &mut work, &mut answers, &mut [], outcome.terms - 1))
        });
        assert_eq!((outcome.stop, outcome.answers), (0, 1), "rule {rule}");
        // The variables have 128 bits.
        assert_eq!((swept.code, swept.outcome), (20, outcome), "rule {rule}");
    }
}

/// Terms that stand 60,000 deep in each other, and in four bytes 300,000.
#[test]
fn the_deepest_sweep() {
    sweep_of_depth(Format::TwoBytes, 60_000);
    sweep_of_depth(Format::FourBytes, 300_000);
}

fn sweep_of_depth(format: Format, depth: usize) {
    let mut job = JobWriter::of(format);
    let x = job.bool_var(0);
    let mut last = x;
    for _ in 0..depth {
        last = job.term(Kind::Xor, &[last, x]);
        job.number(last);
    }
    let equality = job.term(Kind::Equals, &[last, x]);
    let number = job.number(equality);
    let job = job.finish();
    let (mut work, mut values) = (vec![0; format.max_work_bytes()], vec![0; 8 * (depth + 4)]);
    let (swept, known) = on_little_stack(move || {
        let swept = sweep_job(&job, &mut work, &mut [], &mut values, number);
        let known = [0, 1, 2].map(|input| {
            let mut bit = [9];
            let known = known_job(&job, &mut work, &mut [], &mut values, number, &[input], &mut bit);
            (known.code, bit)
        });
        (swept, known)
    });
    assert_eq!((swept.code, swept.assignments, swept.differing), (0, 2, 0));
    assert_eq!(known, [(0, [1]), (0, [1]), (0, [2])]);
}

/// All the terms that there may be, each in the next, and a step that is held of them.
#[test]
fn the_deepest_claim() {
    let depth = Format::FourBytes.max_terms() - 4;
    let job = jobs::deep_claim(Format::FourBytes, depth);
    let (mut work, mut answers) = (vec![0; Format::FourBytes.max_work_bytes()], vec![0; 12]);
    let (outcome, answers) = on_little_stack(move || (run_job(&job, &mut work, &mut answers), answers));
    assert_eq!((outcome.stop, outcome.terms, outcome.answers), (0, 1_000_000, 1));
    assert_eq!(answers, [&[10, 0, 200, 0, 2, 0, 0, 0][..], &(depth as u32).to_le_bytes()].concat());
}

/// A term that is nested as deep as is allowed, each level an And of 64 arguments, the deepest the last.
#[test]
fn the_deepest_text() {
    for (depth, code) in [(200, 0), (201, 25)] {
        let arguments = format!("(and{} ", " x".repeat(63));
        let term = format!("{}(not x){}", arguments.repeat(depth - 1), ")".repeat(depth - 1));
        let text = format!("(declare-const x Bool)\n(step s (cl {term}) :rule and)");
        let (mut work, mut job) = (vec![0; 1 << 20], vec![0; 1 << 20]);
        let converted = on_little_stack(move || convert_text(text.as_bytes(), &mut work, &mut job));
        assert_eq!((converted.code, converted.line), (code, if code == 0 { 0 } else { 2 }), "{depth} deep");
    }
}

#[test]
fn the_header_says_the_same() {
    let header = Path::new(env!("CARGO_MANIFEST_DIR")).join("../include/bitblast.h");
    let text = fs::read_to_string(header).unwrap();
    assert!(text.contains(&format!("#define BB_STACK_BYTES {STACK_BYTES}\n")));
}
