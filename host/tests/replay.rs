//! The stored jobs of crates/replay, with garbage in the lent memories and fences around them.
use bitblast_host::{Format, Limits, lent::Lent, run_job_within};
use std::{fs, path::Path};

fn bytes(hex: &str) -> Vec<u8> {
    (0..hex.len()).step_by(2).map(|k| u8::from_str_radix(&hex[k..k + 2], 16).unwrap()).collect()
}

#[test]
fn stored_jobs() {
    let folder = Path::new(env!("CARGO_MANIFEST_DIR")).join("../crates/replay");
    let jobs = fs::read_to_string(folder.join("data/jobs")).unwrap();
    let stored = fs::read_to_string(folder.join("stdout")).unwrap();
    assert_eq!(jobs.lines().count(), stored.lines().count());
    assert!(jobs.lines().count() > 100);
    let (mut work, mut answers) = (Lent::new(1 << 20), Lent::new(1 << 20));
    for (k, (line, expected)) in jobs.lines().zip(stored.lines()).enumerate() {
        let mut fields = line.split(' ');
        let mut number = || usize::from_str_radix(fields.next().unwrap(), 16).unwrap();
        let (work_size, room, length) = (number(), number(), number());
        let limits = Limits { width: number() as u32, terms: number() as u32 };
        let job = bytes(fields.next().unwrap_or(""));
        assert_eq!(job.len(), length, "line {}", k + 1);
        let (lent, room) = (work.ready(work_size, k as u64), answers.ready(room, 3 * k as u64));
        let outcome = run_job_within(&job, lent, room, limits);
        let written = Format::of(&job).answer_bytes() * outcome.answers as usize;
        let hex: String = answers.bytes()[..written].iter().map(|byte| format!("{byte:02x}")).collect();
        let found = format!(
            "{} {} {} {} {} {hex}",
            outcome.stop, outcome.records, outcome.answers, outcome.terms, outcome.repeats
        );
        assert_eq!(found.trim_end(), expected.trim_end(), "line {}", k + 1);
        assert!(work.is_zero() && work.fences_stand(), "line {}", k + 1);
        assert!(answers.untouched_from(written) && answers.fences_stand(), "line {}", k + 1);
    }
}
