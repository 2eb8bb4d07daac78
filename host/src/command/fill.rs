//! The rows of `bbhost bench` with exactly the work memory that a job's terms need, beside twice that.
use super::{Failure, Status, bench, bench::Measured, grouped, interrupt, progress::Progress};
use bitblast_host::{MAX_TERMS, TERM_BYTES, run_job};
use std::{
    hint::black_box,
    io::{self, Write},
};

/// No row of a bench may take longer with exactly the work memory that it needs than so many times its time with twice that.
pub const MOST: f64 = 3.0;

/// Measures every job, and says so where one is slower than it may be.
pub fn measure_all(answers: &mut [u8], out: &mut impl Write) -> Result<Status, Failure> {
    writeln!(out, "{:<20}{:>14}{:>14}{:>14}{:>9}", "exact room", "work bytes", "us per job", "us, twice", "ratio")?;
    let mut status = Status::Fine;
    let mut progress = Progress::new();
    for Measured { name, job, .. } in bench::jobs() {
        if interrupt::came() {
            return Err(Failure::Io(io::Error::new(io::ErrorKind::Interrupted, "interrupted")));
        }
        progress.show(|| name.clone());
        let room = least_room(&job, answers);
        let exact = measure(&job, room, answers);
        let twice = measure(&job, 2 * room, answers);
        write!(
            out,
            "{name:<20}{:>14}{:>14.2}{:>14.2}{:>9.2}",
            grouped(room as u64),
            exact * 1e6,
            twice * 1e6,
            exact / twice
        )?;
        if exact > MOST * twice {
            write!(out, "  MORE THAN {MOST} TIMES")?;
            status = Status::Failed;
        }
        writeln!(out)?;
        out.flush()?;
    }
    Ok(status)
}

/// The least work memory with which a job ends as it does with the most.
fn least_room(job: &[u8], answers: &mut [u8]) -> usize {
    let most = MAX_TERMS * TERM_BYTES;
    let mut work = vec![0; most];
    let mut ends = |terms: usize| run_job(job, &mut work[..terms * TERM_BYTES], answers).stop == 0;
    let (mut low, mut high) = (0, MAX_TERMS);
    while low < high {
        let middle = (low + high) / 2;
        if ends(middle) { high = middle } else { low = middle + 1 }
    }
    low * TERM_BYTES
}

/// The seconds of the fastest run with so much work memory.
fn measure(job: &[u8], room: usize, answers: &mut [u8]) -> f64 {
    let mut work = vec![0; room];
    bench::fastest(|| run_job(black_box(job), black_box(&mut work), black_box(&mut *answers))).0
}
