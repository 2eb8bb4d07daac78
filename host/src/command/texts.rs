//! How long texts take to convert.
use super::{Status, fill, grouped};
use bitblast_host::{TERM_BYTES, alethe::JOB_BYTES_PER_BYTE, convert_text};
use std::{
    io::{self, Write},
    time::{Duration, Instant},
};

/// The distinct terms of each text.
const TERMS: usize = 50_000;

/// How often each is converted in each room.
const RUNS: usize = 5;

/// Converts texts of a megabyte with few and with more names, with exactly the work memory that their terms need and with twice that, and prints
/// the times of the fastest runs.
pub fn measure_all(out: &mut impl Write) -> io::Result<Status> {
    writeln!(out, "\n{:<20}{:>11}{:>9}{:>14}{:>14}{:>9}", "text", "bytes", "terms", "ms, exact", "ms, twice", "ratio")?;
    let mut status = Status::Fine;
    for names in [1, 4, 16] {
        let text = text(names);
        let (mut work, mut job) = (vec![0; 2 * TERM_BYTES * TERMS], vec![0; JOB_BYTES_PER_BYTE * text.len()]);
        let mut times = [Duration::MAX; 2];
        for run in 0..2 * RUNS {
            let room = (1 + run % 2) * TERM_BYTES * TERMS;
            let start = Instant::now();
            let converted = convert_text(text.as_bytes(), &mut work[..room], &mut job);
            times[run % 2] = times[run % 2].min(start.elapsed());
            if converted.code != 0 {
                status = Status::Failed;
            }
        }
        let [exact, twice] = times.map(|time| time.as_secs_f64() * 1e3);
        let (bytes, terms) = (grouped(text.len() as u64), grouped(TERMS as u64));
        let name = format!("{names} names");
        writeln!(out, "{name:<20}{bytes:>11}{terms:>9}{exact:>14.1}{twice:>14.1}{:>9.2}", exact / twice)?;
        if exact > fill::MOST * twice {
            status = Status::Failed;
        }
    }
    Ok(status)
}

/// A text with that many variables: each step has a new constant, and four more new terms.
fn text(names: usize) -> String {
    let mut text: String = (0..names).map(|k| format!("(declare-const x{k} (_ BitVec 64))\n")).collect();
    for k in 0..(TERMS - names) / 5 {
        let (x, c) = (format!("x{}", k % names), format!("#x{k:012x}"));
        text += &format!("(step s{k} (cl (= (bvadd {x} {c}) (bvmul {c} (bvneg (bvadd {x} {c}))))) :rule add)\n");
    }
    text
}
