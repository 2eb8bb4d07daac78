//! The rows of `bbhost bench` about the table of terms: what entering a term costs, and looking one up, where few and many are kept.
use super::{Failure, Status, bench, grouped, interrupt, progress::Progress};
use bitblast_host::{Format, jobs, run_job};
use std::{
    collections::HashMap,
    hint::black_box,
    io::{self, Write},
    iter,
};

/// The formats and numbers of terms that are measured.
const SIZES: [(Format, usize); 5] = [
    (Format::TwoBytes, 1_000),
    (Format::TwoBytes, 65_000),
    (Format::FourBytes, 1_000),
    (Format::FourBytes, 65_000),
    (Format::FourBytes, 1_000_000),
];

/// The lookups whose time is taken; with a million terms the job has then just below 16 MiB.
const LOOKUPS: usize = 1_000_000;

/// The places from one lookup to the next: in the order in which the terms were entered, as a circuit asks for its gates, and scattered over all of them,
/// where each lookup waits for memory that no cache holds. A prime, so that all of them have their turn.
const NEXT: usize = 1;
const FAR: usize = 40_503;

/// A million terms are to be entered in less than so many seconds.
const MOST_SECONDS: f64 = 0.5;

/// A lookup among the most terms may cost so many times one among the fewest of the same format, where they are asked for in their order.
const MOST_TIMES: f64 = 4.0;

/// A measured row: the seconds in which all terms are entered, and those of a lookup in their order and of one that is scattered, of the latter also in
/// a hash table of Rust's.
struct Times {
    entering: f64,
    near: f64,
    far: f64,
    plain: f64,
}

/// Measures each size, with exactly the work memory that its terms need and with twice that; fails where one takes longer than it may.
pub fn measure_all(out: &mut impl Write) -> Result<Status, Failure> {
    writeln!(
        out,
        "Terms entered, each the Not of the one before, and then looked up by {} records that repeat them: in their order, and scattered, the\n\
         latter also in a HashMap of Rust's over the same records.",
        grouped(LOOKUPS as u64)
    )?;
    writeln!(
        out,
        "{:<20}{:>10}{:>14}{:>14}{:>12}{:>12}{:>12}{:>12}",
        "number bytes", "terms", "work bytes", "ms entering", "ns/record", "ns/lookup", "scattered", "HashMap"
    )?;
    let (mut status, mut progress) = (Status::Fine, Progress::new());
    // The lookups among the fewest terms, by the format and how much memory there is.
    let mut fewest: HashMap<(Format, usize), f64> = HashMap::new();
    for (times, (format, terms)) in [1, 2].into_iter().flat_map(|times| SIZES.map(|size| (times, size))) {
        if interrupt::came() {
            return Err(Failure::Io(io::Error::new(io::ErrorKind::Interrupted, "interrupted")));
        }
        progress.show(|| format!("{terms} terms"));
        let room = times * format.term_bytes() * (terms - 2);
        let Some(found) = measure(format, terms, room) else {
            writeln!(out, "{} bytes NOT MEASURED, {terms} terms are not kept", format.number_bytes())?;
            status = Status::Failed;
            continue;
        };
        let least = *fewest.entry((format, times)).or_insert(found.near);
        status = status.max(row(format, terms, room, &found, least, out)?);
    }
    Ok(status)
}

/// Prints a row; whether it is as fast as it is to be.
fn row(
    format: Format,
    terms: usize,
    room: usize,
    times: &Times,
    fewest: f64,
    out: &mut impl Write,
) -> io::Result<Status> {
    let Times { entering, near, far, plain } = *times;
    write!(
        out,
        "{:<20}{:>10}{:>14}{:>14.2}{:>12.1}{:>12.1}{:>12.1}{:>12.1}",
        format!("{} bytes", format.number_bytes()),
        grouped(terms as u64),
        grouped(room as u64),
        entering * 1e3,
        entering * 1e9 / terms as f64,
        near * 1e9,
        far * 1e9,
        plain * 1e9
    )?;
    let (slow, dear) = (entering >= MOST_SECONDS, near > MOST_TIMES * fewest);
    if slow {
        write!(out, "  NOT IN {MOST_SECONDS} SECONDS")?;
    }
    if dear {
        write!(out, "  MORE THAN {MOST_TIMES} TIMES")?;
    }
    writeln!(out)?;
    out.flush()?;
    Ok(if slow || dear { Status::Failed } else { Status::Fine })
}

/// The times of so many terms in so much work memory; None where the job does not keep them.
fn measure(format: Format, terms: usize, room: usize) -> Option<Times> {
    let mut work = vec![0; room];
    let entered = jobs::many_terms_in(format, terms - 2);
    let [near, far] = [NEXT, FAR].map(|step| jobs::many_repeats_in(format, terms - 2, LOOKUPS, step));
    let mut run = |job: &[u8]| run_job(black_box(job), black_box(&mut work), &mut []);
    let first = run(&entered);
    if (first.stop, first.terms as usize) != (0, terms) {
        return None;
    }
    if [&near, &far].map(|job| run(job)).iter().any(|last| (last.stop, last.repeats as usize) != (0, LOOKUPS)) {
        return None;
    }
    let entering = bench::fastest(|| run(&entered)).0;
    // What the repeats add is their lookups, and the reading of their records.
    let [near, far_lookup] =
        [&near, &far].map(|job| (bench::fastest(|| run(job)).0 - entering).max(0.0) / LOOKUPS as f64);
    Some(Times { entering, near, far: far_lookup, plain: in_a_map(&entered, &far[entered.len()..]) })
}

/// The seconds of a lookup in a map from the records of a job to their places; the records stand in the job, as they do for the library.
fn in_a_map(entered: &[u8], repeats: &[u8]) -> f64 {
    let places: HashMap<&[u8], usize> = records(entered).zip(0..).collect();
    let look = || records(repeats).map(|record| places[record]).fold(0, usize::wrapping_add);
    bench::fastest(look).0 / LOOKUPS as f64
}

/// The records of a job.
fn records(mut job: &[u8]) -> impl Iterator<Item = &[u8]> {
    iter::from_fn(move || {
        let size = usize::from(u16::from_le_bytes(*job.first_chunk()?));
        let (record, rest) = job.split_at_checked(2 + size)?;
        job = rest;
        Some(record)
    })
}
