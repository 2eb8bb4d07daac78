//! `bbhost count`: how many assignments lead to each value of a term.
use super::{
    Failure, Status, about, counted, grouped, job_bytes,
    progress::during,
    shown,
    sweep::{file_and_number, refusal},
};
use bitblast_host::{
    Service,
    service::{MAX_ANSWER_BYTES, MAX_WORK_BYTES},
};
use std::{
    ffi::OsString,
    io::{self, Write},
};

/// How the command is used.
pub const USAGE: &str = "  bbhost count FILE NUMBER
      Runs the job in a file (- is the standard input), and counts how many assignments of the variables that stand in the term
      of that number, at most 16 bits of them, lead to each of its values: a Bool's 0 and 1, or those of a width up to 8. The
      longest bar is that of the largest count. Exit status 1: the count is refused. 2: usage, or a file that cannot be read.";

/// The length of the longest bar.
const BAR: u64 = 50;

pub fn run(words: &[OsString], out: &mut impl Write) -> Result<Status, Failure> {
    let (file, number) = file_and_number("count", words)?;
    let name = shown(file);
    let job = job_bytes(file).map_err(|error| about(&name, error))?;
    let mut service = Service::new(MAX_WORK_BYTES, MAX_ANSWER_BYTES);
    let count = during(&format!("counting the values of term {number}"), || service.count(&job, number));
    write!(out, "{name}: term {number}: ")?;
    if count.code() != 0 {
        refusal(count.code(), count.meaning(), count.outcome(), out)?;
        return Ok(Status::Failed);
    }
    let assignments = count.counts().iter().map(|&count| u64::from(count)).sum();
    let reached = count.counts().iter().filter(|&&count| count > 0).count();
    let values = counted(count.counts().len() as u64, "value");
    writeln!(out, "{}, {reached} of {values} reached", counted(assignments, "assignment"))?;
    bars(count.counts(), out)?;
    Ok(Status::Fine)
}

/// A line for each value. A count above 0 has a bar, however short.
fn bars(counts: &[u32], out: &mut impl Write) -> io::Result<()> {
    let most = counts.iter().copied().max().unwrap_or(0).max(1);
    for (value, &count) in counts.iter().enumerate() {
        let length = (u64::from(count) * BAR).div_ceil(most.into());
        let line = format!("{value:>5} {:>7}  {}", grouped(count.into()), "#".repeat(length as usize));
        writeln!(out, "{}", line.trim_end())?;
    }
    Ok(())
}
