//! `bbhost sweep`: both sides of an equality on every assignment.
use super::{Failure, Status, about, counted, grouped, job_bytes, progress::during, shown, unknown};
use bitblast_host::{
    Outcome, Service, Sweep,
    service::{MAX_ANSWER_BYTES, MAX_WORK_BYTES},
    words,
};
use std::{
    ffi::OsString,
    io::{self, Write},
};

/// How the command is used.
pub const USAGE: &str = "  bbhost sweep FILE NUMBER
      Runs the job in a file (- is the standard input), and evaluates both sides of the Equals of that number among the terms
      that the job keeps (0 is true, 1 is false) on every assignment of the variables that stand in it, at most 16 bits of them.
      Exit status 0: the sides differ on none. 1: they differ, or the sweep is refused. 2: usage, or a file that cannot be read.";

/// The file and the number of a term that a command is given.
pub fn file_and_number<'a>(command: &str, words: &'a [OsString]) -> Result<(&'a OsString, u32), Failure> {
    match words {
        [file, number] => Ok((file, number_of(number)?)),
        _ => Err(Failure::Usage(format!("{command} needs a file and the number of a term"))),
    }
}

/// The number of a term.
pub fn number_of(word: &OsString) -> Result<u32, Failure> {
    word.to_str().and_then(|text| text.parse().ok()).ok_or_else(|| unknown(word))
}

pub fn run(words: &[OsString], out: &mut impl Write) -> Result<Status, Failure> {
    let (file, number) = file_and_number("sweep", words)?;
    let name = shown(file);
    let job = job_bytes(file).map_err(|error| about(&name, error))?;
    let mut service = Service::new(MAX_WORK_BYTES, MAX_ANSWER_BYTES);
    let sweep = during(&format!("sweeping term {number}"), || service.sweep(&job, number));
    write!(out, "{name}: term {number}: ")?;
    result(&sweep, out)?;
    Ok(if sweep.no_difference() { Status::Fine } else { Status::Failed })
}

fn result(sweep: &Sweep, out: &mut impl Write) -> io::Result<()> {
    let assignments = counted(sweep.assignments().into(), "assignment");
    match (sweep.code(), sweep.differing()) {
        (0, 0) => writeln!(out, "{assignments}, the sides are equal on all"),
        (0, some) => writeln!(out, "{assignments}, the sides DIFFER on {}", grouped(some.into())),
        (code, _) => refusal(code, sweep.meaning(), sweep.outcome(), out),
    }
}

/// Why a question is refused.
pub fn refusal(code: u32, meaning: &str, outcome: Outcome, out: &mut impl Write) -> io::Result<()> {
    if outcome.stop == 0 {
        return writeln!(out, "REFUSED (code {code}): {meaning}");
    }
    let (record, why) = (u64::from(outcome.records) + 1, words::stop_meaning(outcome.stop));
    writeln!(out, "REFUSED (code {code}): the job stops at record {record} (code {}): {why}", outcome.stop)
}
