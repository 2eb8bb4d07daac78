//! `bbhost show`: a job's records, with the terms as SMT-LIB text.
use super::{
    Failure, Status, counted, files, job_bytes,
    reader::{Item, Reader, Record, records},
    smtlib::text,
};
use bitblast_host::{
    Answer, Report, Service,
    service::{MAX_ANSWER_BYTES, MAX_WORK_BYTES},
};
use std::{
    ffi::OsString,
    io::{self, Write},
};

/// How the command is used.
pub const USAGE: &str = "  bbhost show FILE..
      Prints the records of the job in each file (- is the standard input): the place of each among the records, its place in the
      bytes, and what it says. Terms are SMT-LIB text: b7 is the Bool variable named 7, x7w8 the bit-vector variable of width 8
      named 7, and t57 is term 57, where a text would be long. Exit status 1 where a job stops, 2 where a file cannot be read.";

/// The bytes that are shown of a record that stops the job.
const SHOWN: usize = 24;

pub fn run(words: &[OsString], out: &mut impl Write) -> Result<Status, Failure> {
    let files = files("show", words)?;
    let mut service = Service::new(MAX_WORK_BYTES, MAX_ANSWER_BYTES);
    let mut status = Status::Fine;
    for file in files {
        match job_bytes(file) {
            Ok(job) => {
                let report = service.check(&job);
                writeln!(out, "{}: {}\n record   offset", file.display(), counted(job.len() as u64, "byte"))?;
                show(&job, &report, out)?;
                if report.outcome().stop != 0 && status == Status::Fine {
                    status = Status::Failed;
                }
            }
            Err(error) => {
                eprintln!("bbhost: {}: {error}", file.display());
                status = Status::Trouble;
            }
        }
    }
    Ok(status)
}

fn show(job: &[u8], report: &Report, out: &mut impl Write) -> io::Result<()> {
    let mut reader = Reader::new(report.format());
    let mut answers = report.answers();
    for record in records(job).take(report.outcome().records as usize + 1) {
        write!(out, "{:>7} {:>8}  ", record.place, record.offset)?;
        if record.place > report.outcome().records {
            return stop(record, report, out);
        }
        let item = reader.read(record);
        let answer = if record.is_step() { answers.next() } else { None };
        writeln!(out, "{}", line(&reader, &item, answer))?;
    }
    Ok(())
}

/// What a record says, and the answer of a step.
fn line(reader: &Reader, item: &Item, answer: Option<Answer>) -> String {
    let claim = |what: String, literals: &[_]| {
        let literals: Vec<String> = literals.iter().map(|&literal| text(&reader.terms, literal)).collect();
        let answer = answer.map_or(String::new(), |a| format!(", {}, code {}", a.rule_name(), a.code));
        format!("step {}{answer}{what}: {}", reader.claims.len(), literals.join("  "))
    };
    match item {
        Item::Term { number, repeats } => {
            let term = text(&reader.terms, reader.terms.kept()[*number as usize]);
            format!("{} {number}: {term}", if *repeats { "again term" } else { "term" })
        }
        Item::Step { literals } => claim(String::new(), literals),
        Item::Chain { premises, literal } => {
            let premises: Vec<String> = premises.iter().map(u16::to_string).collect();
            claim(format!(" from {}", premises.join(" ")), &[*literal])
        }
        Item::Back { terms } => format!("back to {}", counted((*terms).into(), "term")),
        Item::FourBytes => "term numbers have four bytes".to_owned(),
    }
}

/// The record that stops the job.
fn stop(record: Record, report: &Report, out: &mut impl Write) -> io::Result<()> {
    let hex: Vec<String> = record.bytes.iter().take(SHOWN).map(|byte| format!("{byte:02X}")).collect();
    let more = if record.bytes.len() > SHOWN { " .." } else { "" };
    let (code, meaning) = (report.outcome().stop, report.stop_meaning());
    writeln!(out, "STOPS THE JOB (code {code}): {meaning}: {}{more}", hex.join(" "))
}
