//! The table that `bbhost check` prints.
use super::{
    Checked, counted,
    explain::explain,
    looks::looks_like,
    reader::{Reader, records},
    shown,
};
use bitblast_host::{Answer, Format, MAX_JOB_BYTES, Report, Tally, Verdict};
use std::{
    ffi::OsStr,
    io::{self, Write},
};

/// A job that was checked: what it came to, its answers, and what is wrong with their number.
pub fn table(checked: &Checked, explained: bool, out: &mut impl Write) -> io::Result<()> {
    let Checked { job, report, .. } = *checked;
    let (name, outcome) = (shown(OsStr::new(checked.name)), report.outcome());
    let bytes = if job.len() > MAX_JOB_BYTES {
        format!("more than {}", counted(MAX_JOB_BYTES as u64, "byte"))
    } else {
        counted(job.len() as u64, "byte")
    };
    let numbers = match report.format() {
        Format::TwoBytes => "",
        Format::FourBytes => " (term numbers of four)",
    };
    writeln!(
        out,
        "{name}: {bytes}{numbers}, {}, {} kept, {}, {}",
        counted(outcome.records.into(), "record"),
        counted(outcome.terms.into(), "term"),
        counted(outcome.repeats.into(), "repeat"),
        counted(outcome.answers.into(), "step")
    )?;
    steps(job, report, explained, out)?;
    writeln!(out, "  {}", end(job, report))?;
    match checked.demanded {
        Some(steps) if steps != outcome.answers => {
            writeln!(out, "  WRONG NUMBER OF STEPS: {} answered, {steps} demanded", outcome.answers)
        }
        _ => Ok(()),
    }
}

/// The table of the answers, with the refused ones explained.
fn steps(job: &[u8], report: &Report, explained: bool, out: &mut impl Write) -> io::Result<()> {
    if report.outcome().answers > 0 {
        writeln!(out, "   step  rule                code  depth")?;
    }
    let mut answers = report.answers();
    if !explained {
        return answers.try_for_each(|answer| writeln!(out, "{}", row(&answer)));
    }
    let mut reader = Reader::new(report.format());
    for record in records(job).take(report.outcome().records as usize) {
        let item = reader.read(record);
        let Some(answer) = record.is_step().then(|| answers.next()).flatten() else { continue };
        writeln!(out, "{}", row(&answer))?;
        if answer.verdict() == Verdict::Refused {
            writeln!(out, "         record {}, byte {}", record.place, record.offset)?;
            for line in explain(&mut reader, &item, &answer) {
                writeln!(out, "         {line}")?;
            }
        }
    }
    Ok(())
}

fn row(answer: &Answer) -> String {
    let Answer { step, rule, code, depth, .. } = *answer;
    format!("{step:>7}  {rule:>2} {:<16} {code:>4} {depth:>6}  {}", answer.rule_name(), answer.meaning())
}

/// How a job ended.
fn end(job: &[u8], report: &Report) -> String {
    let outcome = report.outcome();
    let classes = classes(tally_of(report));
    let looks =
        looks_like(job, report).map_or(String::new(), |what| format!("; this looks like {what}, not like a job"));
    match outcome.stop {
        0 if outcome.answers == 0 => "NOTHING CHECKED: the job ran to its end and has no step".to_owned(),
        0 => format!("ran to its end: {classes}"),
        2 => format!("NOT READ (code 2): {}{looks}", report.stop_meaning()),
        stop => format!(
            "STOPPED at record {} (code {stop}): {}; before it: {classes}{looks}",
            u64::from(outcome.records) + 1,
            report.stop_meaning()
        ),
    }
}

/// What all files came to.
pub fn sum(tally: Tally) -> String {
    format!("{}: {}", counted(tally.jobs, "job"), classes(tally))
}

fn classes(tally: Tally) -> String {
    format!("{} held, {} form only, {} refused", tally.held, tally.form_only, tally.refused)
}

/// The answers of one report by class.
fn tally_of(report: &Report) -> Tally {
    let mut tally = Tally::default();
    tally.jobs = 1;
    for answer in report.answers() {
        *match answer.verdict() {
            Verdict::Held => &mut tally.held,
            Verdict::FormOnly => &mut tally.form_only,
            Verdict::Refused => &mut tally.refused,
        } += 1;
    }
    tally
}
