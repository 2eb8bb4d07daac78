//! `bbhost check`: the jobs in some files.
use super::{
    Checked, Failure, Status, about,
    checker::{Checker, Lent, Trouble},
    grouped, is_text, job_bytes, json, no_file, number,
    progress::{Progress, during},
    shown, table, text_error, unknown, value,
};
use bitblast_host::{
    Limits, Report, Tally, convert,
    service::{MAX_ANSWER_BYTES, MAX_WORK_BYTES},
};
use std::{
    ffi::{OsStr, OsString},
    fs::File,
    io::{self, Read, Write},
    num::NonZero,
    os::unix::ffi::OsStringExt,
    slice::Iter,
    time::Duration,
};

/// How the command is used.
pub const USAGE: &str = "  bbhost check [--explain | --json | --jsonl | -q] [--steps N] [--timeout S] [--work BYTES] [--answers BYTES]
               [--width W] [--terms T] [--files-from LIST] FILE..
      Checks the job in each file (- is the standard input; up to 16 MiB each) and prints a table of its steps.
      A file whose name ends in .alethe is text, and is converted first (bbhost convert).
      A repeat is a record of a term that was there already.
      --explain  prints below each refused step what is claimed, what is expected, and where they first differ
      --json     prints one JSON object instead of the table; docs/OUTPUT.md has its fields
      --jsonl    prints an object in a line for each file, as soon as it is checked, and one for all
      -q         prints nothing
      --steps N  demands exactly N answers of each job, so that a job that lost its end does not pass
      --timeout S  checks each job in a process of its own, which is ended where it takes longer than S seconds
      --work, --answers   lend that much memory only (a kept term takes 8 bytes and an answer 10; 12 and 12 in a job whose
                 term numbers have four bytes)
      --files-from LIST  also checks the files that LIST names, one a line: `find DIR -type f | bbhost check --files-from -`
      --width W  stops a job at a bit-vector wider than W (code 7), --terms T at a new term beyond T, true and false
                 counted (code 8); above 64, and above 65,535 or in four bytes 1,000,000, they are these
      Exit status 0: every job ran to its end, has a step (or the demanded number), and every step is held. 1: not so; a job
      without a step was not checked. 2: usage, or a file that cannot be read. 3: a job took longer than --timeout allows.";

#[derive(Clone, Copy, PartialEq)]
enum Form {
    Table,
    Json,
    JsonLines,
    Quiet,
}

struct Options {
    form: Form,
    explain: bool,
    work: usize,
    answers: usize,
    limits: Limits,
    /// The number of answers that each job must have.
    steps: Option<u32>,
    /// The time that each job may take.
    time: Option<Duration>,
    files: Vec<OsString>,
}

fn options(words: &[OsString]) -> Result<Options, Failure> {
    let (work, answers) = (MAX_WORK_BYTES, MAX_ANSWER_BYTES);
    let mut options = Options {
        form: Form::Table,
        explain: false,
        work,
        answers,
        limits: Limits::RACK,
        steps: None,
        time: None,
        files: Vec::new(),
    };
    let mut rest = words.iter();
    while let Some(word) = rest.next() {
        match word.to_str() {
            Some("--json") => print_as(Form::Json, &mut options)?,
            Some("--jsonl") => print_as(Form::JsonLines, &mut options)?,
            Some("-q") => print_as(Form::Quiet, &mut options)?,
            Some("--explain") => options.explain = true,
            Some("--work") => options.work = lent("--work", MAX_WORK_BYTES, &mut rest)?,
            Some("--answers") => options.answers = lent("--answers", MAX_ANSWER_BYTES, &mut rest)?,
            Some("--width") => options.limits.width = number("--width", &mut rest)?,
            Some("--terms") => options.limits.terms = number("--terms", &mut rest)?,
            Some("--steps") => options.steps = Some(number::<NonZero<u32>>("--steps", &mut rest)?.get()),
            Some("--timeout") => options.time = Some(seconds(number("--timeout", &mut rest)?)?),
            Some("--files-from") => options.files.extend(listed(value("--files-from", &mut rest)?)?),
            Some("--") => options.files.extend(rest.by_ref().cloned()),
            Some(text) if text.starts_with('-') && text != "-" => return Err(unknown(word)),
            _ => options.files.push(word.clone()),
        }
    }
    if options.explain && options.form != Form::Table {
        return Err(Failure::Usage(
            "--explain adds to the table, which --json, --jsonl and -q do not print".to_owned(),
        ));
    }
    if options.files.is_empty() {
        return Err(no_file("check"));
    }
    Ok(options)
}

/// Takes a form in place of the table.
fn print_as(form: Form, options: &mut Options) -> Result<(), Failure> {
    if options.form != Form::Table && options.form != form {
        return Err(Failure::Usage("only one of --json, --jsonl and -q can be had".to_owned()));
    }
    options.form = form;
    Ok(())
}

/// The bytes to lend. More than any job can use is not lent, and said.
fn lent(option: &str, most: usize, words: &mut Iter<OsString>) -> Result<usize, Failure> {
    let bytes: usize = number(option, words)?;
    if bytes > most {
        eprintln!("bbhost: {option}: no job can use more than {} bytes, which are lent", grouped(most as u64));
    }
    Ok(bytes.min(most))
}

/// The files that a list names, one a line.
fn listed(list: &OsStr) -> Result<Vec<OsString>, Failure> {
    let mut bytes = Vec::new();
    let read = if list == "-" {
        io::stdin().lock().read_to_end(&mut bytes)
    } else {
        File::open(list).and_then(|mut file| file.read_to_end(&mut bytes))
    };
    read.map_err(|error| about(shown(list), error))?;
    let names = bytes.split(|&byte| byte == b'\n').filter(|name| !name.is_empty());
    Ok(names.map(|name| OsString::from_vec(name.to_vec())).collect())
}

/// A time above 0.
fn seconds(number: f64) -> Result<Duration, Failure> {
    let time = Duration::try_from_secs_f64(number).ok().filter(|time| !time.is_zero());
    time.ok_or_else(|| Failure::Usage(format!("--timeout needs a number of seconds, not {number}")))
}

pub fn run(words: &[OsString], out: &mut impl Write) -> Result<Status, Failure> {
    let options = options(words)?;
    let lent = Lent { work: options.work, room: options.answers, limits: options.limits };
    let mut checker = Checker::new(lent, options.time);
    let mut progress = Progress::new();
    let mut status = Status::Fine;
    if options.form == Form::Json {
        write!(out, "{}", json::begin())?;
    }
    for (k, file) in options.files.iter().enumerate() {
        let (place, name) = (k + 1, file.to_string_lossy());
        let what = format!("file {place} of {}: {}", options.files.len(), shown(file));
        progress.show(|| what.clone());
        let outcome = match job_of(file).and_then(|job| Ok((during(&what, || checker.check(&job))?, job))) {
            Ok((report, job)) => print(place, &name, &job, &report, &options, out)?,
            Err(trouble) => failed(place, &name, &trouble, &options, out)?,
        };
        status = status.max(outcome);
    }
    sum(&options, checker.tally(), status == Status::Fine, out)?;
    Ok(status)
}

/// The job in a file, or that of its text.
fn job_of(file: &OsStr) -> Result<Vec<u8>, Trouble> {
    let bytes = job_bytes(file).map_err(Trouble::Unreadable)?;
    if is_text(file) { convert(&bytes).map_err(Trouble::Refused) } else { Ok(bytes) }
}

/// Prints what came of a job.
fn print(
    place: usize,
    name: &str,
    job: &[u8],
    report: &Report,
    options: &Options,
    out: &mut impl Write,
) -> io::Result<Status> {
    let success = report.all_held() && options.steps.is_none_or(|steps| steps == report.outcome().answers);
    let checked = Checked { place, name, job, report, success, demanded: options.steps };
    match options.form {
        Form::Table => table::table(&checked, options.explain, out)?,
        Form::Json | Form::JsonLines => object(place, json::checked(&checked), options, out)?,
        Form::Quiet => {}
    }
    Ok(if success { Status::Fine } else { Status::Failed })
}

/// Says that a file has no answer.
fn failed(place: usize, name: &str, trouble: &Trouble, options: &Options, out: &mut impl Write) -> io::Result<Status> {
    let shown = shown(OsStr::new(name));
    match trouble {
        Trouble::Refused(refused) => eprintln!("{}", text_error(&shown, *refused)),
        _ => eprintln!("bbhost: {shown}: {}", trouble.words()),
    }
    object(place, json::failed(place, name, trouble.kind(), &trouble.words()), options, out)?;
    Ok(trouble.status())
}

/// Prints the object of a file, in the forms that have one. Lines are for programs that read while this one still works.
fn object(place: usize, fields: Vec<(&str, String)>, options: &Options, out: &mut impl Write) -> io::Result<()> {
    match options.form {
        Form::Json => write!(out, "{}{}", if place == 1 { "" } else { ",\n" }, json::lines(&fields)),
        Form::JsonLines => {
            writeln!(out, "{}", json::line(fields))?;
            out.flush()
        }
        Form::Table | Form::Quiet => Ok(()),
    }
}

/// Prints what all files came to.
fn sum(options: &Options, tally: Tally, all_held: bool, out: &mut impl Write) -> io::Result<()> {
    match options.form {
        Form::Table if options.files.len() > 1 => writeln!(out, "{}", table::sum(tally)),
        Form::Json => writeln!(out, "{}", json::end(tally, all_held)),
        Form::JsonLines => writeln!(out, "{}", json::last_line(tally, all_held)),
        Form::Table | Form::Quiet => Ok(()),
    }
}
