//! The commands, and what they share.
pub mod bench;
mod case;
pub mod check;
pub mod checker;
pub mod compare;
pub mod convert;
pub mod count;
mod explain;
mod fill;
mod interrupt;
mod json;
pub mod known;
mod looks;
pub mod manual;
mod progress;
mod reader;
pub mod show;
mod smtlib;
pub mod soak;
pub mod sweep;
mod sweeps;
mod table;
mod terms;
mod text_case;
mod texts;

use bitblast_host::{MAX_JOB_BYTES, Refused, Report, alethe};
use std::{
    ffi::{OsStr, OsString},
    fs::File,
    io::{self, Read},
    path::Path,
    slice::Iter,
    str::FromStr,
};

/// The exit statuses, the worst last.
#[derive(Clone, Copy, PartialEq, Eq, PartialOrd, Ord)]
pub enum Status {
    Fine = 0,
    Failed = 1,
    Trouble = 2,
    TimedOut = 3,
}

/// A file whose job was checked.
struct Checked<'a> {
    /// The file's place among those of the command, from 1.
    place: usize,
    name: &'a str,
    job: &'a [u8],
    report: &'a Report<'a>,
    /// Whether all is held, and the number of answers is the demanded one.
    success: bool,
    demanded: Option<u32>,
}

/// Why a command could not do its work; both end in [`Status::Trouble`].
pub enum Failure {
    Usage(String),
    Io(io::Error),
}

impl From<io::Error> for Failure {
    fn from(error: io::Error) -> Self {
        Failure::Io(error)
    }
}

/// An input or output error with the file that it is about.
fn about(what: impl std::fmt::Display, error: io::Error) -> Failure {
    Failure::Io(io::Error::new(error.kind(), format!("{what}: {error}")))
}

fn unknown(word: &OsString) -> Failure {
    Failure::Usage(format!("cannot make sense of {}", word.display()))
}

/// The files of a command that has no options.
fn files<'a>(command: &str, words: &'a [OsString]) -> Result<Vec<&'a OsString>, Failure> {
    let mut files = Vec::new();
    let mut rest = words.iter();
    while let Some(word) = rest.next() {
        match word.to_str() {
            Some("--") => files.extend(rest.by_ref()),
            Some(text) if text.starts_with('-') && text != "-" => return Err(unknown(word)),
            _ => files.push(word),
        }
    }
    if files.is_empty() { Err(no_file(command)) } else { Ok(files) }
}

fn no_file(command: &str) -> Failure {
    Failure::Usage(format!("{command} needs a file, or - for the standard input"))
}

/// A file's name as it is printed: one that holds control characters shows them, and does not send them to the terminal.
fn shown(file: &OsStr) -> String {
    let mut text = String::new();
    for c in file.to_string_lossy().chars() {
        if c.is_control() { text.extend(c.escape_default()) } else { text.push(c) }
    }
    text
}

/// The bytes of a file: at most one more than the longest job, which the checker then refuses.
fn job_bytes(file: &OsStr) -> io::Result<Vec<u8>> {
    let mut job = Vec::new();
    let most = MAX_JOB_BYTES as u64 + 1;
    if file == "-" {
        io::stdin().lock().take(most).read_to_end(&mut job)?;
    } else {
        File::open(file)?.take(most).read_to_end(&mut job)?;
    }
    Ok(job)
}

/// Whether a file is Alethe text, by its name.
fn is_text(file: &OsStr) -> bool {
    Path::new(file).extension().is_some_and(|extension| extension == "alethe")
}

/// What is said of a line that is refused.
fn text_error(name: &str, refused: Refused) -> String {
    format!("{name}:{}: {}", refused.line, alethe::REFUSED)
}

/// The word after an option.
fn value<'a>(option: &str, words: &mut Iter<'a, OsString>) -> Result<&'a OsString, Failure> {
    words.next().ok_or_else(|| Failure::Usage(format!("{option} needs a value")))
}

/// The number after an option.
fn number<T: FromStr>(option: &str, words: &mut Iter<OsString>) -> Result<T, Failure> {
    let word = value(option, words)?;
    let number = word.to_str().and_then(|text| text.parse().ok());
    number.ok_or_else(|| Failure::Usage(format!("{option} needs a number, not {}", word.display())))
}

/// A number with commas between its thousands.
fn grouped(number: u64) -> String {
    let digits = number.to_string();
    let mut text = String::new();
    for (k, digit) in digits.chars().enumerate() {
        if k > 0 && (digits.len() - k).is_multiple_of(3) {
            text.push(',');
        }
        text.push(digit);
    }
    text
}

/// A number of things, with an s where there is not just one.
fn counted(number: u64, thing: &str) -> String {
    format!("{} {thing}{}", grouped(number), if number == 1 { "" } else { "s" })
}
