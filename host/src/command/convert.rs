//! `bbhost convert`: the job of a text.
use super::{Failure, Status, about, job_bytes, text_error, unknown, value};
use bitblast_host::convert;
use std::{ffi::OsString, fs, io::Write};

/// How the command is used.
pub const USAGE: &str = "  bbhost convert FILE [-o JOB]
      Converts a file of Alethe text (- is the standard input; up to 16 MiB) into a job: declare-const lines, then step lines.
      docs/FORMAT.md has their form. Writes the job to that file, or to the standard output.
      Exit status 0: the job is written. 1: a line is refused, FILE:LINE is named, and nothing is written. 2: usage, or a file
      that cannot be read or written.";

pub fn run(words: &[OsString], out: &mut impl Write) -> Result<Status, Failure> {
    let (file, output) = options(words)?;
    let name = file.to_string_lossy();
    let text = job_bytes(file).map_err(|error| about(&name, error))?;
    match convert(&text) {
        Err(refused) => {
            eprintln!("{}", text_error(&name, refused));
            Ok(Status::Failed)
        }
        Ok(job) => {
            match output {
                Some(path) => fs::write(path, job).map_err(|error| about(path.display(), error))?,
                None => out.write_all(&job)?,
            }
            Ok(Status::Fine)
        }
    }
}

fn options(words: &[OsString]) -> Result<(&OsString, Option<&OsString>), Failure> {
    let (mut file, mut output) = (None, None);
    let mut rest = words.iter();
    while let Some(word) = rest.next() {
        match word.to_str() {
            Some("-o") => output = Some(value("-o", &mut rest)?),
            Some("--") => file = rest.next().or(file),
            Some(text) if text.starts_with('-') && text != "-" => return Err(unknown(word)),
            _ if file.is_some() => return Err(unknown(word)),
            _ => file = Some(word),
        }
    }
    let file = file.ok_or_else(|| Failure::Usage("convert needs a file, or - for the standard input".to_owned()))?;
    Ok((file, output))
}
