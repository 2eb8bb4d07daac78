//! `bbhost known`: the bits of a term where only part of its inputs is known.
use super::{
    Failure, Status, about, job_bytes, shown,
    sweep::{number_of, refusal},
    unknown,
};
use bitblast_host::{
    Service,
    service::{MAX_ANSWER_BYTES, MAX_WORK_BYTES},
};
use std::{ffi::OsString, io::Write};

/// How the command is used.
pub const USAGE: &str = "  bbhost known FILE NUMBER BITS
      Runs the job in a file (- is the standard input), and derives the bits of the term of that number, bit 0 first, from what
      is known of its inputs. BITS has a 0, a 1, or an x (not known) for each bit of the variables that stand in the term: the
      variable with the lowest number first, bit 0 first in each. A 0 or 1 in the result is the true bit whatever the x are.
      Exit status 1: the term or BITS is refused. 2: usage, or a file that cannot be read.";

/// The signs of a bit's bytes 0, 1 and 2.
const SIGNS: [char; 3] = ['0', '1', 'x'];

/// The byte of each sign.
fn bytes(word: &OsString) -> Result<Vec<u8>, Failure> {
    let byte = |sign: char| SIGNS.iter().position(|&s| s == sign).map(|place| place as u8);
    let bytes = word.to_str().and_then(|text| text.chars().map(byte).collect());
    bytes.ok_or_else(|| unknown(word))
}

pub fn run(words: &[OsString], out: &mut impl Write) -> Result<Status, Failure> {
    let [file, number, inputs] = words else {
        return Err(Failure::Usage("known needs a file, the number of a term, and bits of its variables".to_owned()));
    };
    let (number, inputs) = (number_of(number)?, bytes(inputs)?);
    let name = shown(file);
    let job = job_bytes(file).map_err(|error| about(&name, error))?;
    let mut service = Service::new(MAX_WORK_BYTES, MAX_ANSWER_BYTES);
    let known = service.known(&job, number, &inputs);
    write!(out, "{name}: term {number}: ")?;
    if known.code() != 0 {
        refusal(known.code(), known.meaning(), known.outcome(), out)?;
        return Ok(Status::Failed);
    }
    let bits: String = known.bits().iter().map(|&bit| SIGNS[usize::from(bit)]).collect();
    let settled = known.bits().iter().filter(|&&bit| bit < 2).count();
    writeln!(out, "{bits} ({settled} of {} known)", known.bits().len())?;
    Ok(Status::Fine)
}
