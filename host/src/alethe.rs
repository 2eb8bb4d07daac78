//! Steps as Alethe text: converted into a job.
use crate::{Seeds, ffi::convert_text};
use std::{error::Error, fmt};

/// The most bytes of a job for each byte of its text: `#b0` is a record of 14 bytes.
pub const JOB_BYTES_PER_BYTE: usize = 5;

/// The work memory beyond which lookups become no faster.
pub const MAX_LOOKUP_BYTES: usize = 1 << 20;

/// A line that is not of the form, or that does not fit into a job.
#[derive(Clone, Copy, Debug, PartialEq, Eq)]
pub struct Refused {
    /// Its place, from 1.
    pub line: u64,
}

/// Why a line is refused (code 25).
pub const REFUSED: &str = "not a declaration or a step of this form, or one that does not fit into a job";

impl fmt::Display for Refused {
    fn fmt(&self, f: &mut fmt::Formatter) -> fmt::Result {
        write!(f, "line {}: {REFUSED}", self.line)
    }
}

impl Error for Refused {}

/// The job of a text, in memory of its own.
///
/// ```
/// let text = b"(declare-const a Bool)\n(step s (cl (= (and a a) a)) :rule and)\n";
/// let job = bitblast_host::convert(text).unwrap();
/// assert_eq!(job[..6], [4, 0, 10, 0, 0, 0]);
/// assert_eq!(bitblast_host::convert(b"\n").unwrap_err().line, 1);
/// ```
pub fn convert(text: &[u8]) -> Result<Vec<u8>, Refused> {
    let mut work = vec![0; (4 * text.len()).min(MAX_LOOKUP_BYTES)];
    let mut job = vec![0; JOB_BYTES_PER_BYTE * text.len()];
    Seeds::default().put(&mut work);
    let converted = convert_text(text, &mut work, &mut job);
    if converted.code != 0 {
        return Err(Refused { line: converted.line });
    }
    job.truncate(converted.length as usize);
    Ok(job)
}
