//! The two formats of a job, which its first record tells apart.
use crate::{Kind, MAX_JOB_BYTES, SHORTEST_RECORD};

/// The first record of a job whose term numbers have four bytes: kind 103 without a body.
pub const FOUR_BYTES_RECORD: [u8; 4] = [2, 0, Kind::FourBytes.number() as u8, 0];

/// How many bytes the numbers of terms have: in arguments, literals, back counts, and the depths of answers. All other numbers of a job
/// have the same length in both.
#[derive(Clone, Copy, Debug, Default, PartialEq, Eq, Hash)]
pub enum Format {
    /// Two bytes: up to 65,535 terms at 8 bytes of work memory, answers of 10 bytes.
    #[default]
    TwoBytes,
    /// Four bytes: up to 1,000,000 terms at 12 bytes of work memory, answers of 12 bytes.
    FourBytes,
}

impl Format {
    /// The format of a job: its first four bytes decide.
    pub fn of(job: &[u8]) -> Self {
        if job.starts_with(&FOUR_BYTES_RECORD) { Format::FourBytes } else { Format::TwoBytes }
    }

    /// The bytes of a term's number.
    pub const fn number_bytes(self) -> usize {
        match self {
            Format::TwoBytes => 2,
            Format::FourBytes => 4,
        }
    }

    /// The bytes of work memory that a kept term costs.
    pub const fn term_bytes(self) -> usize {
        4 + 2 * self.number_bytes()
    }

    /// The bytes of an answer.
    pub const fn answer_bytes(self) -> usize {
        8 + self.number_bytes()
    }

    /// The most terms that a job keeps, `true` and `false` among them.
    pub const fn max_terms(self) -> usize {
        match self {
            Format::TwoBytes => 65_535,
            Format::FourBytes => 1_000_000,
        }
    }

    /// No job of the format is faster with more work memory: this is twice what the most terms cost.
    pub const fn max_work_bytes(self) -> usize {
        match self {
            Format::TwoBytes => 1 << 20,
            Format::FourBytes => 2 * self.term_bytes() * self.max_terms(),
        }
    }

    /// No job of the format writes more: the answers of a longest job of steps only.
    pub const fn max_answer_bytes(self) -> usize {
        MAX_JOB_BYTES / SHORTEST_RECORD * self.answer_bytes()
    }

    /// The number of a term at the start of some bytes, which have a whole one.
    #[doc(hidden)]
    pub fn number(self, bytes: &[u8]) -> u32 {
        bytes[..self.number_bytes()].iter().rev().fold(0, |number, &byte| number << 8 | u32::from(byte))
    }

    /// The bytes of a term's number, lowest first; what does not fit into them is left out.
    #[doc(hidden)]
    pub fn bytes(self, number: u32) -> impl Iterator<Item = u8> {
        number.to_le_bytes().into_iter().take(self.number_bytes())
    }
}

/// The bytes of work memory that are worth lending a job: the library gives it no more than four for each of its own, however many are lent, and
/// wipes all of them.
pub fn useful_work_bytes(job: &[u8]) -> usize {
    job.len().saturating_mul(4).min(Format::of(job).max_work_bytes())
}
