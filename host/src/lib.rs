//! The verified checker of bit-blasting steps, for Rust.
//!
//! ```
//! use bitblast_host::{AnswerCode, Rule, Service};
//!
//! // A variable of width 1, its bit, the bit as a bit-vector, their equality, and a step that claims it under rule 2, var.
//! let job = [
//!     6, 0, 11, 0, 1, 0, 0, 0, 6, 0, 30, 0, 0, 0, 2, 0, 4, 0, 31, 0, 3, 0, 6, 0, 24, 0, 2, 0, 4, 0, 6, 0, 100, 0, 2, 0, 5, 0,
//! ];
//! let mut service = Service::new(1024, 100);
//! let report = service.check(&job);
//! assert!(report.all_held());
//! for answer in report.answers() {
//!     println!("{} {} {}", answer.rule_name(), answer.meaning(), answer.depth);
//!     assert_eq!(Rule::try_from(answer.rule), Ok(Rule::Var));
//!     assert_eq!(AnswerCode::try_from(answer.code), Ok(AnswerCode::Held));
//! }
//! ```
//!
//! docs/FORMAT.md in the repository has the format of a job, and every kind, rule and code; [`words`] has them as enums. The numbers of terms have
//! two bytes, or four where a job's first record says so: [`Format`]. [`Service`] says how much memory, stack and time a job takes.
//!
//! The crate has no writer of jobs. The modules `jobs`, `circuits`, `lent` and `rng` are public for its own tests and command line alone
//! and are not shown here: they take widths, counts and terms as they come, so that what is out of range panics or makes another job
//! than was meant, and they may change at any time.

pub mod alethe;
#[doc(hidden)]
pub mod circuits;
pub mod ffi;
pub mod format;
#[doc(hidden)]
pub mod jobs;
#[doc(hidden)]
pub mod lent;
#[doc(hidden)]
pub mod plain;
#[doc(hidden)]
pub mod rng;
pub mod seed;
pub mod service;
pub mod words;

pub use alethe::{Refused, convert};
pub use ffi::{
    Converted, Counted, Known, Limits, Outcome, Swept, Tally, convert_text, count_job, interface, known_job, run_job,
    run_job_within, sweep_job, tally_answers,
};
pub use format::Format;
pub use seed::Seeds;
pub use service::{Answer, Answers, Count, KnownBits, Memory, Report, Service, Sweep, Verdict};
pub use words::{AnswerCode, Kind, Rule, StopCode};

/// The number of the library's interface that this crate is written for.
pub const INTERFACE: u32 = 8;

/// The longest job, in bytes; a longer one is answered with stop code 2.
pub const MAX_JOB_BYTES: usize = 16_777_216;

/// The greatest width of a bit-vector.
pub const MAX_WIDTH: usize = 64;

/// The most terms that a job keeps whose term numbers have two bytes, `true` and `false` among them; [`Format`] has those of both formats.
pub const MAX_TERMS: usize = Format::TwoBytes.max_terms();

/// The bytes of work memory that a kept term costs where term numbers have two bytes.
pub const TERM_BYTES: usize = Format::TwoBytes.term_bytes();

/// The bytes of a value buffer that a kept term needs, `true` and `false` too.
pub const VALUE_BYTES: usize = 8;

/// The most bits that the variables of a swept or counted term have.
pub const MAX_SWEPT_BITS: usize = 16;

/// The most values that a counted term has: those of width 8.
pub const MAX_VALUES: usize = 256;

/// The bytes of an answer where term numbers have two bytes.
pub const ANSWER_BYTES: usize = Format::TwoBytes.answer_bytes();

/// The stack, in bytes, that is enough for a call with any job or text. Most of it is used by divisions of width 64, and by terms that are
/// nested 200 deep.
pub const STACK_BYTES: usize = 262_144;

/// The bytes of the shortest record of a step, and of a term.
pub const SHORTEST_RECORD: usize = 6;
