//! The functions of the static library, declared by hand: nothing checks these declarations against the Rattle source
//! (`bb_job`, `bb_job_within`, `bb_sweep`, `bb_count`, `bb_known`, `bb_text`, `bb_tally`, `bb_version` in crates/bitblast_c; what they return in
//! crates/bitblast, crates/runs and crates/convert, `Tally` in crates/tally). tests/ffi.rs does what can be done: it compares the text of both, the
//! interface's number, and sizes, offsets and the bytes around each lent slice.
use crate::{Format, MAX_WIDTH};

/// What a job came to. Later interfaces may add numbers.
#[repr(C)]
#[non_exhaustive]
#[derive(Clone, Copy, Debug, Default, PartialEq, Eq)]
pub struct Outcome {
    /// 0 where the job ran to its end, else the code that stopped it.
    pub stop: u32,
    /// Records done; the stopping one is not counted.
    pub records: u32,
    /// Answers written, one for each step done.
    pub answers: u32,
    /// Terms kept at the end, `true` and `false` among them.
    pub terms: u32,
    /// Term records done whose term was there already. No back lowers it.
    pub repeats: u32,
}

/// What the jobs of a service came to. Each number saturates. Later interfaces may add numbers.
#[repr(C)]
#[non_exhaustive]
#[derive(Clone, Copy, Debug, Default, PartialEq, Eq)]
pub struct Tally {
    /// Jobs counted.
    pub jobs: u64,
    /// Answers that are held.
    pub held: u64,
    /// Answers that are form only.
    pub form_only: u64,
    /// All other answers.
    pub refused: u64,
}

/// What a sweep came to. Later interfaces may add numbers.
#[repr(C)]
#[non_exhaustive]
#[derive(Clone, Copy, Debug, Default, PartialEq, Eq)]
pub struct Swept {
    /// 0 where the sweep was made, else the code that refused it; both counts are 0 then.
    pub code: u32,
    /// How many assignments the variables have.
    pub assignments: u32,
    /// On how many of them the sides differ.
    pub differing: u32,
    /// What the job came to.
    pub outcome: Outcome,
}

/// What counting a term's values came to. Later interfaces may add numbers.
#[repr(C)]
#[non_exhaustive]
#[derive(Clone, Copy, Debug, Default, PartialEq, Eq)]
pub struct Counted {
    /// 0 where the counts were written, else the code that refused them.
    pub code: u32,
    /// What the job came to.
    pub outcome: Outcome,
}

/// What deriving a term's bits came to. Later interfaces may add numbers.
#[repr(C)]
#[non_exhaustive]
#[derive(Clone, Copy, Debug, Default, PartialEq, Eq)]
pub struct Known {
    /// 0 where the bits were written, else the code that refused them.
    pub code: u32,
    /// What the job came to.
    pub outcome: Outcome,
}

/// The limits under which a job is checked. A limit above the rack's is the rack's, which of terms is that of the job's [`Format`].
#[derive(Clone, Copy, Debug, PartialEq, Eq)]
pub struct Limits {
    /// The greatest width of a bit-vector, results too: a wider one is stop code 7. At 0 there is no bit-vector.
    pub width: u32,
    /// The most terms, `true` and `false` among them: a new one beyond is stop code 8. These two are there at any limit.
    pub terms: u32,
}

impl Limits {
    /// Those of [`run_job`], and of sweeps and counts: a job whose term numbers have two bytes has at most 65,535 terms under them.
    pub const RACK: Limits = Limits { width: MAX_WIDTH as u32, terms: Format::FourBytes.max_terms() as u32 };
}

impl Default for Limits {
    fn default() -> Self {
        Limits::RACK
    }
}

/// What a text came to. Later interfaces may add numbers.
#[repr(C)]
#[non_exhaustive]
#[derive(Clone, Copy, Debug, Default, PartialEq, Eq)]
pub struct Converted {
    /// 0 where the job was written, 25 where a line is refused.
    pub code: u32,
    /// The place of the first line that is refused, from 1; 0 where none is.
    pub line: u64,
    /// The bytes of the job; 0 where a line is refused.
    pub length: u64,
}

unsafe extern "C" {
    fn bb_job(
        job: *const u8,
        job_len: usize,
        work: *mut u8,
        work_len: usize,
        answers: *mut u8,
        answers_len: usize,
    ) -> Outcome;

    fn bb_job_within(
        job: *const u8,
        job_len: usize,
        work: *mut u8,
        work_len: usize,
        answers: *mut u8,
        answers_len: usize,
        width_limit: u32,
        term_limit: u32,
    ) -> Outcome;

    fn bb_sweep(
        job: *const u8,
        job_len: usize,
        work: *mut u8,
        work_len: usize,
        answers: *mut u8,
        answers_len: usize,
        values: *mut u8,
        values_len: usize,
        number: u32,
    ) -> Swept;

    fn bb_count(
        job: *const u8,
        job_len: usize,
        work: *mut u8,
        work_len: usize,
        answers: *mut u8,
        answers_len: usize,
        values: *mut u8,
        values_len: usize,
        number: u32,
        counts: *mut u32,
        counts_len: usize,
    ) -> Counted;

    fn bb_known(
        job: *const u8,
        job_len: usize,
        work: *mut u8,
        work_len: usize,
        answers: *mut u8,
        answers_len: usize,
        values: *mut u8,
        values_len: usize,
        number: u32,
        inputs: *const u8,
        inputs_len: usize,
        outputs: *mut u8,
        outputs_len: usize,
    ) -> Known;
    fn bb_text(
        text: *const u8,
        text_len: usize,
        work: *mut u8,
        work_len: usize,
        job: *mut u8,
        job_len: usize,
    ) -> Converted;

    fn bb_tally(tally: *mut Tally, answers: *const u8, answers_len: usize, count: u32);

    safe fn bb_version() -> u32;
}

impl Outcome {
    /// All numbers in their order, for comparisons that shall notice a new one.
    #[doc(hidden)]
    pub fn numbers(&self) -> [u32; 5] {
        let Outcome { stop, records, answers, terms, repeats } = *self;
        [stop, records, answers, terms, repeats]
    }

    /// The outcome of which these are all numbers.
    #[doc(hidden)]
    pub fn from_numbers([stop, records, answers, terms, repeats]: [u32; 5]) -> Self {
        Outcome { stop, records, answers, terms, repeats }
    }
}

impl Tally {
    /// All numbers in their order, for comparisons that shall notice a new one.
    #[doc(hidden)]
    pub fn numbers(&self) -> [u64; 4] {
        let Tally { jobs, held, form_only, refused } = *self;
        [jobs, held, form_only, refused]
    }
}

/// The number of the interface that the linked library has; these declarations are written for [`INTERFACE`](crate::INTERFACE).
pub fn interface() -> u32 {
    bb_version()
}

/// Checks a job of either [`Format`] on lent memory of any length and content. Afterwards all of `work` is zero, the answers stand at the start
/// of `answers`, and the bytes past the last answer are as they were. For jobs of strangers, put a seed at the end of `work` before each call
/// ([`Seeds::put`](crate::Seeds::put)): no result depends on it, but nobody can then choose terms that collide.
pub fn run_job(job: &[u8], work: &mut [u8], answers: &mut [u8]) -> Outcome {
    // SAFETY: each pointer is valid for its length, and the borrows keep the three apart.
    unsafe { bb_job(job.as_ptr(), job.len(), work.as_mut_ptr(), work.len(), answers.as_mut_ptr(), answers.len()) }
}

/// Checks a job as [`run_job`] does, under limits. A job that stops with neither 7 nor 8 comes to the same under any larger ones.
pub fn run_job_within(job: &[u8], work: &mut [u8], answers: &mut [u8], limits: Limits) -> Outcome {
    // SAFETY: each pointer is valid for its length, and the borrows keep the three apart.
    unsafe {
        bb_job_within(
            job.as_ptr(),
            job.len(),
            work.as_mut_ptr(),
            work.len(),
            answers.as_mut_ptr(),
            answers.len(),
            limits.width,
            limits.terms,
        )
    }
}

/// Runs a job as [`run_job`] does, and evaluates both sides of the Equals of that number in its final store on every assignment of the
/// variables that stand in it. `values` may be of any length and content: all of it is zero after an accepted sweep, and as it was after
/// a refused one.
///
/// The code is 20 where the job stops early, the number is not that of an Equals, or its variables have more than 16 bits; else 21 where
/// `values` has fewer than [`VALUE_BYTES`](crate::VALUE_BYTES) for each term kept, `true` and `false` among them.
pub fn sweep_job(job: &[u8], work: &mut [u8], answers: &mut [u8], values: &mut [u8], number: u32) -> Swept {
    // SAFETY: each pointer is valid for its length, and the borrows keep the four apart.
    unsafe {
        bb_sweep(
            job.as_ptr(),
            job.len(),
            work.as_mut_ptr(),
            work.len(),
            answers.as_mut_ptr(),
            answers.len(),
            values.as_mut_ptr(),
            values.len(),
            number,
        )
    }
}

/// Runs a job as [`run_job`] does, and counts how many assignments of the variables that stand in the term of that number of its final store
/// lead to each of its values. The counts stand at the start of `counts`, the lowest value's first, `false` before `true`; the numbers past
/// the last value are as they were, and all of them where the code is not 0. `values` is left as [`sweep_job`] leaves it.
///
/// The code is 20 where the job stops early, the number is not that of a kept Bool or bit-vector of width up to 8, or its variables have
/// more than 16 bits; else 21 as in [`sweep_job`]; else 22 where `counts` is shorter than the number of values.
pub fn count_job(
    job: &[u8],
    work: &mut [u8],
    answers: &mut [u8],
    values: &mut [u8],
    number: u32,
    counts: &mut [u32],
) -> Counted {
    // SAFETY: each pointer is valid for its length, and the borrows keep the five apart.
    unsafe {
        bb_count(
            job.as_ptr(),
            job.len(),
            work.as_mut_ptr(),
            work.len(),
            answers.as_mut_ptr(),
            answers.len(),
            values.as_mut_ptr(),
            values.len(),
            number,
            counts.as_mut_ptr(),
            counts.len(),
        )
    }
}

/// Runs a job as [`run_job`] does, and derives the bits of the term of that number of its final store where only part of its inputs is known.
/// A byte is 0, 1, or 2 for a bit that is not known: `inputs` has one for each bit of the variables that stand in the term, the variable with
/// the lowest number first and bit 0 first in each; the term's own stand at the start of `outputs`, bit 0 first. A 0 or 1 there is the true bit
/// under every assignment that fits what is known. The bytes past the term's bits are as they were, and all of them where the code is not 0.
/// `values` is left as [`sweep_job`] leaves it.
///
/// The code is 20 where the job stops early or the number is not that of a kept term; else 21 as in [`sweep_job`]; else 23 where the term holds
/// more than variables, constants, `true`, `false`, gates over Bools, BvBitOf and BvBbTerm, where the bytes are not one per bit with values 0
/// to 2, or where `outputs` is shorter than the term's width (1 for a Bool).
pub fn known_job(
    job: &[u8],
    work: &mut [u8],
    answers: &mut [u8],
    values: &mut [u8],
    number: u32,
    inputs: &[u8],
    outputs: &mut [u8],
) -> Known {
    // SAFETY: each pointer is valid for its length, and the borrows keep the six apart.
    unsafe {
        bb_known(
            job.as_ptr(),
            job.len(),
            work.as_mut_ptr(),
            work.len(),
            answers.as_mut_ptr(),
            answers.len(),
            values.as_mut_ptr(),
            values.len(),
            number,
            inputs.as_ptr(),
            inputs.len(),
            outputs.as_mut_ptr(),
            outputs.len(),
        )
    }
}

/// Reads a text of declarations and steps, and writes a job with a step for each step line; docs/FORMAT.md has the form of a line. The job stands
/// at the start of `job`, and the bytes past it are as they were; where a line is refused, all of `job` is zero. `work` may be of any length and
/// content: it makes lookups faster, by a seed at its end as for [`run_job`], never changes the result, and is all zero afterwards.
pub fn convert_text(text: &[u8], work: &mut [u8], job: &mut [u8]) -> Converted {
    // SAFETY: each pointer is valid for its length, and the borrows keep the three apart.
    unsafe { bb_text(text.as_ptr(), text.len(), work.as_mut_ptr(), work.len(), job.as_mut_ptr(), job.len()) }
}

/// Adds one job and its first `count` answers to a tally; where `answers` is shorter, those that it has whole. The first two bytes of `answers`
/// say how long each of them is: 12 bytes where they are 10, as in the first answer of a job whose term numbers have four bytes, else 10.
pub fn tally_answers(tally: &mut Tally, answers: &[u8], count: u32) {
    // SAFETY: both pointers are valid, and the borrows keep them apart.
    unsafe { bb_tally(tally, answers.as_ptr(), answers.len(), count) }
}
