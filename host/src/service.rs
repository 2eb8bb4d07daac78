//! A service: memory of its own, a tally, and reports in words.
use crate::{
    Counted, Format, Known, Limits, MAX_VALUES, MAX_WIDTH, Outcome, Seeds, Swept, Tally, VALUE_BYTES, count_job,
    format::useful_work_bytes, known_job, run_job_within, sweep_job, tally_answers, words,
};
use std::fmt;

/// No job needs more work memory: this is twice what the most terms cost, in the [`Format`] where that is more.
pub const MAX_WORK_BYTES: usize = Format::FourBytes.max_work_bytes();

/// No job writes more: the answers of a longest job of steps only, in the [`Format`] where they are longer.
pub const MAX_ANSWER_BYTES: usize = Format::FourBytes.max_answer_bytes();

/// The code of a question for which the value buffer is too short.
const SHORT_VALUES: u32 = 21;

/// What no count is: there are at most 65,536 assignments.
const NO_COUNT: u32 = u32::MAX;

/// What no bit is: 0, 1, or 2 for one that is not known.
const NO_BIT: u8 = 3;

/// How much memory a service has to lend, in bytes: a kept term takes 8 bytes of work and an answer 10, or 12 and 12 in a job whose term
/// numbers have four bytes. No job can use more than [`MAX_WORK_BYTES`] or [`MAX_ANSWER_BYTES`], and a job is lent no more work memory
/// than it can use.
#[derive(Clone, Copy, Debug, PartialEq, Eq)]
pub struct Memory {
    /// For the terms, and for finding them.
    pub work_bytes: usize,
    /// For the answers; it bounds the steps of a job, and with them its time.
    pub answer_bytes: usize,
}

impl Memory {
    /// What so many terms and answers take in that format. The first two terms, `true` and `false`, are free.
    pub fn for_terms(format: Format, terms: usize, answers: usize) -> Self {
        let work_bytes = terms.saturating_sub(2).saturating_mul(format.term_bytes());
        Memory { work_bytes, answer_bytes: answers.saturating_mul(format.answer_bytes()) }
    }
}

/// Checks jobs one after the other on the same memory, and counts what they came to.
///
/// Stack: [`STACK_BYTES`](crate::STACK_BYTES) (256 KiB) are enough for any job, and a job decides how much is used: a thread that
/// is smaller may end the process. Rust's threads have 2 MiB unless they are built otherwise.
///
/// Time: every job ends, but nothing interrupts it. A job may repeat its longest step, a division of width 64, in eight bytes for
/// each answer that has room; such a step took up to twelve milliseconds (docs/PERFORMANCE.md). So the time is bounded by the
/// answers lent: for jobs of strangers lend few answers, and check where the check can be ended, in a process of its own. Where
/// terms are looked for depends on random bytes that the service puts into the work memory before each job, so that nobody can
/// choose terms that take long to find.
///
/// A sweep or a count takes one evaluation for each assignment and each term that stands in the asked one, up to 65,536 times a million of them, after the
/// job's own time. Deriving bits takes one evaluation of each of these terms.
///
/// Threads: a service checks one job at a time. Services share nothing, so that each thread may have its own.
pub struct Service {
    work: Vec<u8>,
    answers: Vec<u8>,
    /// The most answers of a job, whatever their format.
    answer_limit: usize,
    /// As long as the largest job needed that was asked about.
    values: Vec<u8>,
    counts: [u32; MAX_VALUES],
    bits: [u8; MAX_WIDTH],
    limits: Limits,
    tally: Tally,
    /// For each job another, so that no job can be made to take long to look its terms up.
    seeds: Seeds,
}

/// What a job or a question is lent.
struct Lending<'a> {
    work: &'a mut [u8],
    answers: &'a mut [u8],
    values: &'a mut [u8],
    counts: &'a mut [u32],
    bits: &'a mut [u8],
}

impl Service {
    /// A service with that much memory to lend: [`Service::with_memory`], whose numbers have names.
    pub fn new(work_bytes: usize, answer_bytes: usize) -> Self {
        Service::with_memory(Memory { work_bytes, answer_bytes })
    }

    /// A service with that much memory to lend; more than a job can use is cut to that, and [`Service::memory`] says what it came to. Ten or
    /// twelve bytes are one answer: [`Service::with_answer_limit`] says it in answers.
    pub fn with_memory(memory: Memory) -> Self {
        Service {
            work: vec![0; memory.work_bytes.min(MAX_WORK_BYTES)],
            answers: vec![0; memory.answer_bytes.min(MAX_ANSWER_BYTES)],
            answer_limit: usize::MAX,
            values: Vec::new(),
            counts: [NO_COUNT; MAX_VALUES],
            bits: [NO_BIT; MAX_WIDTH],
            limits: Limits::RACK,
            tally: Tally::default(),
            seeds: Seeds::default(),
        }
    }

    /// The same service with room for at most so many answers: a job with more steps stops with code 19.
    pub fn with_answer_limit(mut self, answers: usize) -> Self {
        self.answer_limit = answers;
        self.answers.truncate(answers.saturating_mul(Format::FourBytes.answer_bytes()));
        self
    }

    /// The same service, which checks jobs under these limits. Its sweeps and counts run a job under the rack's.
    pub fn with_limits(mut self, limits: Limits) -> Self {
        self.limits = limits;
        self
    }

    /// Checks a job and adds it to the tally.
    #[must_use = "the job may be refused"]
    pub fn check(&mut self, job: &[u8]) -> Report<'_> {
        let limits = self.limits;
        let Lending { work, answers, .. } = self.lend(job);
        let outcome = run_job_within(job, work, answers, limits);
        tally_answers(&mut self.tally, &self.answers, outcome.answers);
        Report::new(Format::of(job), outcome, &self.answers, self.tally)
    }

    /// What a job is lent: of the work memory no more than it can use, since all that is lent is wiped, and of the answers as many as the
    /// limit allows; with a new seed at the end of the work memory.
    fn lend(&mut self, job: &[u8]) -> Lending<'_> {
        let work_bytes = self.work.len().min(useful_work_bytes(job));
        let most_answers = self.answer_limit.saturating_mul(Format::of(job).answer_bytes());
        let answer_bytes = self.answers.len().min(most_answers);
        let (work, answers) = (&mut self.work[..work_bytes], &mut self.answers[..answer_bytes]);
        self.seeds.put(work);
        Lending { work, answers, values: &mut self.values, counts: &mut self.counts, bits: &mut self.bits }
    }

    /// Lengthens the value buffer, since only a job itself says how many terms it keeps.
    fn lengthen_values(&mut self, terms: u32) {
        self.values.resize(VALUE_BYTES * terms as usize, 0);
    }

    /// Runs a job, and evaluates both sides of the Equals of that number in its final store on every assignment of the variables that stand
    /// in it. The job is not added to the tally.
    pub fn sweep(&mut self, job: &[u8], number: u32) -> Sweep<'_> {
        let mut swept = self.sweep_once(job, number);
        if swept.code == SHORT_VALUES {
            self.lengthen_values(swept.outcome.terms);
            swept = self.sweep_once(job, number);
        }
        Sweep { swept, format: Format::of(job), answers: &self.answers }
    }

    fn sweep_once(&mut self, job: &[u8], number: u32) -> Swept {
        let Lending { work, answers, values, .. } = self.lend(job);
        sweep_job(job, work, answers, values, number)
    }

    /// Runs a job, and counts how many assignments of the variables that stand in the term of that number of its final store lead to each of
    /// its values. The job is not added to the tally.
    pub fn count(&mut self, job: &[u8], number: u32) -> Count<'_> {
        self.counts.fill(NO_COUNT);
        let mut counted = self.count_once(job, number);
        if counted.code == SHORT_VALUES {
            self.lengthen_values(counted.outcome.terms);
            counted = self.count_once(job, number);
        }
        // The library leaves the numbers past the last value as they were.
        let size = self.counts.iter().position(|&count| count == NO_COUNT).unwrap_or(MAX_VALUES);
        Count { counted, format: Format::of(job), counts: &self.counts[..size], answers: &self.answers }
    }

    fn count_once(&mut self, job: &[u8], number: u32) -> Counted {
        let Lending { work, answers, values, counts, .. } = self.lend(job);
        count_job(job, work, answers, values, number, counts)
    }

    /// Runs a job, and derives the bits of the term of that number of its final store from what is known of its inputs: a byte 0, 1, or 2 for
    /// not known, for each bit of the variables that stand in it, the variable with the lowest number first and bit 0 first in each. The job
    /// is not added to the tally.
    pub fn known(&mut self, job: &[u8], number: u32, inputs: &[u8]) -> KnownBits<'_> {
        self.bits.fill(NO_BIT);
        let mut known = self.known_once(job, number, inputs);
        if known.code == SHORT_VALUES {
            self.lengthen_values(known.outcome.terms);
            known = self.known_once(job, number, inputs);
        }
        // The library leaves the bytes past the last bit as they were.
        let size = self.bits.iter().position(|&bit| bit == NO_BIT).unwrap_or(MAX_WIDTH);
        KnownBits { known, format: Format::of(job), bits: &self.bits[..size], answers: &self.answers }
    }

    fn known_once(&mut self, job: &[u8], number: u32, inputs: &[u8]) -> Known {
        let Lending { work, answers, values, bits, .. } = self.lend(job);
        known_job(job, work, answers, values, number, inputs, bits)
    }

    /// The memory that it lends.
    pub fn memory(&self) -> Memory {
        Memory { work_bytes: self.work.len(), answer_bytes: self.answers.len() }
    }

    /// What all jobs so far came to.
    pub fn tally(&self) -> Tally {
        self.tally
    }
}

impl fmt::Debug for Service {
    fn fmt(&self, f: &mut fmt::Formatter) -> fmt::Result {
        let Memory { work_bytes, answer_bytes } = self.memory();
        let Service { limits, tally, .. } = self;
        write!(
            f,
            "Service {{ work_bytes: {work_bytes}, answer_bytes: {answer_bytes}, limits: {limits:?}, tally: {tally:?} }}"
        )
    }
}

/// What a service says about one job. It displays as the stop code and the classes of the answers.
#[derive(Clone, Copy)]
pub struct Report<'a> {
    format: Format,
    outcome: Outcome,
    answers: &'a [u8],
    tally: Tally,
}

impl<'a> Report<'a> {
    /// The report on a job of that format that was run elsewhere, in another process say, from what came back and the tally after it.
    pub fn new(format: Format, outcome: Outcome, answers: &'a [u8], tally: Tally) -> Self {
        Report { format, outcome, answers, tally }
    }

    /// The format of the job.
    pub fn format(&self) -> Format {
        self.format
    }

    /// The numbers that the library returned.
    pub fn outcome(&self) -> Outcome {
        self.outcome
    }

    /// The answers, in the order of the job's steps.
    pub fn answers(&self) -> Answers<'a> {
        Answers::new(self.format, self.answers, self.outcome.answers)
    }

    /// The stop code in words.
    pub fn stop_meaning(&self) -> &'static str {
        words::stop_meaning(self.outcome.stop)
    }

    /// The service's tally after this job.
    pub fn tally(&self) -> Tally {
        self.tally
    }

    /// Whether the job ran to its end, has a step, and each of its steps is held. A job without a step is none that was checked: an
    /// empty file, say, or one cut where a record ends.
    pub fn all_held(&self) -> bool {
        let mut answers = self.answers().peekable();
        self.outcome.stop == 0 && answers.peek().is_some() && answers.all(|answer| answer.verdict() == Verdict::Held)
    }
}

/// What a service says about both sides of an Equals.
#[derive(Clone, Copy)]
pub struct Sweep<'a> {
    swept: Swept,
    format: Format,
    answers: &'a [u8],
}

impl<'a> Sweep<'a> {
    /// 0 where every assignment was evaluated, else why not.
    pub fn code(&self) -> u32 {
        self.swept.code
    }

    /// How many assignments there were, 0 where the sweep is refused.
    pub fn assignments(&self) -> u32 {
        self.swept.assignments
    }

    /// On how many of them the sides differ.
    pub fn differing(&self) -> u32 {
        self.swept.differing
    }

    /// Whether every assignment was evaluated and the sides differ on none.
    pub fn no_difference(&self) -> bool {
        self.swept.code == 0 && self.swept.differing == 0
    }

    /// What the job came to.
    pub fn outcome(&self) -> Outcome {
        self.swept.outcome
    }

    /// The job's answers, in the order of its steps.
    pub fn answers(&self) -> Answers<'a> {
        Answers::new(self.format, self.answers, self.swept.outcome.answers)
    }

    /// The code in words.
    pub fn meaning(&self) -> &'static str {
        words::sweep_meaning(self.swept.code)
    }
}

/// What a service says about the values of a term.
#[derive(Clone, Copy)]
pub struct Count<'a> {
    counted: Counted,
    format: Format,
    counts: &'a [u32],
    answers: &'a [u8],
}

impl<'a> Count<'a> {
    /// 0 where every assignment was counted, else why not.
    pub fn code(&self) -> u32 {
        self.counted.code
    }

    /// How many assignments lead to each value, the lowest first, `false` before `true`; none where the code is not 0.
    pub fn counts(&self) -> &'a [u32] {
        self.counts
    }

    /// What the job came to.
    pub fn outcome(&self) -> Outcome {
        self.counted.outcome
    }

    /// The job's answers, in the order of its steps.
    pub fn answers(&self) -> Answers<'a> {
        Answers::new(self.format, self.answers, self.counted.outcome.answers)
    }

    /// The code in words.
    pub fn meaning(&self) -> &'static str {
        words::count_meaning(self.counted.code)
    }
}

/// What a service says about the bits of a term.
#[derive(Clone, Copy)]
pub struct KnownBits<'a> {
    known: Known,
    format: Format,
    bits: &'a [u8],
    answers: &'a [u8],
}

impl<'a> KnownBits<'a> {
    /// 0 where the bits were derived, else why not.
    pub fn code(&self) -> u32 {
        self.known.code
    }

    /// The bits, bit 0 first: 0 or 1 where it is that under every assignment that fits what is known, else 2; none where the code is not 0.
    pub fn bits(&self) -> &'a [u8] {
        self.bits
    }

    /// What the job came to.
    pub fn outcome(&self) -> Outcome {
        self.known.outcome
    }

    /// The job's answers, in the order of its steps.
    pub fn answers(&self) -> Answers<'a> {
        Answers::new(self.format, self.answers, self.known.outcome.answers)
    }

    /// The code in words.
    pub fn meaning(&self) -> &'static str {
        words::known_meaning(self.known.code)
    }
}

impl fmt::Debug for Report<'_> {
    fn fmt(&self, f: &mut fmt::Formatter) -> fmt::Result {
        let Report { outcome, tally, .. } = self;
        write!(
            f,
            "Report {{ outcome: {outcome:?}, answers: {:?}, tally: {tally:?} }}",
            self.answers().collect::<Vec<_>>()
        )
    }
}

impl fmt::Display for Report<'_> {
    fn fmt(&self, f: &mut fmt::Formatter) -> fmt::Result {
        let count = |class: Verdict| self.answers().filter(|answer| answer.verdict() == class).count();
        let (held, form_only, refused) = (count(Verdict::Held), count(Verdict::FormOnly), count(Verdict::Refused));
        write!(f, "{}: {held} held, {form_only} form only, {refused} refused", self.stop_meaning())
    }
}

/// The three classes of answers that a tally counts.
#[derive(Clone, Copy, Debug, PartialEq, Eq)]
pub enum Verdict {
    /// Both sides of the equation are equal under every assignment.
    Held,
    /// The circuit is the rule's, but the rule's circuit is not the standard's operation.
    FormOnly,
    /// The claim is not the rule's circuit, or not of its form.
    Refused,
}

impl fmt::Display for Verdict {
    fn fmt(&self, f: &mut fmt::Formatter) -> fmt::Result {
        f.pad(match self {
            Verdict::Held => "held",
            Verdict::FormOnly => "form only",
            Verdict::Refused => "refused",
        })
    }
}

impl Verdict {
    /// The class of an answer's code.
    pub fn of(code: u16) -> Self {
        match code {
            0 => Verdict::Held,
            1 => Verdict::FormOnly,
            _ => Verdict::Refused,
        }
    }
}

/// The answer to a step. Later versions may add fields.
#[non_exhaustive]
#[derive(Clone, Copy, Debug, PartialEq, Eq)]
pub struct Answer {
    /// The step's place among the steps of the job, from 1.
    pub step: u32,
    /// The number of its [`Rule`](crate::Rule).
    pub rule: u16,
    /// The number of its [`AnswerCode`](crate::AnswerCode).
    pub code: u16,
    /// The depth of the accepted right side, 0 where the step is refused.
    pub depth: u32,
}

impl Answer {
    /// The rule's name.
    pub fn rule_name(&self) -> &'static str {
        words::rule_name(self.rule)
    }

    /// The code in words.
    pub fn meaning(&self) -> &'static str {
        words::answer_meaning(self.code)
    }

    /// The class of its code.
    pub fn verdict(&self) -> Verdict {
        Verdict::of(self.code)
    }
}

/// The answers in a run of bytes.
#[derive(Clone, Debug)]
pub struct Answers<'a> {
    format: Format,
    rest: std::slice::ChunksExact<'a, u8>,
    left: u32,
    step: u32,
}

impl<'a> Answers<'a> {
    /// The first `count` answers of a job of that format; where `bytes` is shorter, those that it has whole.
    pub fn new(format: Format, bytes: &'a [u8], count: u32) -> Self {
        Answers { format, rest: bytes.chunks_exact(format.answer_bytes()), left: count, step: 0 }
    }
}

impl Iterator for Answers<'_> {
    type Item = Answer;

    fn next(&mut self) -> Option<Answer> {
        self.left = self.left.checked_sub(1)?;
        let bytes = self.rest.next()?;
        self.step += 1;
        let word = |at: usize| u16::from_le_bytes([bytes[at], bytes[at + 1]]);
        Some(Answer { step: self.step, rule: word(4), code: word(6), depth: self.format.number(&bytes[8..]) })
    }

    fn size_hint(&self) -> (usize, Option<usize>) {
        let left = self.rest.len().min(self.left as usize);
        (left, Some(left))
    }
}

impl ExactSizeIterator for Answers<'_> {}
