//! A case of the oracle: a job, the memory lent, what is expected of it, and questions about its final store or about the job under limits.
use bitblast_host::{
    Answers, Format, Limits, Outcome, count_job, known_job, lent::Lent, run_job, run_job_within, sweep_job,
};

/// What is expected of a job.
pub struct Expected {
    work: usize,
    room: usize,
    job: Came,
    pub questions: Vec<Question>,
}

/// What a job comes to: the outcome's numbers, and the answers.
pub struct Came {
    outcome: [u32; 5],
    answers: Vec<u8>,
}

/// The lines about the job itself.
const JOB_LINES: usize = 8;

/// A question about a job's final store, or about the job under limits, with the answer.
pub enum Question {
    /// The number, the bytes of value buffer, and then the code and both counts.
    Sweep { number: u32, values: usize, swept: [u32; 3] },
    /// The number, the bytes of value buffer, the length of the run of counts, and then the code and the counts written.
    Count { number: u32, values: usize, run: usize, code: u32, counts: Vec<u32> },
    /// The number, the bytes of value buffer, the length of the output, the inputs, and then the code and the bytes written.
    Derive { number: u32, values: usize, room: usize, inputs: Vec<u8>, code: u32, bits: Vec<u8> },
    /// The limits, and what the job comes to under them.
    Within { limits: Limits, came: Came },
}

/// Bytes from a word, `-` where there are none.
fn from_word(word: &str) -> Option<Vec<u8>> {
    if word == "-" { Some(Vec::new()) } else { from_hex(word) }
}

/// Bytes from two hexadecimal digits each.
fn from_hex(text: &str) -> Option<Vec<u8>> {
    let digit = |c: u8| (c as char).to_digit(16);
    let bytes = text.as_bytes().chunks(2).map(|pair| match pair {
        &[high, low] => Some((digit(high)? * 16 + digit(low)?) as u8),
        _ => None,
    });
    bytes.collect()
}

impl Expected {
    pub fn parse(text: &str) -> Option<Self> {
        let field =
            |name: &str| text.lines().find_map(|line| line.strip_prefix(name)).and_then(|rest| rest.strip_prefix(' '));
        let number = |name: &str| field(name)?.trim().parse::<u32>().ok();
        let lines: Vec<&str> = text.lines().skip(JOB_LINES).collect();
        Some(Expected {
            work: number("work")? as usize,
            room: number("room")? as usize,
            job: Came {
                outcome: [
                    number("stop")?,
                    number("records")?,
                    number("answers")?,
                    number("terms")?,
                    number("repeats")?,
                ],
                answers: from_hex(field("bytes")?.trim())?,
            },
            questions: lines.chunks(2).map(Question::parse).collect::<Option<_>>()?,
        })
    }
}

impl Question {
    /// A question's line and its answer's.
    fn parse(lines: &[&str]) -> Option<Self> {
        let words: Vec<&str> = lines.iter().flat_map(|line| line.split(' ')).collect();
        match &words[..] {
            ["sweep", number, values, "swept", code, assignments, differing] => Some(Question::Sweep {
                number: number.parse().ok()?,
                values: values.parse().ok()?,
                swept: [code.parse().ok()?, assignments.parse().ok()?, differing.parse().ok()?],
            }),
            ["count", number, values, run, "counted", code, counts @ ..] => Some(Question::Count {
                number: number.parse().ok()?,
                values: values.parse().ok()?,
                run: run.parse().ok()?,
                code: code.parse().ok()?,
                counts: counts.iter().map(|count| count.parse().ok()).collect::<Option<_>>()?,
            }),
            ["derive", number, values, room, inputs, "derived", code, bits] => Some(Question::Derive {
                number: number.parse().ok()?,
                values: values.parse().ok()?,
                room: room.parse().ok()?,
                inputs: from_word(inputs)?,
                code: code.parse().ok()?,
                bits: from_word(bits)?,
            }),
            ["within", width, terms, "came", numbers @ .., answers] => Some(Question::Within {
                limits: Limits { width: width.parse().ok()?, terms: terms.parse().ok()? },
                came: Came {
                    outcome: numbers.iter().map(|n| n.parse().ok()).collect::<Option<Vec<_>>>()?.try_into().ok()?,
                    answers: from_hex(answers)?,
                },
            }),
            _ => None,
        }
    }

    /// What the question is, for a report.
    fn name(&self) -> String {
        match self {
            Question::Sweep { number, .. } => format!("sweep of term {number}"),
            Question::Count { number, .. } => format!("count of term {number}"),
            Question::Derive { number, .. } => format!("bits of term {number}"),
            Question::Within { limits, .. } => format!("{limits:?}"),
        }
    }
}

/// The calls of a case, each on memory with new garbage.
pub struct Call<'a> {
    job: &'a [u8],
    expected: &'a Expected,
    seed: u64,
    work: Lent,
    answers: Lent,
}

impl<'a> Call<'a> {
    pub fn new(job: &'a [u8], expected: &'a Expected, seed: u64) -> Self {
        Call { job, expected, seed, work: Lent::new(expected.work), answers: Lent::new(expected.room) }
    }

    /// Runs the job and shows what came of it; the first difference, if there is one.
    pub fn job(&mut self, look: impl FnOnce(Outcome, &[u8])) -> Option<String> {
        let (work, answers) = self.lend();
        let outcome = run_job(
            self.job,
            self.work.ready(self.expected.work, work),
            self.answers.ready(self.expected.room, answers),
        );
        look(outcome, self.answers.bytes());
        self.job_difference(outcome, &self.expected.job)
    }

    /// Runs the job under limits; the first difference, if there is one.
    fn within(&mut self, limits: Limits, came: &Came) -> Option<String> {
        let (work, answers) = self.lend();
        let outcome = run_job_within(
            self.job,
            self.work.ready(self.expected.work, work),
            self.answers.ready(self.expected.room, answers),
            limits,
        );
        self.job_difference(outcome, came)
    }

    /// Asks a question; the first difference, if there is one.
    pub fn ask(&mut self, question: &Question) -> Option<String> {
        let difference = match question {
            Question::Sweep { number, values, swept } => self.sweep(*number, *values, *swept),
            Question::Count { number, values, run, code, counts } => {
                self.count(*number, *values, *run, (*code, counts))
            }
            Question::Derive { number, values, room, inputs, code, bits } => {
                self.derive(*number, [*values, *room], inputs, (*code, bits))
            }
            Question::Within { limits, came } => self.within(*limits, came),
        };
        difference.map(|difference| format!("{}: {difference}", question.name()))
    }

    fn sweep(&mut self, number: u32, size: usize, expected: [u32; 3]) -> Option<String> {
        let (mut values, (work, answers)) = (Lent::new(size), self.lend());
        let found = sweep_job(
            self.job,
            self.work.ready(self.expected.work, work),
            self.answers.ready(self.expected.room, answers),
            values.ready(size, work ^ answers),
            number,
        );
        let numbers = [found.code, found.assignments, found.differing];
        if numbers != expected {
            return Some(format!("expected {expected:?}, found {numbers:?}"));
        }
        self.job_difference(found.outcome, &self.expected.job).or_else(|| values_difference(&values, found.code))
    }

    fn count(&mut self, number: u32, size: usize, run: usize, expected: (u32, &[u32])) -> Option<String> {
        let (mut values, mut counts, (work, answers)) = (Lent::new(size), Lent::new(run), self.lend());
        let found = count_job(
            self.job,
            self.work.ready(self.expected.work, work),
            self.answers.ready(self.expected.room, answers),
            values.ready(size, work ^ answers),
            number,
            counts.ready(run, answers),
        );
        let written = counts.units().get(..expected.1.len());
        if (found.code, written) != (expected.0, Some(expected.1)) {
            return Some(format!("expected {expected:?}, found {}, {written:?}", found.code));
        }
        if !counts.untouched_from(expected.1.len()) || !counts.fences_stand() {
            return Some("numbers past the last count are not as they were".to_owned());
        }
        self.job_difference(found.outcome, &self.expected.job).or_else(|| values_difference(&values, found.code))
    }

    fn derive(
        &mut self,
        number: u32,
        [size, room]: [usize; 2],
        inputs: &[u8],
        expected: (u32, &[u8]),
    ) -> Option<String> {
        let (mut values, mut outputs, (work, answers)) = (Lent::new(size), Lent::new(room), self.lend());
        let found = known_job(
            self.job,
            self.work.ready(self.expected.work, work),
            self.answers.ready(self.expected.room, answers),
            values.ready(size, work ^ answers),
            number,
            inputs,
            outputs.ready(room, answers),
        );
        let written = outputs.units().get(..expected.1.len());
        if (found.code, written) != (expected.0, Some(expected.1)) {
            return Some(format!("expected {expected:?}, found {}, {written:?}", found.code));
        }
        if !outputs.untouched_from(expected.1.len()) || !outputs.fences_stand() {
            return Some("bytes past the last bit are not as they were".to_owned());
        }
        self.job_difference(found.outcome, &self.expected.job).or_else(|| values_difference(&values, found.code))
    }

    /// Seeds of garbage for the work memory and the answers.
    fn lend(&mut self) -> (u64, u64) {
        self.seed = self.seed.wrapping_add(1);
        (self.seed, self.seed.wrapping_mul(7))
    }

    /// Where the outcome, the answers or the memories are not as expected.
    fn job_difference(&self, outcome: Outcome, expected: &Came) -> Option<String> {
        let Call { work, answers, .. } = self;
        let format = Format::of(self.job);
        let written = format.answer_bytes() * outcome.answers as usize;
        if outcome.numbers() != expected.outcome {
            Some(format!("expected {:?}, found {outcome:?}", expected.outcome))
        } else if answers.bytes().get(..written) != Some(&expected.answers[..]) {
            let listed = |bytes| Answers::new(format, bytes, outcome.answers);
            let first = listed(&expected.answers).zip(listed(answers.bytes())).find(|(a, b)| a != b);
            Some(format!("answers differ, the first (expected, found): {first:?}"))
        } else if !answers.untouched_from(written) {
            Some("answer bytes past the last answer are not as they were".to_owned())
        } else if !work.is_zero() {
            Some("work memory is not zero".to_owned())
        } else if !work.fences_stand() || !answers.fences_stand() {
            Some("memory that was not lent was written".to_owned())
        } else {
            None
        }
    }
}

/// Where the value buffer is not as a call with that code leaves it.
fn values_difference(values: &Lent, code: u32) -> Option<String> {
    if code == 0 && !values.is_zero() {
        Some("the value buffer is not zero".to_owned())
    } else if code != 0 && !values.untouched_from(0) {
        Some("the value buffer of a refused question is not as it was".to_owned())
    } else if !values.fences_stand() {
        Some("memory beside the value buffer was written".to_owned())
    } else {
        None
    }
}
