//! `bbhost soak`: jobs of all sorts, one after the other, on the same memory.
use super::{Failure, Status, grouped, interrupt, progress::Progress, unknown};
use bitblast_host::{
    Answer, Answers, Format, Outcome, Tally, Verdict,
    format::FOUR_BYTES_RECORD,
    jobs::{self, LONG_SPECIMEN_ANSWER, SPECIMEN_ANSWER},
    lent::Lent,
    rng::Rng,
    run_job, tally_answers,
};
use std::{
    ffi::OsString,
    io::{self, Write},
    time::{Duration, Instant},
};

/// How the command is used.
pub const USAGE: &str = "  bbhost soak SECONDS [--seed N]
      Runs right, damaged and random jobs of both formats on the same memory, and watches the memory, a known job and the
      tally after each.
      Exit status 1 on any deviation, or where resident memory grows by more than 1 MiB. An interrupt ends it early, with
      what it came to so far and status 2.";

/// The right jobs that are used again and again.
const RIGHT_JOBS: usize = 300;

/// One turn in so many is a large job.
const LARGE: usize = 1_000;

/// The most memory lent, in bytes, to a large job and to any other.
const LARGE_WORK: usize = 1 << 20;
const MOST_WORK: usize = 3 << 15;
const MOST_ANSWERS: usize = 1 << 10;

/// The growth of resident memory that is allowed, in KiB.
const GROWTH: u64 = 1024;

/// Right jobs with many terms or records.
fn large_jobs() -> Vec<Right> {
    vec![
        Right { job: jobs::right_claim(11, 32), codes: vec![0] },
        Right { job: jobs::right_claim(21, 20), codes: vec![1] },
        Right { job: jobs::right_claim(24, 20), codes: vec![0] },
        Right { job: jobs::right_claim(25, 20), codes: vec![0] },
        Right { job: jobs::many_terms(65_533), codes: vec![] },
        Right { job: jobs::many_backs(2_000), codes: vec![] },
        Right { job: jobs::many_chains(100), codes: vec![0; 101] },
        Right { job: jobs::in_four_bytes(&jobs::right_claim(24, 20)), codes: vec![0] },
        Right { job: jobs::deep_claim(Format::FourBytes, 70_000), codes: vec![0] },
    ]
}

/// A job in which every step is accepted, and the codes of its answers.
struct Right {
    job: Vec<u8>,
    codes: Vec<u16>,
}

pub fn run(words: &[OsString], out: &mut impl Write) -> Result<Status, Failure> {
    let (time, seed) = options(words)?;
    interrupt::watch();
    let mut soak = Soak::new(seed);
    // Once through the right jobs, so that all memory that is ever used is in use.
    for k in 0..soak.right_jobs.len() {
        if let Err(deviation) = soak.right(k) {
            return failed(&soak, &deviation, out);
        }
    }
    let resident = resident_kib();
    let begun = Instant::now();
    let mut progress = Progress::new();
    while begun.elapsed() < time && !interrupt::came() {
        if let Err(deviation) = soak.turn() {
            return failed(&soak, &deviation, out);
        }
        progress.show(|| format!("{:.0} s, {} jobs", begun.elapsed().as_secs_f64(), grouped(soak.turns.iter().sum())));
    }
    drop(progress);
    counts(&soak, begun.elapsed(), out)?;
    let status = memory(resident, out)?;
    Ok(if interrupt::came() { status.max(Status::Trouble) } else { status })
}

/// The time, and the seed of the random choices.
fn options(words: &[OsString]) -> Result<(Duration, u64), Failure> {
    let (mut seconds, mut seed) = (None, 1);
    let mut rest = words.iter();
    while let Some(word) = rest.next() {
        match word.to_str() {
            Some("--seed") => seed = super::number("--seed", &mut rest)?,
            Some(text) if seconds.is_none() => {
                let time = text.parse().ok().and_then(|time| Duration::try_from_secs_f64(time).ok());
                seconds = Some(time.ok_or_else(|| unknown(word))?);
            }
            _ => return Err(unknown(word)),
        }
    }
    let time = seconds.ok_or_else(|| Failure::Usage("soak needs a number of seconds".to_owned()))?;
    Ok((time, seed))
}

/// How many jobs there were, and what they came to.
fn counts(soak: &Soak, passed: Duration, out: &mut impl Write) -> io::Result<()> {
    let jobs: u64 = soak.turns.iter().sum();
    let seconds = passed.as_secs_f64();
    let [right, damaged, random, large] = soak.turns.map(grouped);
    if interrupt::came() {
        write!(out, "INTERRUPTED: ")?;
    }
    writeln!(
        out,
        "{} jobs in {seconds:.1} s, {} each second: {right} right, {damaged} damaged, {random} of random bytes, {large} large; the specimen \
         after each",
        grouped(jobs),
        grouped((jobs as f64 / seconds) as u64)
    )?;
    let Tally { jobs, held, form_only, refused, .. } = soak.tally;
    let [jobs, held, form_only, refused] = [jobs, held, form_only, refused].map(grouped);
    writeln!(
        out,
        "tally, as counted by the host too: {jobs} jobs, {held} held, {form_only} form only, {refused} refused"
    )
}

/// Whether the resident memory is what it was.
fn memory(resident: Option<u64>, out: &mut impl Write) -> io::Result<Status> {
    let (Some(start), Some(end)) = (resident, resident_kib()) else {
        writeln!(out, "resident memory: not known, since /proc/self/status has no VmRSS\nno deviation")?;
        return Ok(Status::Fine);
    };
    writeln!(out, "resident memory: {} KiB at the start, {} KiB at the end", grouped(start), grouped(end))?;
    if end > start + GROWTH {
        writeln!(out, "DEVIATION: resident memory grew by more than {GROWTH} KiB")?;
        return Ok(Status::Failed);
    }
    writeln!(out, "no deviation")?;
    Ok(Status::Fine)
}

fn failed(soak: &Soak, deviation: &str, out: &mut impl Write) -> Result<Status, Failure> {
    writeln!(out, "DEVIATION (seed {}, job {}): {deviation}", soak.seed, soak.tally.jobs)?;
    writeln!(out, "lent: {} bytes of work, {} of answers", soak.work.bytes().len(), soak.answers.bytes().len())?;
    let hex: String = soak.job.iter().map(|byte| format!("{byte:02x}")).collect();
    writeln!(out, "job: {hex}")?;
    Ok(Status::Failed)
}

/// The resident memory of this process in KiB.
fn resident_kib() -> Option<u64> {
    let status = std::fs::read_to_string("/proc/self/status").ok()?;
    let line = status.lines().find_map(|line| line.strip_prefix("VmRSS:"))?;
    line.trim().strip_suffix("kB")?.trim().parse().ok()
}

struct Soak {
    seed: u64,
    rng: Rng,
    /// Small ones, then the large ones.
    right_jobs: Vec<Right>,
    /// In two bytes, and in four.
    specimens: [Vec<u8>; 2],
    /// The job that runs.
    job: Vec<u8>,
    work: Lent,
    answers: Lent,
    tally: Tally,
    /// What the tally has to be.
    count: Tally,
    /// How many right, damaged, random and large jobs there were.
    turns: [u64; 4],
}

impl Soak {
    fn new(seed: u64) -> Self {
        let mut rng = Rng::new(seed);
        let mut right_jobs: Vec<Right> = Vec::new();
        for k in 0..RIGHT_JOBS {
            let (job, codes) = jobs::random_right(&mut rng);
            let job = if k % 2 == 0 { job } else { jobs::in_four_bytes(&job) };
            right_jobs.push(Right { job, codes });
        }
        right_jobs.extend(large_jobs());
        let longest = right_jobs.iter().map(|right| right.job.len()).max().unwrap_or(0);
        Soak {
            seed,
            rng,
            right_jobs,
            specimens: [jobs::specimen(), jobs::in_four_bytes(&jobs::specimen())],
            job: Vec::with_capacity(longest + 1),
            work: Lent::new(LARGE_WORK),
            answers: Lent::new(MOST_ANSWERS),
            tally: Tally::default(),
            count: Tally::default(),
            turns: [0; 4],
        }
    }

    /// One job of a random sort, and the specimen after it.
    fn turn(&mut self) -> Result<(), String> {
        let k = self.rng.below(RIGHT_JOBS);
        let sort = if self.rng.below(LARGE) == 0 { 3 } else { self.rng.below(3) };
        self.turns[sort] += 1;
        match sort {
            0 => self.right(k)?,
            1 => {
                self.job.clone_from(&self.right_jobs[k].job);
                jobs::damage(&mut self.job, &mut self.rng);
                self.run_anyhow()?;
            }
            3 => self.right(RIGHT_JOBS + self.turns[3] as usize % (self.right_jobs.len() - RIGHT_JOBS))?,
            _ => {
                jobs::random_bytes(&mut self.job, &mut self.rng);
                if self.rng.chance(30) {
                    self.job.splice(..0, FOUR_BYTES_RECORD);
                }
                self.run_anyhow()?;
            }
        }
        self.known()
    }

    /// A right job with enough memory: each step is accepted.
    fn right(&mut self, k: usize) -> Result<(), String> {
        self.job.clone_from(&self.right_jobs[k].job);
        let outcome = self.run(if k < RIGHT_JOBS { MOST_WORK } else { LARGE_WORK }, MOST_ANSWERS)?;
        let format = Format::of(&self.job);
        let codes = Answers::new(format, self.answers.bytes(), outcome.answers).map(|answer| answer.code);
        if outcome.stop != 0 || !codes.eq(self.right_jobs[k].codes.iter().copied()) {
            return Err(format!("a right job was not accepted: {outcome:?}"));
        }
        Ok(())
    }

    /// Any job with any memory.
    fn run_anyhow(&mut self) -> Result<(), String> {
        let work = if self.rng.chance(50) { MOST_WORK } else { self.rng.below(600) };
        let answers = if self.rng.chance(50) { MOST_ANSWERS } else { self.rng.below(40) };
        self.run(work, answers).map(drop)
    }

    /// The specimen, whose outcome is known, in either format.
    fn known(&mut self) -> Result<(), String> {
        let which = self.rng.below(2);
        self.job.clone_from(&self.specimens[which]);
        let (work, answer): (usize, &[u8]) = [(64, &SPECIMEN_ANSWER[..]), (96, &LONG_SPECIMEN_ANSWER)][which];
        let outcome = self.run(work, answer.len() + 5)?;
        // In four bytes there is one record more, the first.
        if outcome.numbers() != [0, 9 + which as u32, 1, 10, 0] {
            return Err(format!("the specimen came to {outcome:?}"));
        }
        if !self.answers.bytes().starts_with(answer) {
            return Err("the specimen has another answer".to_owned());
        }
        Ok(())
    }

    /// Runs the job on garbage and looks at everything that holds of any job.
    fn run(&mut self, work: usize, answers: usize) -> Result<Outcome, String> {
        let (work_seed, answers_seed) = (self.rng.number(), self.rng.number());
        let outcome = run_job(&self.job, self.work.ready(work, work_seed), self.answers.ready(answers, answers_seed));
        let fault = |what: &str| Err(format!("{what}: {outcome:?}"));
        if !self.work.is_zero() {
            return fault("work memory is not zero");
        }
        let format = Format::of(&self.job);
        let written = format.answer_bytes() * outcome.answers as usize;
        if written > answers || !self.answers.untouched_from(written) {
            return fault("answers past the last one are not as they were");
        }
        if !self.work.fences_stand() || !self.answers.fences_stand() {
            return fault("memory that was not lent was written");
        }
        if !matches!(outcome.stop, 0 | 2..=9 | 18 | 19)
            || !(2..=format.max_terms()).contains(&(outcome.terms as usize))
            || outcome.repeats > outcome.records
        {
            return fault("an impossible outcome");
        }
        let mut heads = self.answers.bytes()[..written].chunks_exact(format.answer_bytes());
        if heads.any(|bytes| bytes[..4] != [format.answer_bytes() as u8 - 2, 0, 200, 0]) {
            return fault("an answer begins with other bytes");
        }
        self.count_answers(outcome)?;
        self.count.jobs += 1;
        tally_answers(&mut self.tally, self.answers.bytes(), outcome.answers);
        if self.tally != self.count {
            return Err(format!("the tally is {:?}, but the host counts {:?}", self.tally, self.count));
        }
        Ok(outcome)
    }

    /// Counts the answers of the job as the tally should.
    fn count_answers(&mut self, outcome: Outcome) -> Result<(), String> {
        for answer in Answers::new(Format::of(&self.job), self.answers.bytes(), outcome.answers) {
            if !possible(&answer) {
                return Err(format!("an impossible answer: {answer:?}"));
            }
            match answer.verdict() {
                Verdict::Held => self.count.held += 1,
                Verdict::FormOnly => self.count.form_only += 1,
                Verdict::Refused => self.count.refused += 1,
            }
        }
        Ok(())
    }
}

/// Whether any step can get such an answer.
fn possible(answer: &Answer) -> bool {
    match answer.code {
        0 => !matches!(answer.rule, 21 | 22),
        1 => matches!(answer.rule, 20..=22),
        10..=17 => answer.depth == 0,
        24 => matches!(answer.rule, 31..=33) && answer.depth == 0,
        _ => false,
    }
}
