//! Who checks the jobs of `bbhost check`: this process, or a child of it for each job, which is ended where it takes too long.
use super::{Failure, Status, number, unknown};
use bitblast_host::{
    Format, Limits, Outcome, Refused, Report, Seeds, Service, Tally, format::useful_work_bytes, run_job_within,
    tally_answers,
};
use std::{
    env,
    ffi::OsString,
    io::{self, Read, Write},
    process::{Child, Command, Stdio},
    sync::mpsc,
    thread,
    time::Duration,
};

/// The command by which a child is started; it is not for people.
pub const WORKER: &str = "worker";

/// The bytes of an outcome on the way from a child.
const OUTCOME_BYTES: usize = 20;

/// Why there is no answer.
pub enum Trouble {
    Unreadable(io::Error),
    /// A line of its text.
    Refused(Refused),
    /// The child did not do its work.
    Failed(io::Error),
    TimedOut(Duration),
}

impl Trouble {
    /// What docs/OUTPUT.md calls it.
    pub fn kind(&self) -> &'static str {
        match self {
            Trouble::Unreadable(_) => "unreadable",
            Trouble::Refused(_) => "refused",
            Trouble::Failed(_) => "failed",
            Trouble::TimedOut(_) => "timeout",
        }
    }

    pub fn words(&self) -> String {
        match self {
            Trouble::Unreadable(error) => error.to_string(),
            Trouble::Refused(refused) => refused.to_string(),
            Trouble::Failed(error) => format!("the process that checks it failed: {error}"),
            Trouble::TimedOut(limit) => format!("no answer within {} s; the check was ended", limit.as_secs_f64()),
        }
    }

    pub fn status(&self) -> Status {
        match self {
            Trouble::Refused(_) => Status::Failed,
            Trouble::Unreadable(_) | Trouble::Failed(_) => Status::Trouble,
            Trouble::TimedOut(_) => Status::TimedOut,
        }
    }
}

/// What a job is given: bytes of work memory and of answers, and limits.
#[derive(Clone, Copy)]
pub struct Lent {
    pub work: usize,
    pub room: usize,
    pub limits: Limits,
}

/// Checks jobs, and counts what they came to.
pub enum Checker {
    Here(Box<Service>),
    Child { time: Duration, lent: Lent, answers: Vec<u8>, tally: Tally },
}

impl Checker {
    /// Jobs are checked in a process of their own where each may take only so much time.
    pub fn new(lent: Lent, time: Option<Duration>) -> Self {
        match time {
            None => Checker::Here(Box::new(Service::new(lent.work, lent.room).with_limits(lent.limits))),
            Some(time) => Checker::Child { time, lent, answers: Vec::new(), tally: Tally::default() },
        }
    }

    pub fn check(&mut self, job: &[u8]) -> Result<Report<'_>, Trouble> {
        match self {
            Checker::Here(service) => Ok(service.check(job)),
            Checker::Child { time, lent, answers, tally } => {
                let mut bytes = ask(job, *lent, *time)?;
                let outcome = take_outcome(&mut bytes).map_err(Trouble::Failed)?;
                *answers = bytes;
                tally_answers(tally, answers, outcome.answers);
                Ok(Report::new(Format::of(job), outcome, answers, *tally))
            }
        }
    }

    /// What all jobs so far came to.
    pub fn tally(&self) -> Tally {
        match self {
            Checker::Here(service) => service.tally(),
            Checker::Child { tally, .. } => *tally,
        }
    }
}

/// What a child writes about a job, unless it takes too long.
fn ask(job: &[u8], lent: Lent, limit: Duration) -> Result<Vec<u8>, Trouble> {
    let mut child = start(lent).map_err(Trouble::Failed)?;
    let (sender, receiver) = mpsc::channel();
    let mut output = child.stdout.take().expect("the output is piped");
    thread::spawn(move || {
        let mut bytes = Vec::new();
        // Where nobody waits any more, the result is of no use.
        let _ = sender.send(output.read_to_end(&mut bytes).map(|_| bytes));
    });
    // The child reads all of the job before it does anything else. One that is gone is found out below.
    let _ = child.stdin.take().expect("the input is piped").write_all(job);
    // The thread sends whatever it reads, so that nothing comes only where the time is over.
    let Ok(bytes) = receiver.recv_timeout(limit) else {
        child.kill().and_then(|()| child.wait()).map_err(Trouble::Failed)?;
        return Err(Trouble::TimedOut(limit));
    };
    match child.wait() {
        Ok(status) if status.success() => bytes.map_err(Trouble::Failed),
        Ok(status) => Err(Trouble::Failed(io::Error::other(status.to_string()))),
        Err(error) => Err(Trouble::Failed(error)),
    }
}

fn start(lent: Lent) -> io::Result<Child> {
    let (memory, limits) = ([lent.work, lent.room], [lent.limits.width, lent.limits.terms]);
    Command::new(env::current_exe()?)
        .arg(WORKER)
        .args(memory.map(|number| number.to_string()))
        .args(limits.map(|number| number.to_string()))
        .stdin(Stdio::piped())
        .stdout(Stdio::piped())
        .spawn()
}

/// The outcome at the start of what a child wrote; the answers stay.
fn take_outcome(bytes: &mut Vec<u8>) -> io::Result<Outcome> {
    if bytes.len() < OUTCOME_BYTES {
        return Err(io::Error::other("it wrote no outcome"));
    }
    let mut numbers = [0; OUTCOME_BYTES / 4];
    for (number, bytes) in numbers.iter_mut().zip(bytes.chunks_exact(4)) {
        *number = u32::from_le_bytes([bytes[0], bytes[1], bytes[2], bytes[3]]);
    }
    bytes.drain(..OUTCOME_BYTES);
    Ok(Outcome::from_numbers(numbers))
}

/// The child: checks the job on the standard input, with so much memory and under these limits, and writes the outcome and the answers.
pub fn work(words: &[OsString], out: &mut impl Write) -> Result<Status, Failure> {
    let mut rest = words.iter();
    let (work, room) = (number::<usize>(WORKER, &mut rest)?, number::<usize>(WORKER, &mut rest)?);
    let limits = Limits { width: number(WORKER, &mut rest)?, terms: number(WORKER, &mut rest)? };
    if let Some(word) = rest.next() {
        return Err(unknown(word));
    }
    let mut job = Vec::new();
    io::stdin().lock().read_to_end(&mut job)?;
    let (mut work, mut answers) = (vec![0; work.min(useful_work_bytes(&job))], vec![0; room]);
    Seeds::default().put(&mut work);
    let outcome = run_job_within(&job, &mut work, &mut answers, limits);
    outcome.numbers().iter().try_for_each(|number| out.write_all(&number.to_le_bytes()))?;
    out.write_all(&answers[..Format::of(&job).answer_bytes() * outcome.answers as usize])?;
    Ok(Status::Fine)
}
