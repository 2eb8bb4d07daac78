//! `bbhost bench`: how long jobs take.
use super::{
    Failure, Status, about, fill, grouped, interrupt, number, progress::Progress, sweeps, terms, texts, unknown, value,
};
use bitblast_host::{
    Answers, Format,
    jobs::{self, CONG},
    run_job,
    words::{self, ORIGINAL_RULES, RULES},
};
use std::{
    env,
    ffi::OsString,
    fs::{self, DirBuilder},
    hint::black_box,
    io::{self, Write},
    os::unix::fs::DirBuilderExt,
    path::{Path, PathBuf},
    process::{self, Command},
    time::{Duration, Instant, SystemTime, UNIX_EPOCH},
};

/// How the command is used.
pub const USAGE: &str = "  bbhost bench [--work BYTES] [--against COMMAND] [--write DIR]
      Measures a list of jobs, the same with exactly the work memory that their terms need, terms entered and looked up in
      both formats, sweeps beside a plain Rust evaluator of the same terms, and texts. --against also runs
      `COMMAND FILE RUNS` on each job that has only rules of the original, as with `oracle bench`, and prints the ratio.
      --write only writes the jobs as files.";

/// The memory lent: work unless an option says otherwise, and answers.
const WORK: usize = 1 << 20;
const ANSWERS: usize = 1 << 20;

/// Each job is run for this long, and at least so often.
const TIME: Duration = Duration::from_millis(200);
const LEAST_RUNS: u32 = 5;
const MOST_RUNS: u32 = 20_000;

/// A job that is measured.
pub struct Measured {
    pub name: String,
    pub job: Vec<u8>,
    /// Whether the original has all of the job's rules.
    original: bool,
}

pub fn jobs() -> Vec<Measured> {
    let mut list = Vec::new();
    let mut add = |name: &str, job: Vec<u8>, rule: usize| {
        list.push(Measured { name: name.to_owned(), job, original: rule <= ORIGINAL_RULES });
    };
    add("specimen", jobs::specimen(), 9);
    for rule in [10, 8, 18, 11, 21, 22, 24, 25] {
        for width in [8, 16, 32, 64] {
            add(&format!("{}{width}", words::rule_name(rule)), jobs::right_claim(rule, width), rule.into());
        }
    }
    for rule in [21, 24] {
        add(&format!("{}64x10", words::rule_name(rule)), jobs::right_claims(rule, 64, 10), rule.into());
    }
    add("mixed", jobs::mixed(50_000, ORIGINAL_RULES), ORIGINAL_RULES);
    add("mixed_all", jobs::mixed(50_000, RULES.len()), RULES.len());
    add("terms60000", jobs::many_terms(60_000), 0);
    add("backs20000", jobs::many_backs(20_000), 0);
    for count in [25_000, 50_000, 100_000] {
        add(&format!("chains{count}"), jobs::many_chains(count), CONG.into());
    }
    list
}

pub fn run(words: &[OsString], out: &mut impl Write) -> Result<Status, Failure> {
    let (mut work, mut against, mut write) = (WORK, None, None);
    let mut rest = words.iter();
    while let Some(word) = rest.next() {
        match word.to_str() {
            Some("--work") => work = number("--work", &mut rest)?,
            Some("--against") => against = Some(value("--against", &mut rest)?.to_string_lossy()),
            Some("--write") => write = Some(PathBuf::from(value("--write", &mut rest)?)),
            _ => return Err(unknown(word)),
        }
    }
    if let Some(folder) = write {
        write_jobs(&folder)?;
        writeln!(out, "wrote {} jobs to {}", jobs().len(), folder.display())?;
        return Ok(Status::Fine);
    }

    let mut memory = (vec![0; work], vec![0; ANSWERS]);
    writeln!(
        out,
        "lent: {} bytes of work, {} of answers. Nothing but the library clears memory: it wipes all of the work memory in\n\
         each job. Times are those of the fastest run.",
        grouped(work as u64),
        grouped(ANSWERS as u64)
    )?;
    write!(out, "{:<20}{:>9}{:>9}{:>14}{:>12}", "job", "bytes", "records", "us per job", "ns/record")?;
    let other = against.as_deref().map(Other::new).transpose()?;
    if other.is_some() {
        write!(out, "{:>16}{:>10}", "original us", "ratio")?;
    }
    writeln!(out)?;
    let status = measure_all(&mut memory, other.as_ref(), out)?;
    drop(other);
    let filled = fill::measure_all(&mut memory.1, out)?;
    let entered = terms::measure_all(out)?;
    let swept = sweeps::measure_all(&mut memory, out)?;
    let converted = texts::measure_all(out)?;
    Ok(status.max(filled).max(entered).max(swept).max(converted))
}

/// Another program, and a folder of the jobs for it, which goes when the measuring ends, by an interrupt too.
struct Other<'a> {
    command: &'a str,
    folder: PathBuf,
}

impl<'a> Other<'a> {
    fn new(command: &'a str) -> Result<Self, Failure> {
        let time = SystemTime::now().duration_since(UNIX_EPOCH).map_or(0, |time| time.subsec_nanos());
        let folder = env::temp_dir().join(format!("bbhost-bench-{}-{time}", process::id()));
        // A folder that is there already is not ours.
        DirBuilder::new().mode(0o700).create(&folder).map_err(|error| about(folder.display(), error))?;
        interrupt::watch();
        let other = Other { command, folder };
        write_jobs(&other.folder)?;
        Ok(other)
    }
}

impl Drop for Other<'_> {
    fn drop(&mut self) {
        if let Err(error) = fs::remove_dir_all(&self.folder) {
            eprintln!("bbhost: {}: {error}", self.folder.display());
        }
    }
}

fn write_jobs(folder: &Path) -> Result<(), Failure> {
    fs::create_dir_all(folder).map_err(|error| about(folder.display(), error))?;
    for Measured { name, job, .. } in jobs() {
        let file = folder.join(format!("{name}.job"));
        fs::write(&file, job).map_err(|error| about(file.display(), error))?;
    }
    Ok(())
}

fn measure_all(
    memory: &mut (Vec<u8>, Vec<u8>),
    other: Option<&Other>,
    out: &mut impl Write,
) -> Result<Status, Failure> {
    let mut status = Status::Fine;
    let mut progress = Progress::new();
    for Measured { name, job, original } in jobs() {
        if interrupt::came() {
            return Err(Failure::Io(io::Error::new(io::ErrorKind::Interrupted, "interrupted")));
        }
        progress.show(|| name.clone());
        let outcome = run_job(&job, &mut memory.0, &mut memory.1);
        let accepted = Answers::new(Format::of(&job), &memory.1, outcome.answers).all(|answer| answer.code <= 1);
        if outcome.stop != 0 || !accepted {
            writeln!(out, "{name:<20} NOT MEASURED, the job is not accepted: {outcome:?}")?;
            status = Status::Failed;
            continue;
        }
        let (best, runs) = measure(&job, memory);
        write!(
            out,
            "{name:<20}{:>9}{:>9}{:>14.2}{:>12.1}",
            job.len(),
            outcome.records,
            best * 1e6,
            best * 1e9 / f64::from(outcome.records.max(1))
        )?;
        if let Some(Other { command, folder }) = other.filter(|_| original) {
            match ask(command, &folder.join(format!("{name}.job")), runs.clamp(3, 300)) {
                Ok(theirs) => write!(out, "{:>16.2}{:>9.2}x", theirs * 1e6, theirs / best)?,
                Err(why) => {
                    write!(out, "  {why}")?;
                    status = Status::Failed;
                }
            }
        }
        writeln!(out)?;
        out.flush()?;
    }
    Ok(status)
}

/// The seconds of the fastest run of a job, and the number of runs.
fn measure(job: &[u8], memory: &mut (Vec<u8>, Vec<u8>)) -> (f64, u32) {
    fastest(|| run_job(black_box(job), black_box(&mut memory.0), black_box(&mut memory.1)))
}

/// The seconds of the fastest run, and the number of runs.
pub fn fastest<T>(mut run: impl FnMut() -> T) -> (f64, u32) {
    let begun = Instant::now();
    let mut best = f64::MAX;
    let mut runs = 0;
    while runs < LEAST_RUNS || (begun.elapsed() < TIME && runs < MOST_RUNS) {
        let one = Instant::now();
        black_box(run());
        best = best.min(one.elapsed().as_secs_f64());
        runs += 1;
    }
    (best, runs)
}

/// The seconds of the fastest run as another program prints them: `.. best MILLISECONDS ms ..`.
fn ask(command: &str, file: &Path, runs: u32) -> Result<f64, String> {
    let mut words = command.split_whitespace();
    let program = words.next().ok_or("--against names no program")?;
    let done = Command::new(program)
        .args(words)
        .arg(file)
        .arg(runs.to_string())
        .output()
        .map_err(|error| format!("cannot run {program}: {error}"))?;
    let text = String::from_utf8_lossy(&done.stdout);
    let best = text.split("best ").nth(1).and_then(|rest| rest.split(' ').next()).and_then(|n| n.parse::<f64>().ok());
    match best {
        Some(milliseconds) if done.status.success() => Ok(milliseconds / 1e3),
        _ => Err(format!("{command} gave no time ({}): {}", done.status, String::from_utf8_lossy(&done.stderr).trim())),
    }
}
