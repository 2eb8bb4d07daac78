//! `bbhost compare`: jobs with what the original answers, against the library.
use super::{
    Failure, Status, about,
    case::{Call, Expected, Question},
    grouped, is_text,
    progress::Progress,
    text_case, unknown, value,
};
use bitblast_host::{Answers, Format, Outcome, words};
use std::{
    collections::BTreeMap,
    ffi::OsString,
    fs,
    io::Write,
    path::{Path, PathBuf},
};

/// How the command is used.
pub const USAGE: &str = "  bbhost compare DIR [--counts FILE]
      Runs each NNNNN.job of a folder against its NNNNN.expect (both from the oracle), asks the questions about the job's final
      store, and about the job under limits, that stand there, converts each NNNNN.alethe, and prints which answers of which
      rule were reached. --counts adds the counts in a file to the table, and keeps the sums there. Exit status 1 on any
      difference.";

/// The differences that are printed one by one.
const SHOWN: usize = 20;

pub fn run(words: &[OsString], out: &mut impl Write) -> Result<Status, Failure> {
    let (mut folder, mut counts_file) = (None, None);
    let mut rest = words.iter();
    while let Some(word) = rest.next() {
        match word.to_str() {
            Some("--counts") => counts_file = Some(Path::new(value("--counts", &mut rest)?)),
            _ if folder.is_none() => folder = Some(Path::new(word)),
            _ => return Err(unknown(word)),
        }
    }
    let Some(folder) = folder else {
        return Err(Failure::Usage("compare needs a folder".to_owned()));
    };
    let mut counts = Counts::default();
    if let Some(file) = counts_file.filter(|file| file.exists()) {
        let text = fs::read_to_string(file).map_err(|error| about(file.display(), error))?;
        counts = Counts::parse(&text).ok_or_else(|| Failure::Usage(format!("{} holds no counts", file.display())))?;
    }

    let cases = cases(folder)?;
    if cases.is_empty() {
        return Err(Failure::Usage(format!("{} holds no .job or .alethe file", folder.display())));
    }
    let mut differing = 0;
    let mut progress = Progress::new();
    for (k, path) in cases.iter().enumerate() {
        progress.show(|| format!("case {} of {}", k + 1, cases.len()));
        if let Some(difference) = compare(path, k as u64, &mut counts)? {
            differing += 1;
            if differing <= SHOWN {
                writeln!(out, "DIFFERS {}: {difference}", path.display())?;
            }
        }
    }
    drop(progress);
    counts.differences += differing as u64;
    if let Some(file) = counts_file {
        fs::write(file, counts.text()).map_err(|error| about(file.display(), error))?;
    }
    if counts.jobs > 0 {
        counts.print(out)?;
    }
    writeln!(out, "{} cases in this folder, {differing} differ", grouped(cases.len() as u64))?;
    Ok(if differing == 0 { Status::Fine } else { Status::Failed })
}

fn cases(folder: &Path) -> Result<Vec<PathBuf>, Failure> {
    let mut cases = Vec::new();
    for entry in fs::read_dir(folder).map_err(|error| about(folder.display(), error))? {
        let path = entry?.path();
        if path.extension().is_some_and(|end| end == "job" || end == "alethe") {
            cases.push(path);
        }
    }
    cases.sort();
    Ok(cases)
}

/// Runs a case; the first difference, if there is one.
fn compare(path: &Path, seed: u64, counts: &mut Counts) -> Result<Option<String>, Failure> {
    let job = fs::read(path).map_err(|error| about(path.display(), error))?;
    let file = path.with_extension("expect");
    let text = fs::read_to_string(&file).map_err(|error| about(file.display(), error))?;
    let other = || Failure::Usage(format!("{} is not as the oracle writes it", file.display()));
    if is_text(path.as_os_str()) {
        let expected = text_case::Expected::parse(&text).ok_or_else(other)?;
        return Ok(expected.difference(&job, seed));
    }
    let expected = Expected::parse(&text).ok_or_else(other)?;
    let mut call = Call::new(&job, &expected, seed);
    let format = Format::of(&job);
    let mut difference = call.job(|outcome, answers| counts.add(format, outcome, answers));
    for question in &expected.questions {
        match question {
            Question::Within { .. } => counts.limits += 1,
            Question::Sweep { .. } | Question::Count { .. } | Question::Derive { .. } => counts.questions += 1,
        }
        difference = difference.or_else(|| call.ask(question));
    }
    Ok(difference)
}

/// How often each answer and each stop was seen.
#[derive(Default)]
struct Counts {
    jobs: u64,
    /// Those of them whose term numbers have four bytes.
    long: u64,
    questions: u64,
    /// Runs under stated limits.
    limits: u64,
    differences: u64,
    answers: BTreeMap<(u16, u16), u64>,
    stops: BTreeMap<u32, u64>,
}

impl Counts {
    fn add(&mut self, format: Format, outcome: Outcome, answers: &[u8]) {
        self.jobs += 1;
        self.long += u64::from(format == Format::FourBytes);
        *self.stops.entry(outcome.stop).or_default() += 1;
        for answer in Answers::new(format, answers, outcome.answers) {
            *self.answers.entry((answer.rule, answer.code)).or_default() += 1;
        }
    }

    fn text(&self) -> String {
        let Counts { jobs, long, differences, questions, limits, .. } = self;
        let mut text =
            format!("jobs {jobs}\ndifferences {differences}\nquestions {questions}\nlimits {limits}\nlong {long}\n");
        for (stop, n) in &self.stops {
            text.push_str(&format!("stop {stop} {n}\n"));
        }
        for ((rule, code), n) in &self.answers {
            text.push_str(&format!("answer {rule} {code} {n}\n"));
        }
        text
    }

    fn parse(text: &str) -> Option<Self> {
        let mut counts = Counts::default();
        for line in text.lines() {
            match line.split(' ').collect::<Vec<_>>()[..] {
                ["jobs", n] => counts.jobs = n.parse().ok()?,
                ["long", n] => counts.long = n.parse().ok()?,
                ["differences", n] => counts.differences = n.parse().ok()?,
                ["questions", n] => counts.questions = n.parse().ok()?,
                ["limits", n] => counts.limits = n.parse().ok()?,
                ["stop", stop, n] => drop(counts.stops.insert(stop.parse().ok()?, n.parse().ok()?)),
                ["answer", rule, code, n] => {
                    counts.answers.insert((rule.parse().ok()?, code.parse().ok()?), n.parse().ok()?);
                }
                _ => return None,
            }
        }
        Some(counts)
    }

    fn print(&self, out: &mut impl Write) -> std::io::Result<()> {
        write!(out, "answers by rule and code\n                  ")?;
        for (code, _) in words::ANSWERS {
            write!(out, "{code:>9}")?;
        }
        writeln!(out)?;
        for (rule, name) in words::rules() {
            write!(out, "{rule:>2} {name:<15}")?;
            for (code, _) in words::ANSWERS {
                let n = self.answers.get(&(rule, code)).copied().unwrap_or(0);
                match (n, reachable(rule, code)) {
                    (0, true) => write!(out, "     none")?,
                    (0, false) => write!(out, "        .")?,
                    _ => write!(out, "{:>9}", grouped(n))?,
                }
            }
            writeln!(out)?;
        }
        let stops: Vec<String> = self.stops.iter().map(|(stop, n)| format!("{stop}: {}", grouped(*n))).collect();
        writeln!(out, "jobs by stop code: {}", stops.join(", "))?;
        let missed: Vec<String> = self.missed();
        if missed.is_empty() {
            writeln!(out, "every answer that a rule of the original can give was reached, and every stop code")?;
        } else {
            writeln!(out, "not reached: {}", missed.join(", "))?;
        }
        if self.questions > 0 {
            write!(out, "{} questions about final stores; ", grouped(self.questions))?;
        }
        if self.limits > 0 {
            write!(out, "{} runs under stated limits; ", grouped(self.limits))?;
        }
        if self.long > 0 {
            write!(out, "{} jobs with term numbers of four bytes; ", grouped(self.long))?;
        }
        writeln!(out, "in all {} jobs, {} differences", grouped(self.jobs), self.differences)
    }

    fn missed(&self) -> Vec<String> {
        let mut missed = Vec::new();
        for (rule, name) in words::rules() {
            for (code, _) in words::ANSWERS {
                if reachable(rule, code) && !self.answers.contains_key(&(rule, code)) {
                    missed.push(format!("rule {rule} ({name}) with code {code}"));
                }
            }
        }
        for (stop, _) in words::STOPS {
            if !self.stops.contains_key(&stop) {
                missed.push(format!("stop {stop}"));
            }
        }
        missed
    }
}

/// Whether the original's function of a rule can end so.
fn reachable(rule: u16, code: u16) -> bool {
    match code {
        _ if usize::from(rule) > words::ORIGINAL_RULES => false,
        0 => !matches!(rule, 21 | 22),
        1 => matches!(rule, 20..=22),
        10 | 11 => true,
        12 => matches!(rule, 2 | 13),
        13..=15 => rule == 1,
        16 => rule != 1,
        17 => rule == 23,
        _ => false,
    }
}
