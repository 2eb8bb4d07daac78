//! The command line `reading`.
use reading::generate::{texts::write_texts, write_all, write_asked};
use reading::job::{self, Lent, Limits};
use reading::limited::{self, Limited};
use reading::question::Question;
use reading::text::expect_text;
use std::{error::Error, fs, io::Read, path::Path, process::exit};

const USAGE: &str = "usage:
  reading run < FILE.job          prints what bbcheck prints
  reading case FILE WORK ROOM [WIDTH TERMS]
                                  prints the .expect text for that much work memory and answer room, or the outcome under limits
  reading gen SEED COUNT DIR      writes COUNT cases and a summary; status 1 where the cases show a fault
  reading ask SEED COUNT DIR      the same with questions about the jobs' final lists
  reading texts SEED COUNT DIR    writes COUNT texts, and what is expected of them
  reading convert ROOM < FILE     prints the .expect text of a text in that much room
  reading verify DIR              reads the cases of a folder against their .expect files; status 1 where one differs";

fn main() {
    exit(match commands() {
        Ok(status) => status,
        Err(why) => {
            eprintln!("reading: {why}");
            2
        }
    })
}

fn commands() -> Result<i32, Box<dyn Error>> {
    let words: Vec<String> = std::env::args().skip(1).collect();
    let words: Vec<&str> = words.iter().map(String::as_str).collect();
    match words[..] {
        ["run"] => {
            let mut input = Vec::new();
            std::io::stdin().read_to_end(&mut input)?;
            print!("{}", job::bbcheck(&input));
            Ok(0)
        }
        ["case", file, work, room] => {
            print!("{}", job::expect_text(&fs::read(file)?, Lent { work: work.parse()?, room: room.parse()? }));
            Ok(0)
        }
        ["case", file, work, room, width, terms] => {
            let lent = Lent { work: work.parse()?, room: room.parse()? };
            let limits = Limits { width: width.parse()?, terms: terms.parse()? };
            let Limited { outcome, bytes } = Limited::of(&fs::read(file)?, lent, limits);
            let job::Outcome { stop, records, terms, repeats, .. } = outcome;
            println!("stop {stop}\nrecords {records}\nterms {terms}\nrepeats {repeats}\nbytes {bytes}");
            Ok(0)
        }
        ["gen", seed, count, folder] => {
            let summary = write_all(seed.parse()?, count.parse()?, Path::new(folder))?;
            print!("{}", summary.text());
            Ok(i32::from(!summary.faults.is_empty()))
        }
        ["ask", seed, count, folder] => {
            let survey = write_asked(seed.parse()?, count.parse()?, Path::new(folder))?;
            print!("{}", survey.text());
            Ok(i32::from(!survey.faults.is_empty()))
        }
        ["texts", seed, count, folder] => {
            let (accepted, refused) = write_texts(seed.parse()?, count.parse()?, Path::new(folder))?;
            println!("{accepted} texts are accepted, {refused} are refused");
            Ok(i32::from(accepted == 0 || refused == 0))
        }
        ["convert", room] => {
            let mut input = Vec::new();
            std::io::stdin().read_to_end(&mut input)?;
            print!("{}", expect_text(&input, room.parse()?));
            Ok(0)
        }
        ["verify", folder] => verify(Path::new(folder)),
        _ => Err(USAGE.into()),
    }
}

/// Reads the cases of a folder, whoever wrote them, with the memory that their .expect files lend.
fn verify(folder: &Path) -> Result<i32, Box<dyn Error>> {
    let (mut cases, mut differing) = (0, 0);
    for entry in fs::read_dir(folder)? {
        let path = entry?.path();
        if path.extension().is_none_or(|end| end != "job") {
            continue;
        }
        let expected = fs::read_to_string(path.with_extension("expect"))?;
        let number = |name: &str| expected.lines().find_map(|line| line.strip_prefix(name)?.parse().ok());
        let (Some(work), Some(room)) = (number("work "), number("room ")) else {
            return Err(format!("{} lends no memory", path.with_extension("expect").display()).into());
        };
        cases += 1;
        let (job, lent) = (fs::read(&path)?, Lent { work, room });
        let (outcome, store) = job::run_whole(&job, lent, |_| {});
        let questions = expected.lines().filter_map(Question::parse);
        let asked = questions.map(|question| question.text() + &question.answer(outcome.stop, &store).text());
        let under = expected.lines().filter_map(limited::parse);
        let under = under.map(|limits| Limited::of(&job, lent, limits).text(limits));
        if job::expect_text(&job, lent) + &asked.chain(under).collect::<String>() != expected {
            differing += 1;
            println!("DIFFERS {}", path.display());
        }
    }
    println!("{cases} cases, {differing} differ");
    Ok(i32::from(differing > 0))
}
