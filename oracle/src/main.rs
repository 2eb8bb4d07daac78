//! The command line `oracle`.
use std::process::exit;

#[cfg(not(original))]
fn main() {
    eprintln!("oracle: {}", oracle::SKIPPED);
    exit(3)
}

#[cfg(original)]
fn main() {
    // Deep terms are walked recursively in places: a large stack.
    let handle = std::thread::Builder::new().stack_size(1 << 30).spawn(commands::run);
    exit(match handle.map(|h| h.join()) {
        Ok(Ok(Ok(status))) => status,
        Ok(Ok(Err(why))) => {
            eprintln!("oracle: {}", why);
            2
        }
        Ok(Err(_)) => 101, // it panicked, and said why
        Err(error) => {
            eprintln!("oracle: {}", error);
            2
        }
    })
}

#[cfg(original)]
mod commands {
    use oracle::{cases, job};
    use std::{error::Error, fs, io::Read, path::Path, time::Instant};

    const USAGE: &str = "usage:
  oracle run                          a job on standard input, prints what bbcheck prints
  oracle case FILE WORK ROOM          prints the .expect text of a job file for that much work memory and answer room
  oracle gen SEED COUNT DIR           writes COUNT cases and a summary
  oracle verify DIR                   runs the cases of a folder against their .expect files
  oracle bench FILE RUNS              runs a job so often, prints the time per run
  oracle benchjobs DIR                writes some jobs for that";

    type Done<T> = Result<T, Box<dyn Error + Send + Sync>>;

    pub fn run() -> Done<i32> {
        let words: Vec<String> = std::env::args().skip(1).collect();
        let words: Vec<&str> = words.iter().map(String::as_str).collect();
        match words[..] {
            ["run"] => {
                let mut input = Vec::new();
                std::io::stdin().read_to_end(&mut input)?;
                print!("{}", job::bbcheck(&input));
            }
            ["case", file, work, room] => {
                print!("{}", job::expect_text(&read(file)?, work.parse()?, room.parse()?).0)
            }
            ["gen", seed, count, dir] => {
                print!("{}", cases::write_all(seed.parse()?, count.parse()?, Path::new(dir))?)
            }
            ["verify", dir] => return verify(Path::new(dir)),
            ["benchjobs", dir] => cases::bench_jobs(Path::new(dir))?,
            ["bench", file, runs] => bench(file, runs.parse()?)?,
            _ => return Err(USAGE.into()),
        }
        Ok(0)
    }

    fn read(file: &str) -> Done<Vec<u8>> {
        fs::read(file).map_err(|error| format!("{}: {}", file, error).into())
    }

    fn bench(file: &str, runs: u32) -> Done<()> {
        let input = read(file)?;
        let (mut work, mut answers) = (vec![0; 1 << 20], vec![0; 1 << 16]);
        let mut out = job::run(&input, &mut work, &mut answers);
        let mut best = f64::MAX;
        let start = Instant::now();
        for _ in 0..runs {
            let one = Instant::now();
            out = job::run(&input, &mut work, &mut answers);
            best = best.min(one.elapsed().as_secs_f64());
        }
        let mean = start.elapsed().as_secs_f64() / f64::from(runs.max(1));
        println!(
            "{}: {} bytes, steps {}, terms {}, stop {}: mean {:.6} ms, best {:.6} ms per run ({} runs)",
            file,
            input.len(),
            out.answers,
            out.terms,
            out.stop,
            mean * 1e3,
            best * 1e3,
            runs
        );
        Ok(())
    }

    fn verify(dir: &Path) -> Done<i32> {
        let mut names = Vec::new();
        for entry in fs::read_dir(dir)? {
            let path = entry?.path();
            if path.extension().is_some_and(|e| e == "job") {
                names.push(path);
            }
        }
        names.sort();
        let mut differing = Vec::new();
        for path in &names {
            let input = fs::read(path)?;
            let want = fs::read_to_string(path.with_extension("expect"))?;
            let number = |key: &str| -> Done<usize> {
                let line = want.lines().find_map(|l| l.strip_prefix(key)).ok_or("a line is missing")?;
                Ok(line.trim().parse()?)
            };
            let (work, room) = (number("work ")?, number("room ")?);
            let got = std::panic::catch_unwind(|| job::expect_text(&input, work, room).0);
            if !got.is_ok_and(|g| g == want) {
                differing.push(path.display().to_string());
            }
        }
        println!("{} cases, {} differ", names.len(), differing.len());
        for path in differing.iter().take(12) {
            println!("DIFFERS {}", path);
        }
        Ok(i32::from(!differing.is_empty()))
    }
}
