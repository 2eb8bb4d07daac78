//! The command line `bbhost`.
mod command;

use bitblast_host::{interface, words::RULES};
use command::{Failure, Status, bench, check, checker, compare, convert, count, known, manual, show, soak, sweep};
use std::{
    env,
    ffi::OsString,
    io::{self, BufWriter, StdoutLock, Write},
    process::ExitCode,
};

/// What the program is for, before the commands' usages.
fn about() -> String {
    format!(
        "\
bbhost: asks the verified checker of bit-blasting steps

A job is a file of records; docs/FORMAT.md has their format. Some records build terms: variables, constants, bit-vector
operations, gates over bits. A step claims that an operation equals a circuit of gates, under one of {} rules, or joins
earlier claims into one (symm, trans, cong). The checker answers each step:
  held       the claim is the rule's circuit, and both sides are equal for all values of the variables
  form only  the claim is the rule's circuit, but for this rule (ashr, udiv, urem) that is not the standard's operation
  refused    for a reason that is named
A job that is ill-formed stops at the first bad record, with a code that is named.

",
        RULES.len()
    )
}

const USAGE: &str = "  bbhost --help, bbhost COMMAND --help, bbhost --version";

type Out = BufWriter<StdoutLock<'static>>;

/// A command: its name, how it is used, and what it does.
struct Command {
    name: &'static str,
    usage: &'static str,
    run: fn(&[OsString], &mut Out) -> Result<Status, Failure>,
}

/// The commands, in the order of the help.
const COMMANDS: [Command; 11] = [
    Command { name: "check", usage: check::USAGE, run: check::run },
    Command { name: "show", usage: show::USAGE, run: show::run },
    Command { name: "convert", usage: convert::USAGE, run: convert::run },
    Command { name: "sweep", usage: sweep::USAGE, run: sweep::run },
    Command { name: "count", usage: count::USAGE, run: count::run },
    Command { name: "known", usage: known::USAGE, run: known::run },
    Command { name: "soak", usage: soak::USAGE, run: soak::run },
    Command { name: "bench", usage: bench::USAGE, run: bench::run },
    Command { name: "compare", usage: compare::USAGE, run: compare::run },
    Command { name: "man", usage: manual::MAN_USAGE, run: man },
    Command { name: "completion", usage: manual::COMPLETION_USAGE, run: completion },
];

fn main() -> ExitCode {
    let words: Vec<OsString> = env::args_os().skip(1).collect();
    let mut out = BufWriter::new(io::stdout().lock());
    let done = run(&words, &mut out).and_then(|status| {
        out.flush()?;
        Ok(status)
    });
    match done {
        Ok(status) => ExitCode::from(status as u8),
        Err(Failure::Usage(why)) => {
            eprintln!("bbhost: {why}\nTry `bbhost --help`.");
            ExitCode::from(Status::Trouble as u8)
        }
        Err(Failure::Io(error)) => {
            if error.kind() != io::ErrorKind::BrokenPipe {
                eprintln!("bbhost: {error}");
            }
            ExitCode::from(Status::Trouble as u8)
        }
    }
}

fn run(words: &[OsString], out: &mut Out) -> Result<Status, Failure> {
    let Some((word, rest)) = words.split_first() else {
        return Err(Failure::Usage("no command is given".to_owned()));
    };
    // What stands behind `--` is a file, whatever its name.
    let help = rest.iter().take_while(|word| *word != "--").any(|word| word == "--help" || word == "-h");
    match COMMANDS.iter().find(|command| word == command.name) {
        Some(command) if help => print(&[command.usage], out),
        Some(command) => (command.run)(rest, out),
        None => other(word, rest, out),
    }
}

/// What is no command of the help.
fn other(word: &OsString, rest: &[OsString], out: &mut Out) -> Result<Status, Failure> {
    match word.to_str() {
        Some(checker::WORKER) => checker::work(rest, out),
        Some("--help" | "-h" | "help") => {
            out.write_all(about().as_bytes())?;
            let usages: Vec<&str> = COMMANDS.iter().map(|command| command.usage).chain([USAGE]).collect();
            print(&usages, out)
        }
        Some("--version" | "-V") => {
            let (version, origin) = (env!("CARGO_PKG_VERSION"), env!("BITBLAST_ORIGIN"));
            writeln!(out, "bbhost {version}, interface {}, {origin}", interface())?;
            Ok(Status::Fine)
        }
        _ => Err(Failure::Usage(format!("there is no command {}", word.display()))),
    }
}

fn print(usages: &[&str], out: &mut Out) -> Result<Status, Failure> {
    writeln!(out, "usage:\n{}", usages.join("\n\n"))?;
    Ok(Status::Fine)
}

/// The commands' names and usages.
fn usages() -> Vec<(&'static str, &'static str)> {
    COMMANDS.iter().map(|command| (command.name, command.usage)).collect()
}

fn man(words: &[OsString], out: &mut Out) -> Result<Status, Failure> {
    manual::man(words, &about(), &usages(), out)
}

fn completion(words: &[OsString], out: &mut Out) -> Result<Status, Failure> {
    manual::completion(words, &usages(), out)
}
