//! `bbhost man` and `bbhost completion`: the commands' usages as a page for man, and as words that a shell completes.
use super::{Failure, Status};
use std::{ffi::OsString, io::Write};

/// How the commands are used.
pub const MAN_USAGE: &str = "  bbhost man
      Prints the manual page: `bbhost man > bbhost.1`, then `man ./bbhost.1`.";
pub const COMPLETION_USAGE: &str = "  bbhost completion
      Prints a script by which bash completes commands and options: `source <(bbhost completion)`.";

fn no_words(words: &[OsString]) -> Result<(), Failure> {
    words.first().map_or(Ok(()), |word| Err(super::unknown(word)))
}

/// The page: what the program is for, and the usage of each command.
pub fn man(
    words: &[OsString],
    about: &str,
    commands: &[(&str, &str)],
    out: &mut impl Write,
) -> Result<Status, Failure> {
    no_words(words)?;
    let (title, rest) = about.split_once('\n').unwrap_or((about, ""));
    let purpose = title.strip_prefix("bbhost: ").unwrap_or(title);
    writeln!(out, ".TH BBHOST 1 \"\" \"bbhost {}\"", env!("CARGO_PKG_VERSION"))?;
    writeln!(out, ".SH NAME\nbbhost \\- {}", escaped(purpose))?;
    writeln!(out, ".SH DESCRIPTION\n.nf\n{}\n.fi", escaped(rest.trim()))?;
    writeln!(out, ".SH COMMANDS")?;
    for (name, usage) in commands {
        writeln!(out, ".SS {name}\n.nf\n{}\n.fi", escaped(usage))?;
    }
    Ok(Status::Fine)
}

/// A text as it stands, in the page's language: there a backslash, a hyphen, and a dot or quote at a line's start mean something.
fn escaped(text: &str) -> String {
    let lines = text.lines().map(|line| {
        let line = line.replace('\\', "\\e").replace('-', "\\-");
        if line.starts_with(['.', '\'']) { format!("\\&{line}") } else { line }
    });
    lines.collect::<Vec<_>>().join("\n")
}

/// The script: after a command's name its options, and files wherever neither fits.
pub fn completion(words: &[OsString], commands: &[(&str, &str)], out: &mut impl Write) -> Result<Status, Failure> {
    no_words(words)?;
    let names: Vec<&str> = commands.iter().map(|(name, _)| *name).collect();
    writeln!(out, "_bbhost() {{\n  local words=")?;
    writeln!(out, "  if [ \"$COMP_CWORD\" -eq 1 ]; then\n    words='{} --help --version'\n  else", names.join(" "))?;
    writeln!(out, "    case ${{COMP_WORDS[1]}} in")?;
    for (name, usage) in commands {
        writeln!(out, "      {name}) words='{}' ;;", options(usage).join(" "))?;
    }
    writeln!(out, "    esac\n  fi\n  COMPREPLY=($(compgen -W \"$words\" -- \"${{COMP_WORDS[COMP_CWORD]}}\"))\n}}")?;
    writeln!(out, "complete -o default -F _bbhost bbhost")?;
    Ok(Status::Fine)
}

/// The options that a usage names, each once, and --help.
fn options(usage: &str) -> Vec<&str> {
    let mut found = Vec::new();
    let words = usage.split(|c: char| !c.is_ascii_alphanumeric() && c != '-');
    for word in words.filter(|word| word.starts_with('-') && word.len() > 1).chain(["--help"]) {
        if !found.contains(&word) {
            found.push(word);
        }
    }
    found
}
