//! The command line: exit statuses, what it prints, and JSON that a reader of JSON takes.
mod json;
mod run;

use bitblast_host::{
    INTERFACE, Service,
    jobs::{self, CONG, JobWriter, Kind, SYMM, TRANS},
};
use run::{bbhost, text};
use std::{
    fs,
    path::{Path, PathBuf},
    process::{Command, Stdio},
    time::Duration,
};

fn folder(name: &str) -> PathBuf {
    let folder = Path::new(env!("CARGO_TARGET_TMPDIR")).join(name);
    let _ = fs::remove_dir_all(&folder);
    fs::create_dir_all(&folder).unwrap();
    folder
}

fn status(arguments: &[&str], input: &[u8]) -> i32 {
    bbhost(arguments, input).status.code().unwrap()
}

#[test]
fn exit_statuses_of_check() {
    let folder = folder("check");
    let write = |name: &str, job: &[u8]| {
        let file = folder.join(name);
        fs::write(&file, job).unwrap();
        file.to_str().unwrap().to_owned()
    };
    let held = write("held.job", &jobs::specimen());
    let form_only = write("form-only.job", &jobs::right_claim(21, 3));
    let mut wrong = jobs::specimen();
    let rule = wrong.len() - 4;
    wrong[rule] = 8;
    let refused = write("refused.job", &wrong);
    let cut = write("cut \"quoted\".job", &jobs::specimen()[..69]);
    let missing = folder.join("missing.job").to_str().unwrap().to_owned();

    assert_eq!(status(&["check", &held], b""), 0);
    assert_eq!(status(&["check", &held, &held], b""), 0);
    assert_eq!(status(&["check", "-q", &form_only], b""), 1);
    assert_eq!(status(&["check", &held, &refused], b""), 1);
    assert_eq!(status(&["check", &cut], b""), 1);
    assert_eq!(status(&["check", &missing, &held], b""), 2);
    assert_eq!(status(&["check", "-"], &jobs::specimen()), 0);
    assert_eq!(status(&["check", "-"], &wrong), 1);
    assert_eq!(status(&["check", "-"], b""), 1);
    assert_eq!(status(&["check", "--work", "63", &held], b""), 1);
    assert_eq!(status(&["check", "--answers", "9", &held], b""), 1);
    for timeout in [&[][..], &["--timeout", "60"]] {
        let under = |limits: &[&str]| bbhost(&[&["check"], timeout, limits, &[&held]].concat(), b"");
        assert_eq!(under(&["--width", "1", "--terms", "10"]).status.code(), Some(0));
        assert_eq!(under(&["--width", "4294967295", "--terms", "4294967295"]).status.code(), Some(0));
        let narrow = under(&["--width", "0"]);
        assert_eq!(narrow.status.code(), Some(1));
        assert!(text(&narrow.stdout).contains("STOPPED at record 1 (code 7)"), "{}", text(&narrow.stdout));
        let few = under(&["--terms", "9"]);
        assert_eq!(few.status.code(), Some(1));
        assert!(text(&few.stdout).contains("STOPPED at record 8 (code 8)"), "{}", text(&few.stdout));
    }
    assert_eq!(status(&["check", "--width", "-1", &held], b""), 2);

    let table = bbhost(&["check", &held, &refused, &cut], b"");
    let table = text(&table.stdout);
    assert!(table.contains("9 slt                 0      2  held"), "{table}");
    assert!(table.contains("8 ult                11      0  the literal is not of the rule's form"), "{table}");
    assert!(table.contains("STOPPED at record 9 (code 3): the record is cut"), "{table}");
    assert!(table.contains("3 jobs: 1 held, 0 form only, 1 refused"), "{table}");
    assert!(bbhost(&["check", "-q", &held, &refused], b"").stdout.is_empty());
    // The specimen's first variable once more at its end.
    let repeated = bbhost(&["check", "-"], &[&jobs::specimen()[..], &jobs::specimen()[..8]].concat());
    let repeated = text(&repeated.stdout);
    assert!(repeated.starts_with("-: 78 bytes, 10 records, 10 terms kept, 1 repeat, 1 step\n"), "{repeated}");

    let all = bbhost(&["check", "--json", &held, &missing, &form_only, &refused, &cut], b"");
    assert_eq!(all.status.code(), Some(2));
    let all = text(&all.stdout);
    json::parse(all);
    assert!(all.contains("cut \\\"quoted\\\".job") && all.contains("\"error\":"), "{all}");
    assert!(
        all.contains("\"tally\":{\"jobs\":4,\"held\":1,\"form_only\":1,\"refused\":1},\"all_held\":false"),
        "{all}"
    );
}

/// A job without a step was not checked, and `--steps` demands a number of answers: of a job that lost its end it tells.
#[test]
fn jobs_without_the_steps_that_they_should_have() {
    let specimen = jobs::specimen();
    let no_step = &specimen[..specimen.len() - 8];
    let two = [&specimen[..], &specimen[specimen.len() - 8..]].concat();
    for job in [b"", no_step] {
        let output = bbhost(&["check", "-"], job);
        assert_eq!(output.status.code(), Some(1));
        assert!(text(&output.stdout).ends_with("  NOTHING CHECKED: the job ran to its end and has no step\n"));
        let output = bbhost(&["check", "--json", "-"], job);
        assert_eq!((output.status.code(), text(&output.stdout).matches("\"all_held\":false").count()), (Some(1), 2));
    }
    assert_eq!(status(&["check", "-q", "--steps", "1", "-"], &specimen), 0);
    assert_eq!(status(&["check", "-q", "--steps", "2", "-"], &two), 0);
    for (demanded, job) in [("2", &specimen[..]), ("1", &two), ("1", no_step)] {
        let output = bbhost(&["check", "--steps", demanded, "-"], job);
        assert_eq!(output.status.code(), Some(1));
        assert!(text(&output.stdout).contains("WRONG NUMBER OF STEPS: "));
        let output = bbhost(&["check", "--json", "--steps", demanded, "-"], job);
        assert_eq!((output.status.code(), text(&output.stdout).matches("\"all_held\":false").count()), (Some(1), 2));
    }
}

#[test]
fn sweeps_in_words() {
    let held = bbhost(&["sweep", "-", "9"], &jobs::specimen());
    assert_eq!(
        (held.status.code(), text(&held.stdout)),
        (Some(0), "-: term 9: 4 assignments, the sides are equal on all\n")
    );
    // The division of rule 21 is not the standard's.
    let form_only = jobs::right_claim(21, 1);
    let number = Service::new(1 << 16, 10).check(&form_only).outcome().terms - 1;
    let form_only = bbhost(&["sweep", "-", &number.to_string()], &form_only);
    let found = format!("-: term {number}: 4 assignments, the sides DIFFER on 1\n");
    assert_eq!((form_only.status.code(), text(&form_only.stdout)), (Some(1), &found[..]));
    let other = bbhost(&["sweep", "-", "8"], &jobs::specimen());
    assert_eq!(other.status.code(), Some(1));
    assert!(
        text(&other.stdout)
            .starts_with("-: term 8: REFUSED (code 20): the job stops early, the number is not that of an Equals")
    );
    let cut = bbhost(&["sweep", "-", "9"], &jobs::specimen()[..69]);
    assert_eq!(cut.status.code(), Some(1));
    assert!(
        text(&cut.stdout)
            .starts_with("-: term 9: REFUSED (code 20): the job stops at record 9 (code 3): the record is cut")
    );
}

#[test]
fn counts_as_bars() {
    let found = bbhost(&["count", "-", "7"], &jobs::specimen());
    let (long, short) = ("#".repeat(50), "#".repeat(17));
    let expected =
        format!("-: term 7: 4 assignments, 2 of 2 values reached\n    0       3  {long}\n    1       1  {short}\n");
    assert_eq!((found.status.code(), text(&found.stdout)), (Some(0), &expected[..]));
    let held = bbhost(&["count", "-", "9"], &jobs::specimen());
    let expected = format!("-: term 9: 4 assignments, 1 of 2 values reached\n    0       0\n    1       4  {long}\n");
    assert_eq!((held.status.code(), text(&held.stdout)), (Some(0), &expected[..]));
    let none = bbhost(&["count", "-", "10"], &jobs::specimen());
    assert_eq!(none.status.code(), Some(1));
    assert!(
        text(&none.stdout)
            .starts_with("-: term 10: REFUSED (code 20): the job stops early, the number is not that of a Bool")
    );
}

#[test]
fn bits_in_signs() {
    for (bits, expected) in [("x1", "0 (1 of 1 known)"), ("1x", "x (0 of 1 known)"), ("10", "1 (1 of 1 known)")] {
        let found = bbhost(&["known", "-", "7", bits], &jobs::specimen());
        let expected = format!("-: term 7: {expected}\n");
        assert_eq!((found.status.code(), text(&found.stdout)), (Some(0), &expected[..]));
    }
    let mut job = JobWriter::new();
    let (x, c) = (job.bv_var(3, 0), job.constant(2, 1));
    let bits = [(2, x), (0, x), (1, c), (0, c), (1, x)].map(|(k, term)| job.bit(k, term));
    let joined = job.term(Kind::BvBbTerm, &bits);
    let number = job.number(joined).to_string();
    let found = bbhost(&["known", "-", &number, "01x"], &job.finish());
    assert_eq!(text(&found.stdout), format!("-: term {number}: x0011 (4 of 5 known)\n"));
    let empty = bbhost(&["known", "-", "1", ""], b"");
    assert_eq!((empty.status.code(), text(&empty.stdout)), (Some(0), "-: term 1: 0 (1 of 1 known)\n"));
    for (number, bits, code) in [("8", "11", 23), ("7", "1", 23), ("7", "111", 23), ("10", "", 20)] {
        let refused = bbhost(&["known", "-", number, bits], &jobs::specimen());
        assert_eq!(refused.status.code(), Some(1));
        assert!(text(&refused.stdout).starts_with(&format!("-: term {number}: REFUSED (code {code}): the ")));
    }
    let cut = bbhost(&["known", "-", "7", "11"], &jobs::specimen()[..69]);
    assert!(text(&cut.stdout).starts_with("-: term 7: REFUSED (code 20): the job stops at record 9 (code 3)"));
}

#[test]
fn chains_in_words() {
    let mut job = JobWriter::new();
    let x = job.bv_var(1, 0);
    let bits = job.circuit(2, x);
    let turned = job.term(Kind::Equals, &[bits, x]);
    job.claim(2, x, bits);
    job.chain(SYMM, &[1], turned);
    job.chain(TRANS, &[1], turned);
    job.chain(CONG, &[4], turned);
    let job = job.finish();
    let table = bbhost(&["check", "-"], &job);
    assert_eq!(table.status.code(), Some(1));
    let table = text(&table.stdout);
    assert!(table.contains("31 symm                0      0  held"), "{table}");
    assert!(table.contains("32 trans              11      0  the literal is not of the rule's form"), "{table}");
    assert!(table.contains("33 cong               24      0  a premise is not an earlier step"), "{table}");
    assert!(table.contains("ran to its end: 2 held, 0 form only, 2 refused"), "{table}");
    let objects = bbhost(&["check", "--json", "-"], &job);
    let objects = text(&objects.stdout);
    json::parse(objects);
    assert!(objects.contains("\"rule\":33,\"name\":\"cong\",\"verdict\":\"refused\",\"code\":24,"), "{objects}");
}

#[test]
fn long_jobs() {
    let longest = vec![0; 16_777_216];
    let output = bbhost(&["check", "-"], &longest);
    assert_eq!(output.status.code(), Some(1));
    assert!(text(&output.stdout).contains("STOPPED at record 1 (code 3)"));
    assert!(text(&output.stdout).starts_with("-: 16,777,216 bytes, "));
    let longer = [&longest[..], &[0, 0, 0]].concat();
    let output = bbhost(&["check", "-"], &longer);
    assert_eq!(output.status.code(), Some(1));
    assert!(text(&output.stdout).contains("NOT READ (code 2)"));
    assert!(text(&output.stdout).starts_with("-: more than 16,777,216 bytes, "));
    let output = bbhost(&["check", "--json", "-"], &longer);
    assert!(text(&output.stdout).contains("\"bytes\":null,\"stop\":2,"));
}

const COMMANDS: [&str; 11] =
    ["check", "show", "convert", "sweep", "count", "known", "soak", "bench", "compare", "man", "completion"];

#[test]
fn usage() {
    for arguments in [
        &[][..],
        &["chek"],
        &["check"],
        &["check", "--jason", "file"],
        &["check", "--work"],
        &["check", "--work", "many", "-"],
        &["check", "--steps", "0", "-"],
        &["check", "--timeout", "0", "-"],
        &["check", "--timeout", "-1", "-"],
        &["check", "--timeout", "soon", "-"],
        &["worker", "1"],
        &["worker", "1", "1", "1"],
        &["worker", "1", "1", "1", "1", "1"],
        &["check", "--explain", "--json", "-"],
        &["check", "-q", "--explain", "-"],
        &["check", "-q", "--json", "-"],
        &["check", "--json", "--jsonl", "-"],
        &["check", "--files-from"],
        &["check", "--files-from", "no-such-list"],
        &["check", "--files-from", "/dev/null"],
        &["man", "check"],
        &["completion", "zsh"],
        &["show"],
        &["show", "--all", "-"],
        &["show", "no-such-file"],
        &["soak"],
        &["soak", "soon"],
        &["soak", "-1"],
        &["soak", "1", "2"],
        &["bench", "fast"],
        &["bench", "--write"],
        &["sweep"],
        &["sweep", "-"],
        &["sweep", "-", "-1"],
        &["sweep", "-", "4294967296"],
        &["sweep", "-", "1", "2"],
        &["sweep", "no-such-file", "1"],
        &["count"],
        &["count", "-", "x"],
        &["count", "no-such-file", "1"],
        &["known"],
        &["known", "-", "1"],
        &["known", "-", "x", "1"],
        &["known", "-", "1", "012"],
        &["known", "-", "1", "0X"],
        &["known", "no-such-file", "1", ""],
        &["compare"],
        &["compare", "a", "b"],
        &["compare", "no-such-folder"],
    ] {
        let output = bbhost(arguments, b"");
        assert_eq!(output.status.code(), Some(2), "{arguments:?}");
        assert!(text(&output.stderr).starts_with("bbhost: ") && output.stdout.is_empty(), "{arguments:?}");
    }
    for word in ["--help", "-h", "help"] {
        let output = bbhost(&[word], b"");
        assert_eq!(output.status.code(), Some(0));
        for command in COMMANDS {
            assert!(text(&output.stdout).contains(&format!("\n  bbhost {command}")), "{command}");
        }
    }
    for command in COMMANDS {
        for words in [&[command, "--help"][..], &[command, "-h"], &[command, "file", "-h"]] {
            let output = bbhost(words, b"");
            assert_eq!(output.status.code(), Some(0), "{words:?}");
            assert!(text(&output.stdout).starts_with(&format!("usage:\n  bbhost {command}")), "{words:?}");
            assert_eq!(text(&output.stdout).matches("\n  bbhost ").count(), 1, "{words:?}");
        }
    }
    assert_eq!(status(&["check", "--", "-h"], b""), 2);
    for word in ["--version", "-V"] {
        let output = bbhost(&[word], b"");
        assert_eq!(output.status.code(), Some(0));
        let known = format!("bbhost {}, interface {INTERFACE}, proved with ", env!("CARGO_PKG_VERSION"));
        assert!(text(&output.stdout).starts_with(&known), "{}", text(&output.stdout));
    }
}

/// The manual page has every command's usage, and what man would take for its own is escaped.
#[test]
fn manual_page() {
    let output = bbhost(&["man"], b"");
    let page = text(&output.stdout);
    assert_eq!(output.status.code(), Some(0));
    assert!(
        page.starts_with(".TH BBHOST 1 ") && page.contains("\n.SH NAME\nbbhost \\- asks the verified checker"),
        "{page}"
    );
    for line in page.lines().filter(|line| line.starts_with('.')) {
        assert!([".TH ", ".SH ", ".SS ", ".nf", ".fi"].iter().any(|known| line.starts_with(known)), "{line}");
    }
    let plain = page.replace("\\-", "-").replace("\\e", "\\");
    for command in COMMANDS {
        let usage = bbhost(&[command, "--help"], b"");
        let usage = text(&usage.stdout).strip_prefix("usage:\n").unwrap().trim_end();
        assert!(plain.contains(&format!("\n.SS {command}\n.nf\n{usage}\n.fi\n")), "{command}");
    }
}

/// What bash offers after some words, by the script.
#[test]
fn completion_in_bash() {
    let script = r#"
        source <("$0" completion)
        offer() { COMP_WORDS=("$@"); COMP_CWORD=$(($# - 1)); _bbhost; echo "${COMPREPLY[*]}"; }
        offer bbhost s; offer bbhost check --j; offer bbhost check job.f; offer bbhost soak -; offer bbhost bench --w; complete -p bbhost"#;
    let done = Command::new("bash").args(["-c", script, env!("CARGO_BIN_EXE_bbhost")]).output().unwrap();
    let expected =
        "show sweep soak\n--json --jsonl\n\n--seed --help\n--work --write\ncomplete -o default -F _bbhost bbhost\n";
    assert_eq!(text(&done.stdout), expected, "{}", text(&done.stderr));
}

/// Files by a list, and names that would move a terminal's cursor.
#[test]
fn lists_and_names_of_files() {
    let folder = folder("names");
    let odd = folder.join("one\x1b[2Jtwo.job");
    fs::write(&odd, jobs::specimen()).unwrap();
    let odd = odd.to_str().unwrap();
    for (words, list) in [(["check", "--", odd], ""), (["check", "--files-from", "-"], &format!("{odd}\n\n")[..])] {
        let output = bbhost(&words, list.as_bytes());
        let found = text(&output.stdout);
        assert_eq!(output.status.code(), Some(0), "{found}");
        assert!(found.contains("one\\u{1b}[2Jtwo.job: 70 bytes") && !found.contains('\x1b'), "{found}");
    }
    for words in [["sweep", odd, "9"], ["count", odd, "9"]] {
        let output = bbhost(&words, b"");
        assert!(text(&output.stdout).contains("one\\u{1b}[2Jtwo.job: term 9"), "{words:?}");
    }
}

/// More memory than a job can use is not lent, and said.
#[test]
fn memory_that_no_job_can_use() {
    for (option, lent) in [("--work", "24,000,000"), ("--answers", "33,554,424")] {
        let output = bbhost(&["check", option, "1000000000", "-"], &jobs::specimen());
        let said = format!("bbhost: {option}: no job can use more than {lent} bytes, which are lent\n");
        assert_eq!((output.status.code(), text(&output.stderr)), (Some(0), &said[..]));
    }
}

/// An interrupt ends a soak early, with what it came to.
#[test]
fn soak_interrupted() {
    let child =
        Command::new(env!("CARGO_BIN_EXE_bbhost")).args(["soak", "600"]).stdout(Stdio::piped()).spawn().unwrap();
    std::thread::sleep(Duration::from_secs(3));
    assert!(Command::new("kill").args(["-INT", &child.id().to_string()]).status().unwrap().success());
    let output = child.wait_with_output().unwrap();
    let found = text(&output.stdout);
    assert_eq!(output.status.code(), Some(2), "{found}");
    assert!(found.starts_with("INTERRUPTED: ") && found.ends_with("no deviation\n"), "{found}");
}

#[test]
fn soak_of_two_seconds() {
    let output = bbhost(&["soak", "2", "--seed", "5"], b"");
    let text = text(&output.stdout);
    assert_eq!(output.status.code(), Some(0), "{text}");
    assert!(text.ends_with("no deviation\n"), "{text}");
}

#[test]
fn bench_writes_jobs_that_are_held() {
    let folder = folder("bench");
    assert_eq!(status(&["bench", "--write", folder.to_str().unwrap()], b""), 0);
    let name = |file: &str| folder.join(format!("{file}.job")).to_str().unwrap().to_owned();
    assert_eq!(fs::read_dir(&folder).unwrap().count(), 42);
    assert_eq!(status(&["check", "-q", &name("add64"), &name("mult32"), &name("udiv_standard16")], b""), 0);
    for without_step in [name("terms60000"), name("backs20000")] {
        let output = bbhost(&["check", &without_step], b"");
        assert_eq!(output.status.code(), Some(1));
        assert!(text(&output.stdout).ends_with("  NOTHING CHECKED: the job ran to its end and has no step\n"));
    }
    assert_eq!(status(&["check", "-q", &name("udiv16")], b""), 1);
}

#[test]
fn compare_finds_differences() {
    let folder = folder("compare");
    let counts = folder.join("counts");
    let arguments = ["compare", folder.to_str().unwrap(), "--counts", counts.to_str().unwrap()];
    let expect = |text: &str| fs::write(folder.join("00000.expect"), text).unwrap();
    fs::write(folder.join("00000.job"), jobs::specimen()).unwrap();
    let right = "work 64\nroom 10\nstop 0\nrecords 9\nanswers 1\nterms 10\nrepeats 0\nbytes 0800c800090000000200\n";
    expect(right);
    let output = bbhost(&arguments, b"");
    assert_eq!(output.status.code(), Some(0), "{}", text(&output.stdout));
    assert!(text(&output.stdout).contains("in all 1 jobs, 0 differences"));
    let right = format!(
        "{right}sweep 9 80\nswept 0 4 0\nsweep 9 79\nswept 21 0 0\nsweep 8 0\nswept 20 0 0\n\
         count 7 80 2\ncounted 0 3 1\ncount 9 80 300\ncounted 0 0 4\ncount 7 80 1\ncounted 22\ncount 10 79 1\ncounted 20\n\
         derive 7 80 4 0102\nderived 0 02\nderive 0 80 1 -\nderived 0 01\nderive 7 80 1 0103\nderived 23 -\nderive 10 79 0 -\nderived 20 -\n\
         within 1 10\ncame 0 9 1 10 0 0800c800090000000200\nwithin 1 9\ncame 8 7 0 9 0 \nwithin 0 99\ncame 7 0 0 2 0 \n"
    );
    expect(&right);
    let output = bbhost(&arguments, b"");
    assert_eq!(output.status.code(), Some(0), "{}", text(&output.stdout));
    assert!(
        text(&output.stdout)
            .contains("11 questions about final stores; 3 runs under stated limits; in all 2 jobs, 0 differences")
    );
    for (from, to) in [
        ("terms 10", "terms 11"),
        ("0200\n", "0300\n"),
        ("work 64", "work 63"),
        ("room 10", "room 9"),
        ("swept 0 4 0", "swept 0 4 1"),
        ("swept 0 4 0", "swept 0 5 0"),
        ("swept 21", "swept 20"),
        ("sweep 9 79", "sweep 9 80"),
        ("sweep 8", "sweep 9"),
        ("counted 0 3 1", "counted 0 1 3"),
        ("counted 0 3 1", "counted 0 3"),
        ("counted 0 3 1", "counted 0 3 1 0"),
        ("counted 22", "counted 21"),
        ("counted 20", "counted 20 0"),
        ("count 9 80 300", "count 8 80 300"),
        ("derived 0 02", "derived 0 01"),
        ("derived 0 02", "derived 0 -"),
        ("derived 0 02", "derived 0 0202"),
        ("derived 23", "derived 21"),
        ("derive 7 80 4 0102", "derive 7 80 4 0002"),
        ("within 1 10", "within 1 9"),
        ("within 1 10", "within 0 10"),
        ("within 1 9", "within 1 10"),
        ("within 0 99", "within 1 99"),
        ("came 8 7", "came 8 8"),
        ("came 7 0 0 2", "came 7 0 0 3"),
        ("came 0 9 1 10 0 08", "came 0 9 1 10 0 09"),
    ] {
        expect(&right.replace(from, to));
        let output = bbhost(&arguments, b"");
        assert_eq!(output.status.code(), Some(1), "{from}");
        assert!(text(&output.stdout).contains("DIFFERS"), "{from}");
    }
    assert!(fs::read_to_string(&counts).unwrap().starts_with("jobs 29\ndifferences 27\n"));
    for unreadable in [
        "work many\n".to_owned(),
        format!("{right}swept 0 4 0\n"),
        format!("{right}sweep 9 80\n"),
        format!("{right}count 9 80\ncounted 0\n"),
        format!("{right}derive 7 80 4 012\nderived 0 02\n"),
        format!("{right}derive 7 80 4\nderived 23 -\n"),
        format!("{right}within 1 1\ncame 0 0 0 0 \n"),
        format!("{right}within 1\ncame 0 0 0 0 0 \n"),
    ] {
        expect(&unreadable);
        assert_eq!(status(&arguments, b""), 2, "{unreadable}");
    }
    fs::remove_file(folder.join("00000.expect")).unwrap();
    assert_eq!(status(&arguments, b""), 2);
}
