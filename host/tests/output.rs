//! What `bbhost check` prints for programs is what docs/OUTPUT.md says, field by field.
mod json;
mod page;
mod run;

use bitblast_host::jobs;
use json::{Value, parse};
use page::{page, table};
use run::{bbhost, text};
use std::{
    fs,
    path::Path,
    time::{Duration, Instant},
};

/// The fields and types that the page has for some object.
fn fields(page: &str, of: &str) -> Vec<(String, String)> {
    let first = format!("field of {of}");
    let rows = table(page, &[&first, "type", "what it is"]);
    rows.into_iter().map(|row| (row[&first].clone(), row["type"].clone())).collect()
}

fn has_type(value: &Value, name: &str) -> bool {
    name.split(" or ").any(|name| match value {
        Value::Null => name == "null",
        Value::Bool(value) => name == value.to_string(),
        Value::Number(_) => name == "number",
        Value::Text(_) => name == "text",
        Value::List(_) => name == "list",
        Value::Object(_) => name == "object",
    })
}

/// The object has exactly these fields, in their order and of their types.
fn hold(value: &Value, fields: &[(String, String)]) {
    let members = members(value);
    assert!(members.iter().map(|(name, _)| name).eq(fields.iter().map(|(name, _)| name)), "{members:?}\n{fields:?}");
    for ((name, value), (_, type_name)) in members.iter().zip(fields) {
        assert!(has_type(value, type_name), "{name} is {value:?}, not {type_name}");
    }
}

fn members(value: &Value) -> &[(String, Value)] {
    let Value::Object(members) = value else { panic!("no object: {value:?}") };
    members
}

fn get<'a>(value: &'a Value, name: &str) -> &'a Value {
    &members(value).iter().find(|(member, _)| member == name).unwrap_or_else(|| panic!("no {name}")).1
}

fn list(value: &Value) -> &[Value] {
    let Value::List(values) = value else { panic!("no list: {value:?}") };
    values
}

/// The object of a file, of either sort, with what is in it.
fn hold_file(page: &str, file: &Value, before: &[(String, String)]) {
    if members(file).iter().any(|(name, _)| name == "error") {
        return hold(file, &[before, &fields(page, "a file without an answer")].concat());
    }
    hold(file, &[before, &fields(page, "a file")].concat());
    assert_eq!(get(file, "answers"), &Value::Number(list(get(file, "steps")).len() as u64));
    list(get(file, "steps")).iter().for_each(|step| hold(step, &fields(page, "a step")));
}

/// Files of all sorts: held, form only, refused, stopped, none, too long, text, missing.
fn files(folder: &str) -> Vec<String> {
    let folder = Path::new(env!("CARGO_TARGET_TMPDIR")).join(folder);
    fs::create_dir_all(&folder).unwrap();
    let specimen = jobs::specimen();
    let mut refused = specimen.clone();
    refused[66] = 8;
    let jobs: [(&str, &[u8]); 7] = [
        ("held.job", &specimen),
        ("form only.job", &jobs::right_claim(21, 3)),
        ("refused.job", &refused),
        ("stopped \"here\".job", &[&specimen[..], &[2, 0, 99, 0]].concat()),
        ("empty.job", b""),
        ("long.job", &vec![0; 16_777_217]),
        ("text.job", b"(check-sat)\n"),
    ];
    let file = |name: &str| folder.join(name).to_str().unwrap().to_owned();
    jobs.iter().for_each(|(name, job)| fs::write(file(name), job).unwrap());
    jobs.iter().map(|(name, _)| *name).chain(["missing.job"]).map(file).collect()
}

#[test]
fn both_forms_have_the_fields_of_the_page() {
    let page = page("OUTPUT.md");
    let files = files("forms");
    let names: Vec<&str> = files.iter().map(String::as_str).collect();
    let one = bbhost(&[&["check", "--json"], &names[..]].concat(), b"");
    let one = parse(text(&one.stdout));
    hold(&one, &fields(&page, "the output"));
    hold(get(&one, "tally"), &fields(&page, "the tally"));
    for (k, file) in list(get(&one, "files")).iter().enumerate() {
        hold_file(&page, file, &[]);
        let said = (get(file, "place"), get(file, "file"), get(file, "all_held"));
        assert_eq!(said, (&Value::Number(k as u64 + 1), &Value::Text(files[k].clone()), &Value::Bool(k == 0)));
    }

    let lines = bbhost(&[&["check", "--jsonl"], &names[..]].concat(), b"");
    assert_eq!(lines.status.code(), Some(2));
    let lines: Vec<Value> = text(&lines.stdout).lines().map(parse).collect();
    let schema = [("schema".to_owned(), "number".to_owned())];
    let (last, of_files) = lines.split_last().unwrap();
    hold(last, &fields(&page, "the last line"));
    assert!(of_files.iter().chain([last, &one]).all(|value| get(value, "schema") == &Value::Number(1)));
    of_files.iter().for_each(|file| hold_file(&page, file, &schema));
    // Both say the same.
    let pairs = of_files.iter().zip(list(get(&one, "files")));
    pairs.for_each(|(line, file)| assert_eq!(&members(line)[1..], members(file)));
    assert_eq!(of_files.len(), files.len());
    assert_eq!(get(last, "tally"), get(&one, "tally"));
}

#[test]
fn what_the_files_say() {
    let files = files("said");
    let names: Vec<&str> = files.iter().map(String::as_str).collect();
    let one = parse(text(&bbhost(&[&["check", "--json"], &names[..]].concat(), b"").stdout));
    let file = |k: usize| &list(get(&one, "files"))[k];
    let verdict = |k: usize| get(&list(get(file(k), "steps"))[0], "verdict");
    let word = |word: &str| Value::Text(word.to_owned());
    assert_eq!([verdict(0), verdict(1), verdict(2)], [&word("held"), &word("form only"), &word("refused")]);
    let stop = |k: usize| (get(file(k), "stop"), get(file(k), "stop_name"), get(file(k), "stop_offset"));
    assert_eq!(stop(0), (&Value::Number(0), &word("end"), &Value::Null));
    assert_eq!(stop(3), (&Value::Number(4), &word("unknown_kind"), &Value::Number(70)));
    assert_eq!(stop(5).1, &word("too_long"));
    assert_eq!((get(file(4), "bytes"), get(file(5), "bytes")), (&Value::Number(0), &Value::Null));
    assert_eq!((get(file(3), "looks_like"), get(file(6), "looks_like")), (&Value::Null, &word("text")));
    assert_eq!(get(file(7), "error_kind"), &word("unreadable"));
}

/// Divisions of width 64, which take milliseconds each: seconds together.
fn slow_job() -> Vec<u8> {
    jobs::right_claims(21, 64, 3_000)
}

/// A job that takes too long has no answer; the files beside it have theirs.
#[test]
fn a_job_that_is_ended() {
    let page = page("OUTPUT.md");
    let files = files("ended");
    let slow = Path::new(env!("CARGO_TARGET_TMPDIR")).join("ended").join("slow.job");
    fs::write(&slow, slow_job()).unwrap();
    let begun = Instant::now();
    let output = bbhost(&["check", "--json", "--timeout", "0.5", slow.to_str().unwrap(), &files[0]], b"");
    assert!(begun.elapsed() < Duration::from_secs(5), "{:?}", begun.elapsed());
    assert_eq!(output.status.code(), Some(3));
    assert!(text(&output.stderr).ends_with("slow.job: no answer within 0.5 s; the check was ended\n"));
    let one = parse(text(&output.stdout));
    let (ended, held) = (&list(get(&one, "files"))[0], &list(get(&one, "files"))[1]);
    hold_file(&page, ended, &[]);
    hold_file(&page, held, &[]);
    assert_eq!(get(ended, "error_kind"), &Value::Text("timeout".to_owned()));
    assert_eq!((get(held, "all_held"), get(&one, "all_held")), (&Value::Bool(true), &Value::Bool(false)));
    assert_eq!(
        (get(get(&one, "tally"), "jobs"), get(get(&one, "tally"), "held")),
        (&Value::Number(1), &Value::Number(1))
    );
}

/// A check in a process of its own says what a check in this one says.
#[test]
fn checks_in_a_process_of_its_own() {
    let files = files("own");
    let names: Vec<&str> = files.iter().map(String::as_str).collect();
    for form in [&["--json"][..], &["--jsonl"], &["--explain"], &["-q"], &["--work", "63"], &["--answers", "9"]] {
        let here = bbhost(&[&["check"], form, &names[..]].concat(), b"");
        let there = bbhost(&[&["check", "--timeout", "600"], form, &names[..]].concat(), b"");
        assert_eq!((here.status, text(&here.stdout)), (there.status, text(&there.stdout)), "{form:?}");
    }
}

/// The example of the page is what is printed, and the exit statuses are those that it lists.
#[test]
fn the_example_and_the_statuses() {
    let page = page("OUTPUT.md");
    let printed = bbhost(&["check", "--jsonl", "-"], &jobs::specimen());
    let example: Vec<&str> = page.lines().filter_map(|line| line.strip_prefix("    {")).collect();
    let lines: Vec<&str> = text(&printed.stdout).lines().filter_map(|line| line.strip_prefix('{')).collect();
    assert_eq!((lines, example.len()), (example, 2));
    let statuses: Vec<String> = table(&page, &["status", "says"]).iter().map(|row| row["status"].clone()).collect();
    let status = |arguments: &[&str], job: &[u8]| bbhost(arguments, job).status.code().unwrap().to_string();
    let found = [
        status(&["check", "-q", "-"], &jobs::specimen()),
        status(&["check", "-q", "-"], b""),
        status(&["check", "-q", "no-such-file"], b""),
        status(&["check", "-q", "--timeout", "0.3", "-"], &slow_job()),
    ];
    assert_eq!(statuses, found);
}
