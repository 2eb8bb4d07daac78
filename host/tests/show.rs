//! A job in text: `bbhost show`, and `bbhost check --explain`.
mod page;
mod run;

use bitblast_host::{
    jobs::{self, CONG, FALSE, JobWriter, Kind, SYMM, TRUE, Term},
    rng::Rng,
    words::RULES,
};
use page::{page, table};
use run::{bbhost, text};
use std::{fs, path::Path};

fn show(job: &[u8], status: i32) -> String {
    let output = bbhost(&["show", "-"], job);
    assert_eq!(output.status.code(), Some(status), "{}", text(&output.stdout));
    text(&output.stdout).to_owned()
}

/// What `check --explain` prints below the steps: all lines but the rows of the table.
fn explained(job: &[u8]) -> Vec<String> {
    let output = bbhost(&["check", "--explain", "-"], job);
    assert_eq!(output.status.code(), Some(1), "{}", text(&output.stdout));
    let lines = text(&output.stdout).lines().filter_map(|line| line.strip_prefix("         "));
    lines.map(str::to_owned).collect()
}

/// The text behind a word.
fn after<'a>(lines: &'a [String], word: &str) -> Vec<&'a str> {
    lines.iter().filter_map(|line| line.strip_prefix(word)).map(str::trim).collect()
}

#[test]
fn records_with_their_places() {
    let mut job = JobWriter::new();
    let x = job.bv_var(1, 7);
    let bits = job.circuit(2, x);
    job.claim(2, x, bits);
    let turned = job.term(Kind::Equals, &[bits, x]);
    job.chain(SYMM, &[1], turned);
    job.step(1, &[TRUE, FALSE]);
    job.back(3);
    let job = [&job.finish()[..], &[6, 0, 11, 0, 1, 0, 7, 0, 2, 0, 99, 0, 0]].concat();
    let said = "-: 95 bytes
 record   offset
      1        0  term 2: x7w1
      2        8  term 3: ((_ @bit_of 0) x7w1)
      3       16  term 4: (@bbterm ((_ @bit_of 0) x7w1))
      4       22  term 5: (= x7w1 (@bbterm ((_ @bit_of 0) x7w1)))
      5       30  step 1, var, code 0: (= x7w1 (@bbterm ((_ @bit_of 0) x7w1)))
      6       38  term 6: (= (@bbterm ((_ @bit_of 0) x7w1)) x7w1)
      7       46  step 2, symm, code 0 from 1: (= (@bbterm ((_ @bit_of 0) x7w1)) x7w1)
      8       58  step 3, value, code 10: true  false
      9       68  back to 3 terms
     10       74  again term 2: x7w1
     11       82  STOPS THE JOB (code 4): the record's kind is unknown: 02 00 63 00
";
    assert_eq!(show(&job, 1), said.replace("95 bytes", &format!("{} bytes", job.len())));
    assert!(show(&jobs::specimen()[..69], 1).ends_with("STOPS THE JOB (code 3): the record is cut: just one byte is left, or its length is below 2 or beyond the job's end: 06 00 64 00 09 00 09\n"));
    assert_eq!(show(b"", 0), "-: 0 bytes\n record   offset\n");
}

/// The examples of docs/FORMAT.md say the terms that stand beside them.
#[test]
fn every_kind_has_a_text() {
    let page = page("FORMAT.md");
    for row in table(&page, &["kind", "name", "job", "its last term"]) {
        let job: Vec<u8> =
            row["job"].trim_matches('`').split(' ').map(|b| u8::from_str_radix(b, 16).unwrap()).collect();
        let shown = show(&job, 0);
        let last = shown.trim_end().rsplit_once(": ").unwrap().1;
        assert_eq!(last, row["its last term"].trim_matches('`'));
    }
}

/// Terms are cut, so that no line is long, and what is cut is named.
#[test]
fn long_terms_are_cut() {
    for (rule, width) in [(25, 12), (11, 16), (20, 64)] {
        let shown = show(&jobs::right_claim(rule, width), 0);
        assert!(shown.lines().all(|line| line.len() < 700));
        assert!(shown.lines().last().unwrap().contains(" t"), "{}", shown.lines().last().unwrap());
    }
}

/// Under every rule that answers 16 to a variable in place of the circuit: the expected term is the rule's circuit.
#[test]
fn expected_terms() {
    for rule in (2..=RULES.len() as u16).filter(|rule| ![15, 16, 23].contains(rule)) {
        let mut job = JobWriter::new();
        let left = job.left_side(rule, 3);
        let right = job.circuit(rule, left);
        job.claim(rule, left, right);
        let place = job.number(right);
        let other = match job.width(left) {
            0 => job.bool_var(9),
            width => job.bv_var(width, 9),
        };
        job.claim(rule, left, other);
        let job = job.finish();
        let shown = show(&job, 0);
        let circuit = shown.lines().find_map(|line| line.split_once(&format!("  term {place}: "))).unwrap().1;
        let lines = explained(&job);
        assert_eq!(after(&lines, "expected"), [circuit], "rule {rule}");
        let claimed = after(&lines, "claimed")[0];
        assert_eq!(after(&lines, "differs"), [format!("at the top: {claimed} where {circuit} is expected")]);
    }
}

#[test]
fn the_first_difference() {
    let mut job = JobWriter::new();
    let (x, y) = (job.bv_var(1, 0), job.bv_var(1, 1));
    let (x0, y0) = (job.bit(0, x), job.bit(0, y));
    let not = job.term(Kind::Not, &[y0]);
    let (left, right) = (job.term(Kind::BvSLt, &[x, y]), job.term(Kind::And, &[x0, x0]));
    job.claim(9, left, right);
    let both = job.term(Kind::And, &[not, x0, x0]);
    job.claim(9, left, both);
    let lines = explained(&job.finish());
    let (x0, not) = ("((_ @bit_of 0) x0w1)", "(not ((_ @bit_of 0) x1w1))");
    let said = [
        "record 7, byte 48".to_owned(),
        "left      (bvslt x0w1 x1w1)".to_owned(),
        format!("claimed   (and {x0} {x0})"),
        format!("expected  (and {x0} {not})"),
        format!("differs   in argument 2 of and: {x0} where {not} is expected"),
    ];
    assert_eq!(lines[..5], said);
    assert_eq!(after(&lines, "differs")[1], format!("in argument 1 of and: {not} where {x0} is expected"));
    assert_eq!(after(&lines, "record").len(), 2);
}

/// One gate deep in a wide circuit is another: the way down to it is named, and cut where it is long.
#[test]
fn a_difference_deep_below() {
    let mut job = JobWriter::new();
    let left = job.left_side(10, 64);
    let right = job.circuit(10, left);
    let wrong = with_other_leaf(&mut job, right, 0);
    job.claim(10, left, wrong);
    let lines = explained(&job.finish());
    let differs = after(&lines, "differs")[0];
    let start = "in bit 63, in argument 1 of xor, in argument 1 of xor: true where ((_ @bit_of 63) x0w64) is expected";
    assert_eq!(differs, start);

    let mut job = JobWriter::new();
    let left = job.left_side(8, 64);
    let right = job.circuit(8, left);
    let wrong = with_other_leaf(&mut job, right, 1);
    job.claim(8, left, wrong);
    let lines = explained(&job.finish());
    let differs = after(&lines, "differs")[0];
    assert!(
        differs.starts_with("in argument 1 of or, in argument 2 of and, in argument 1 of or, in argument 2 of and, "),
        "{differs}"
    );
    assert!(
        differs.ends_with(" where ((_ @bit_of 0) x1w64) is expected") && differs.contains(" deeper, in "),
        "{differs}"
    );
    assert!(lines.iter().all(|line| line.len() < 700));
}

/// The term with `true` at the end of a way down: the first argument, or the second where there is one, but of a BvBbTerm the last.
fn with_other_leaf(job: &mut JobWriter, term: Term, way: usize) -> Term {
    let Some(node) = job.node(term).filter(|node| node.kind != Kind::BvBitOf) else { return TRUE };
    let mut arguments = node.arguments.clone();
    let k = match node.kind {
        Kind::BvBbTerm => arguments.len() - 1,
        // The lower bits stand in an Or's first argument.
        Kind::Or => 0,
        _ => way.min(arguments.len() - 1),
    };
    arguments[k] = with_other_leaf(job, arguments[k], way);
    job.term(node.kind, &arguments)
}

#[test]
fn values() {
    let mut job = JobWriter::new();
    let (value, b) = (job.constant(2, 1), job.bool_var(0));
    for wrong in [[FALSE, TRUE], [TRUE, b]] {
        let bits = job.term(Kind::BvBbTerm, &wrong);
        job.claim(1, value, bits);
    }
    let lines = explained(&job.finish());
    assert_eq!(after(&lines, "expected"), ["(@bbterm true false)"; 2]);
    assert_eq!(
        after(&lines, "differs"),
        ["in bit 0: false where true is expected", "in bit 1: b0 where false is expected"]
    );
}

#[test]
fn slices() {
    let mut job = JobWriter::new();
    let left = job.left_side(23, 4);
    let right = job.circuit(23, left);
    let mut slices = job.node(right).unwrap().arguments.clone();
    slices.reverse();
    let turned = job.term(Kind::BvConcat, &slices);
    job.claim(23, left, turned);
    let (low, operands) = (slices[0], job.node(slices[1]).unwrap().arguments.clone());
    let swapped = job.term(Kind::BvAnd, &[operands[1], operands[0]]);
    let wrong = job.term(Kind::BvConcat, &[swapped, low]);
    job.claim(23, left, wrong);
    let lines = explained(&job.finish());
    let first = "in argument 1 of concat, in argument 1 of bvand: ";
    let said = [
        format!("{first}((_ extract 1 0) x0w4) where ((_ extract 3 0) x0w4) is expected"),
        "in argument 1 of concat, in argument 1 of bvand, in argument 1 of extract: x1w4 where x0w4 is expected"
            .to_owned(),
    ];
    assert_eq!(after(&lines, "differs"), said);
}

#[test]
fn chains() {
    let mut job = JobWriter::new();
    let x = job.bv_var(1, 0);
    let bits = job.circuit(2, x);
    job.claim(2, x, bits);
    let same = job.term(Kind::Equals, &[x, x]);
    job.chain(CONG, &[1, 9, 0], same);
    job.step(2, &[]);
    let lines = explained(&job.finish());
    assert_eq!(after(&lines, "literal"), ["(= x0w1 x0w1)"]);
    let first = "step 1: (= x0w1 (@bbterm ((_ @bit_of 0) x0w1)))";
    assert_eq!(after(&lines, "premise"), [first, "there is no earlier step 9", "there is no earlier step 0"]);
    assert_eq!(after(&lines, "record").len(), 2);
}

/// A step that claims the circuit of another left side.
fn nearly_right(rng: &mut Rng) -> Vec<u8> {
    let mut job = JobWriter::new();
    let (rule, width) = (rng.range(1, RULES.len()) as u16, rng.range(1, 5));
    let (left, other) = (job.random_left_side(rule, width, rng), job.random_left_side(rule, width, rng));
    let right = job.circuit(rule, other);
    job.claim(rule, left, right);
    job.finish()
}

/// Nearly right, damaged and random jobs, all shown and explained.
#[test]
fn jobs_of_all_sorts() {
    let folder = Path::new(env!("CARGO_TARGET_TMPDIR")).join("sorts");
    fs::create_dir_all(&folder).unwrap();
    let mut rng = Rng::new(9);
    let mut files = Vec::new();
    for k in 0..600 {
        let mut job = if k % 3 == 0 { nearly_right(&mut rng) } else { jobs::random_right(&mut rng).0 };
        match k % 3 {
            0 => {}
            1 => (0..rng.range(1, 3)).for_each(|_| jobs::damage(&mut job, &mut rng)),
            _ => jobs::random_bytes(&mut job, &mut rng),
        }
        let file = folder.join(format!("{k}.job"));
        fs::write(&file, job).unwrap();
        files.push(file.to_str().unwrap().to_owned());
    }
    let names: Vec<&str> = files.iter().map(String::as_str).collect();
    let shown = bbhost(&[&["show"], &names[..]].concat(), b"");
    assert_eq!(shown.status.code(), Some(1), "{}", text(&shown.stderr));
    let explained = bbhost(&[&["check", "--explain"], &names[..]].concat(), b"");
    assert_eq!(explained.status.code(), Some(1), "{}", text(&explained.stderr));
    let differences = text(&explained.stdout).matches(" is expected\n").count();
    assert!(differences > 100, "{differences} differences");
}

#[test]
fn what_is_no_job() {
    let said = |input: &[u8]| {
        let (table, json) = (bbhost(&["check", "-"], input), bbhost(&["check", "--json", "-"], input));
        assert_eq!((table.status.code(), json.status.code()), (Some(1), Some(1)));
        let looks =
            text(&table.stdout).trim_end().rsplit_once("; this looks like ").map_or("", |(_, what)| what).to_owned();
        let kind = looks.strip_suffix(", not like a job").map_or("null".to_owned(), |kind| format!("\"{kind}\""));
        assert!(text(&json.stdout).contains(&format!("\"looks_like\":{kind},")), "{}", text(&json.stdout));
        looks
    };
    assert_eq!(said(b"(set-logic QF_BV)\n"), "text, not like a job");
    assert_eq!(said("06 00 0B 00 \u{b5}\r\n".repeat(1000).as_bytes()), "text, not like a job");
    // The look ends within a character.
    assert_eq!(said("\u{20ac}".repeat(20_000).as_bytes()), "text, not like a job");
    assert_eq!(said(b" ".repeat(16_777_217).as_slice()), "text, not like a job");
    assert_eq!(said(&[0x1F, 0x8B, 8, 0, 0]), "gzip, not like a job");
    assert_eq!(said(&[0x66, 0x66, 0]), "");
    assert_eq!(said(&[0xFF, 0x80, 0x80]), "");
    // A job that stops later is a job.
    assert_eq!(said(&[&jobs::specimen()[..], b"aaaa"].concat()), "");
}
