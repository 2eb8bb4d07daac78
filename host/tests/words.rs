//! Kinds, rules and codes are the same in Rust, in include/bitblast.h and in docs/FORMAT.md; tests/format.rs compares that page with the library.
mod page;

use bitblast_host::{AnswerCode, Kind, Rule, StopCode, jobs::JobWriter, words::Unknown};
use page::{Row, page, table};
use std::{fs, path::Path};

/// Numbers and names, in their order.
type Names = Vec<(u32, String)>;

/// The names of the header that begin so, without that beginning.
fn header(prefix: &str) -> Names {
    let text = fs::read_to_string(Path::new(env!("CARGO_MANIFEST_DIR")).join("../include/bitblast.h")).unwrap();
    let name = |line: &str| {
        let (name, rest) = line.trim().strip_prefix(prefix)?.split_once(" = ")?;
        let digits = rest.find(|c: char| !c.is_ascii_digit()).map_or(rest, |end| &rest[..end]);
        Some((digits.parse().ok()?, name.to_owned()))
    };
    text.lines().filter_map(name).collect()
}

fn names(rows: &[Row], number: &str) -> Names {
    rows.iter().map(|row| (row[number].parse().unwrap(), row["name"].clone())).collect()
}

fn capitals(names: &Names) -> Names {
    names.iter().map(|(number, name)| (*number, name.to_uppercase())).collect()
}

#[test]
fn kinds() {
    let page = page("FORMAT.md");
    let terms = table(&page, &["kind", "name", "body", "arguments", "result", "limits"]);
    let others = table(&page, &["kind", "name", "body", "does"]);
    let said = [names(&terms, "kind"), names(&others, "kind")].concat();
    let rust: Names = Kind::ALL.iter().map(|kind| (kind.number().into(), kind.to_string())).collect();
    assert_eq!((&rust, capitals(&rust)), (&said, header("BB_KIND_")));
    for number in 0..=u16::MAX {
        let known = said.iter().any(|(n, _)| *n == u32::from(number));
        assert_eq!(
            Kind::try_from(number).map(Kind::number),
            if known { Ok(number) } else { Err(Unknown(number.into())) }
        );
    }
}

#[test]
fn rules() {
    let page = page("FORMAT.md");
    let steps = table(&page, &["rule", "name", "left side", "right side"]);
    let chains = table(&page, &["rule", "name", "premises", "literal"]);
    let said = [names(&steps, "rule"), names(&chains, "rule")].concat();
    let rust: Names = Rule::ALL.iter().map(|rule| (rule.number().into(), rule.to_string())).collect();
    assert_eq!((&rust, capitals(&rust)), (&said, header("BB_RULE_")));
    for (row, rule) in steps.iter().zip(Rule::ALL) {
        assert_eq!(row["left side"], rule.words());
        // The kind of a left side that the library accepts (tests/writer.rs).
        let mut job = JobWriter::new();
        let left = job.left_side(rule.number(), 2);
        let kind = job.node(left).unwrap().kind;
        assert!(rule.words() == kind.name() || *rule == Rule::Var, "{rule} has {kind}");
    }
    assert_eq!(
        (Rule::try_from(0), Rule::try_from(33), Rule::try_from(34)),
        (Err(Unknown(0)), Ok(Rule::Cong), Err(Unknown(34)))
    );
}

#[test]
fn codes() {
    let page = page("FORMAT.md");
    let stops = table(&page, &["stop", "name", "says", "example", "lent", "records", "terms"]);
    let rust: Names = StopCode::ALL.iter().map(|code| (code.number(), code.name().to_owned())).collect();
    assert_eq!((&rust, capitals(&rust)), (&names(&stops, "stop"), header("BB_STOP_")));
    assert!(stops.iter().map(|row| row["says"].clone()).eq(StopCode::ALL.iter().map(ToString::to_string)));
    let answers = table(&page, &["answer", "name", "says", "example", "rule code depth"]);
    let rust: Names = AnswerCode::ALL.iter().map(|code| (code.number().into(), code.name().to_owned())).collect();
    assert_eq!((&rust, capitals(&rust)), (&names(&answers, "answer"), header("BB_ANSWER_")));
    assert!(answers.iter().map(|row| row["says"].clone()).eq(AnswerCode::ALL.iter().map(ToString::to_string)));
    assert_eq!((StopCode::try_from(1), AnswerCode::try_from(2)), (Err(Unknown(1)), Err(Unknown(2))));
    assert_eq!(Unknown(1).to_string(), "nothing has the number 1");
}
