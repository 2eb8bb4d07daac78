//! The JSON that `bbhost check` prints, by hand. docs/OUTPUT.md has every field.
use super::{
    Checked,
    looks::looks_like,
    reader::{Record, records},
};
use bitblast_host::{Answer, MAX_JOB_BYTES, StopCode, Tally};

/// The number of docs/OUTPUT.md's list of fields.
const SCHEMA: u32 = 1;

/// A string with its quotes.
pub fn string(text: &str) -> String {
    let mut out = String::from('"');
    for c in text.chars() {
        match c {
            '"' => out.push_str("\\\""),
            '\\' => out.push_str("\\\\"),
            '\n' => out.push_str("\\n"),
            '\t' => out.push_str("\\t"),
            c if c < ' ' => out.push_str(&format!("\\u{:04x}", u32::from(c))),
            c => out.push(c),
        }
    }
    out.push('"');
    out
}

/// An object of fields in their order.
fn object(fields: &[(&str, String)]) -> String {
    let fields: Vec<String> = fields.iter().map(|(name, value)| format!("{}:{value}", string(name))).collect();
    format!("{{{}}}", fields.join(","))
}

fn or_null(value: Option<String>) -> String {
    value.unwrap_or_else(|| "null".to_owned())
}

/// How the one object of `--json` begins; [`end`] ends it.
pub fn begin() -> String {
    format!("{{\"schema\":{SCHEMA},\"files\":[")
}

/// What stands behind the files in the one object of `--json`.
pub fn end(tally: Tally, all_held: bool) -> String {
    format!("],{}", &object(&sum(tally, all_held))[1..])
}

/// The last line of `--jsonl`.
pub fn last_line(tally: Tally, all_held: bool) -> String {
    line(sum(tally, all_held))
}

/// A line of `--jsonl`.
pub fn line(fields: Vec<(&str, String)>) -> String {
    object(&[vec![("schema", SCHEMA.to_string())], fields].concat())
}

/// An object of `--json`, with each step in a line of its own.
pub fn lines(fields: &[(&str, String)]) -> String {
    object(fields).replace("{\"step\":", "\n{\"step\":")
}

fn sum(tally: Tally, all_held: bool) -> Vec<(&'static str, String)> {
    let Tally { jobs, held, form_only, refused, .. } = tally;
    let counts = [("jobs", jobs), ("held", held), ("form_only", form_only), ("refused", refused)];
    let tally = object(&counts.map(|(name, count)| (name, count.to_string())));
    vec![("tally", tally), ("all_held", all_held.to_string())]
}

/// A file whose job was checked.
pub fn checked(checked: &Checked) -> Vec<(&'static str, String)> {
    let Checked { place, name, job, report, success, .. } = *checked;
    let outcome = report.outcome();
    let stopping = records(job).nth(outcome.records as usize).filter(|_| outcome.stop != 0);
    let answered = report.answers().zip(records(job).filter(Record::is_step));
    let steps: Vec<String> = answered.map(|(answer, record)| step(&answer, record)).collect();
    vec![
        ("place", place.to_string()),
        ("file", string(name)),
        // Of a longer file not all is read.
        ("bytes", or_null((job.len() <= MAX_JOB_BYTES).then(|| job.len().to_string()))),
        ("stop", outcome.stop.to_string()),
        ("stop_name", string(StopCode::try_from(outcome.stop).map_or("unknown", StopCode::name))),
        ("stop_meaning", string(report.stop_meaning())),
        ("stop_offset", or_null(stopping.map(|record| record.offset.to_string()))),
        ("looks_like", or_null(looks_like(job, report).map(string))),
        ("records", outcome.records.to_string()),
        ("answers", outcome.answers.to_string()),
        ("terms", outcome.terms.to_string()),
        ("repeats", outcome.repeats.to_string()),
        ("number_bytes", report.format().number_bytes().to_string()),
        ("all_held", success.to_string()),
        ("steps", format!("[{}]", steps.join(","))),
    ]
}

fn step(answer: &Answer, record: Record) -> String {
    object(&[
        ("step", answer.step.to_string()),
        ("record", record.place.to_string()),
        ("offset", record.offset.to_string()),
        ("rule", answer.rule.to_string()),
        ("name", string(answer.rule_name())),
        ("verdict", string(&answer.verdict().to_string())),
        ("code", answer.code.to_string()),
        ("meaning", string(answer.meaning())),
        ("depth", answer.depth.to_string()),
    ])
}

/// A file of which there is no answer.
pub fn failed(place: usize, name: &str, kind: &str, error: &str) -> Vec<(&'static str, String)> {
    vec![
        ("place", place.to_string()),
        ("file", string(name)),
        ("error", string(error)),
        ("error_kind", string(kind)),
        ("all_held", false.to_string()),
    ]
}

#[cfg(test)]
mod tests {
    #[test]
    fn strings_are_escaped() {
        assert_eq!(super::string("a \"b\"\\\n\t\r\u{1}é"), "\"a \\\"b\\\"\\\\\\n\\t\\u000d\\u0001é\"");
    }
}
