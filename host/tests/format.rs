//! docs/FORMAT.md is true: records are written from its tables alone, right and wrong ones, and every job in hex on it is run.
mod page;

use bitblast_host::{Answers, Format, Limits, Outcome, rng::Rng, run_job, run_job_within};
use page::{Row, page, table};
use std::collections::{BTreeMap, HashMap};

const PLENTY: usize = 1 << 16;

// What the page says

/// A part of a record's body.
#[derive(Clone)]
enum Part {
    /// A number of two bytes, by its name.
    Number(String),
    /// The number of terms that a back leaves, of as many bytes as a term's number.
    Terms,
    /// The number of eight bytes.
    Value,
    /// From so many to so many arguments.
    Arguments(usize, usize),
    /// Premises, as many as the number of that name says.
    Premises(String),
}

/// A kind of records.
struct Kind {
    number: u16,
    name: String,
    parts: Vec<Part>,
    row: Row,
}

fn part(text: &str) -> Part {
    match text.split(' ').collect::<Vec<_>>()[..] {
        ["A"] => Part::Arguments(1, 1),
        ["A", "×", low, "to", high] => Part::Arguments(low.parse().unwrap(), high.parse().unwrap()),
        ["premise", "×", name] => Part::Premises(name.to_owned()),
        ["value"] => Part::Value,
        ["terms"] => Part::Terms,
        [name] => Part::Number(name.to_owned()),
        _ => panic!("a body has no part {text}"),
    }
}

/// The parts of a body; arguments that stand one after the other are one part.
fn parts(body: &str) -> Vec<Part> {
    let mut parts: Vec<Part> = Vec::new();
    for text in body.split(", ").filter(|text| *text != "none") {
        match (part(text), parts.last_mut()) {
            (Part::Arguments(low, high), Some(Part::Arguments(lows, highs))) => {
                (*lows, *highs) = (*lows + low, *highs + high);
            }
            (part, _) => parts.push(part),
        }
    }
    parts
}

fn kinds(rows: Vec<Row>) -> Vec<Kind> {
    let kind = |row: Row| Kind {
        number: row["kind"].parse().unwrap(),
        name: row["name"].clone(),
        parts: parts(&row["body"]),
        row,
    };
    rows.into_iter().map(kind).collect()
}

fn term_kinds(page: &str) -> Vec<Kind> {
    kinds(table(page, &["kind", "name", "body", "arguments", "result", "limits"]))
}

fn other_kinds(page: &str) -> Vec<Kind> {
    kinds(table(page, &["kind", "name", "body", "does"]))
}

/// The kind that stands first or not at all.
const FIRST: &str = "FourBytes";

/// The lengths of numbers, memory and answers of both formats, by the first record that says so.
fn formats(page: &str) -> Vec<PageFormat> {
    let rows = table(page, &["first record", "term number", "kept term", "answer", "depth", "most terms"]);
    let format = |row: &Row| {
        let number = |column: &str| row[column].replace(',', "").parse().unwrap();
        let start = if row["first record"].starts_with('`') { bytes(&row["first record"]) } else { vec![] };
        let [number_bytes, term_bytes] = ["term number", "kept term"].map(number);
        let [answer_bytes, depth_bytes, most] = ["answer", "depth", "most terms"].map(number);
        assert_eq!(answer_bytes, 8 + depth_bytes);
        PageFormat { start, number_bytes, term_bytes, answer_bytes, most }
    };
    rows.iter().map(format).collect()
}

/// What the page says of a format.
#[derive(Clone)]
struct PageFormat {
    start: Vec<u8>,
    number_bytes: usize,
    term_bytes: usize,
    answer_bytes: usize,
    most: usize,
}

impl PageFormat {
    fn number(&self, number: u32) -> Vec<u8> {
        number.to_le_bytes()[..self.number_bytes].to_vec()
    }
}

/// The host's own table of both formats.
#[test]
fn both_formats() {
    let page = page("FORMAT.md");
    let formats = formats(&page);
    assert_eq!(formats.len(), 2);
    for said in formats {
        let format = Format::of(&said.start);
        let own = [format.number_bytes(), format.term_bytes(), format.answer_bytes(), format.max_terms()];
        assert_eq!(own, [said.number_bytes, said.term_bytes, said.answer_bytes, said.most]);
    }
}

fn numbers(rows: &[Row], column: &str) -> Vec<u16> {
    rows.iter().map(|row| row[column].parse().unwrap()).collect()
}

fn step_rules(page: &str) -> Vec<u16> {
    numbers(&table(page, &["rule", "name", "left side", "right side"]), "rule")
}

fn chain_rules(page: &str) -> Vec<u16> {
    numbers(&table(page, &["rule", "name", "premises", "literal"]), "rule")
}

/// The stop codes of a sort of records, in the order of their tests.
fn order(page: &str, record: &str) -> Vec<u32> {
    let rows = table(page, &["record", "stops", "answers"]);
    let row = rows.iter().find(|row| row["record"] == record).unwrap();
    row["stops"].split(", ").map(|code| code.parse().unwrap()).collect()
}

/// The value of names, numbers and powers, joined from the left.
fn evaluate(expression: &[&str], names: &BTreeMap<String, i128>) -> i128 {
    let operand = |text: &str| match text.strip_prefix("2^") {
        // Where the exponent is above 64, a width is wrong already.
        Some(name) => 1 << names[name].min(100),
        None => text.parse().unwrap_or_else(|_| names[text]),
    };
    let mut value = operand(expression[0]);
    for pair in expression[1..].chunks(2) {
        value = match pair[0] {
            "+" => value + operand(pair[1]),
            "-" => value - operand(pair[1]),
            "×" => value * operand(pair[1]),
            other => panic!("no operation {other}"),
        };
    }
    value
}

/// Whether a run of comparisons holds; an empty one does.
fn holds(limits: &str, names: &BTreeMap<String, i128>) -> bool {
    let words: Vec<&str> = limits.split(' ').collect();
    words.windows(3).step_by(2).all(|three| {
        let (left, right) = (evaluate(&three[..1], names), evaluate(&three[2..], names));
        match three[1] {
            "<" => left < right,
            "≤" => left <= right,
            other => panic!("no comparison {other}"),
        }
    })
}

/// The width of a kept term, none of a Bool.
type Sort = Option<i128>;

/// Whether the sorts of arguments are as the page's word says.
fn fit(word: &str, sorts: &[Sort]) -> bool {
    let alike = sorts.windows(2).all(|two| two[0] == two[1]);
    match word {
        "none" => sorts.is_empty(),
        "Bools" => sorts.iter().all(Option::is_none),
        "bit-vectors" => sorts.iter().all(Option::is_some),
        "one width" => alike && sorts.iter().all(Option::is_some),
        "one sort" => alike,
        _ => panic!("no arguments are {word}"),
    }
}

// Records written from it

/// A record, and the codes that the page has for it; the sort of its term where there are none.
struct Trial {
    bytes: Vec<u8>,
    faults: Vec<u32>,
    sort: Sort,
    /// The rule, of a step or chain.
    rule: u16,
    /// The terms that a back leaves.
    stay: usize,
}

/// A job that is being written, and what the page says of it so far.
struct Writer {
    rng: Rng,
    format: PageFormat,
    step_rules: Vec<u16>,
    chain_rules: Vec<u16>,
    job: Vec<u8>,
    records: u32,
    repeats: u32,
    /// The sorts and the records of the kept terms.
    kept: Vec<(Sort, Vec<u8>)>,
    /// The rules of the answered steps and chains.
    rules: Vec<u16>,
}

impl Writer {
    fn new(page: &str, format: &PageFormat, seed: u64) -> Self {
        Writer {
            rng: Rng::new(seed),
            format: format.clone(),
            step_rules: step_rules(page),
            chain_rules: chain_rules(page),
            job: format.start.clone(),
            records: u32::from(!format.start.is_empty()),
            repeats: 0,
            kept: vec![(None, vec![]), (None, vec![])],
            rules: Vec::new(),
        }
    }

    /// A number that often fits.
    fn number(&mut self) -> u16 {
        match self.rng.below(10) {
            0..5 => self.rng.below(9) as u16,
            5..9 => self.rng.below(70) as u16,
            _ => self.rng.number() as u16,
        }
    }

    /// How many arguments: as the page says, but for a few times.
    fn count(&mut self, low: usize, high: usize) -> usize {
        match self.rng.below(20) {
            0 => high + 1,
            1 => low.saturating_sub(1),
            2 => high,
            _ => self.rng.range(low, high.min(low + 3)),
        }
    }

    /// The number of a term that fits the page's word beside the arguments before it, but for a few times.
    fn argument(&mut self, word: &str, before: &[u32]) -> u32 {
        match self.rng.below(60) {
            0 => return self.beyond(),
            1..4 => return self.rng.below(self.kept.len()) as u32,
            _ => {}
        }
        let sort = |number: &u32| self.kept.get(*number as usize).map(|(sort, _)| *sort);
        let mut sorts: Vec<Sort> = before.iter().filter_map(sort).collect();
        let fitting: Vec<u32> = (0..self.kept.len() as u32)
            .filter(|number| {
                sorts.push(self.kept[*number as usize].0);
                let fits = fit(word, &sorts);
                sorts.pop();
                fits
            })
            .collect();
        if fitting.is_empty() { 0 } else { *self.rng.pick(&fitting) }
    }

    /// A number just beyond the kept terms', or one of which the two low bytes are some kept term's.
    fn beyond(&mut self) -> u32 {
        let high = [0, 1 << 16, 1 << 24][if self.format.number_bytes == 2 { 0 } else { self.rng.below(3) }];
        high | if high == 0 { self.kept.len() + self.rng.below(3) } else { self.rng.below(self.kept.len()) } as u32
    }

    /// Premises, as many as the record says but for a few times; code 5 where they are not, or there are not 1 to 64.
    fn premises(&mut self, said: i128, body: &mut Vec<u8>) -> Option<u32> {
        let count = if self.rng.chance(90) { said as usize % 70 } else { self.rng.below(5) };
        (0..count).for_each(|_| body.extend((self.rng.below(9) as u16).to_le_bytes()));
        (!(1..=64).contains(&said) || said != count as i128).then_some(5)
    }

    /// The least value that does not fit the width, or any.
    fn value(&mut self, width: i128) -> u64 {
        if self.rng.chance(30) { 1 << width.min(63) } else { self.rng.number() >> self.rng.below(64) }
    }

    /// A record of the kind, written part by part, and the faults that are the body's: a wrong length, arguments that are not kept.
    fn write(&mut self, kind: &Kind, word: &str) -> (Vec<u8>, Vec<u32>, BTreeMap<String, i128>, Vec<u32>) {
        let (mut body, mut faults) = (kind.number.to_le_bytes().to_vec(), Vec::new());
        let (mut names, mut arguments) = (BTreeMap::new(), Vec::new());
        for part in &kind.parts {
            match part {
                Part::Number(name) => {
                    let number = self.number();
                    names.insert(name.clone(), i128::from(number));
                    body.extend(number.to_le_bytes());
                }
                Part::Terms => {
                    let terms = if self.rng.chance(10) { self.beyond() } else { self.number().into() };
                    names.insert("terms".to_owned(), i128::from(terms));
                    body.extend(self.format.number(terms));
                }
                Part::Value => {
                    let value = self.value(names["width"]);
                    names.insert("value".to_owned(), i128::from(value));
                    body.extend(value.to_le_bytes());
                }
                Part::Arguments(low, high) => {
                    // Two wrong numbers of a chain may make one right length.
                    let count = if faults.contains(&5) { *low } else { self.count(*low, *high) };
                    faults.extend((!(*low..=*high).contains(&count)).then_some(5));
                    for _ in 0..count {
                        arguments.push(self.argument(word, &arguments));
                        body.extend(self.format.number(arguments[arguments.len() - 1]));
                    }
                }
                Part::Premises(name) => faults.extend(self.premises(names[name], &mut body)),
            }
        }
        if self.rng.chance(2) {
            faults.push(5);
            body.push(0);
        }
        faults.extend(arguments.iter().any(|&number| number as usize >= self.kept.len()).then_some(6));
        let bytes = [&(body.len() as u16).to_le_bytes()[..], &body].concat();
        (bytes, faults, names, arguments)
    }

    /// A record of a term, with no room for a new one where the memory is `full`.
    fn term(&mut self, kind: &Kind, full: bool) -> Trial {
        let word = &kind.row["arguments"];
        let (bytes, mut faults, mut names, arguments) = self.write(kind, word);
        let mut sort = None;
        if faults.is_empty() {
            let sorts: Vec<Sort> = arguments.iter().map(|&number| self.kept[number as usize].0).collect();
            names.insert("w".to_owned(), sorts.first().copied().flatten().unwrap_or(0));
            names.insert("count".to_owned(), sorts.len() as i128);
            names.insert("sum".to_owned(), sorts.iter().flatten().sum());
            let result = &kind.row["result"];
            sort = (result != "Bool").then(|| evaluate(&result.split(' ').collect::<Vec<_>>(), &names));
            let sorted = fit(word, &sorts) && holds(&kind.row["limits"], &names);
            faults.extend((!sorted || sort.is_some_and(|width| !(1..=64).contains(&width))).then_some(7));
            faults.extend((full && !self.repeats(&bytes)).then_some(8));
        }
        Trial { bytes, faults, sort, rule: 0, stay: 0 }
    }

    fn repeats(&self, bytes: &[u8]) -> bool {
        self.kept.iter().any(|(_, record)| record == bytes)
    }

    /// A step, a chain or a back, with no room for an answer where the memory is `full`.
    fn other(&mut self, kind: &Kind, full: bool) -> Trial {
        let (bytes, mut faults, names, _) = self.write(kind, "one sort");
        let number = |name: &str| names.get(name).map_or(0, |&number| number as usize);
        let (rule, stay) = (number("rule") as u16, number("terms"));
        match kind.name.as_str() {
            "Back" => faults.extend((!(2..=self.kept.len()).contains(&stay)).then_some(18)),
            name => {
                let rules = if name == "Step" { &self.step_rules } else { &self.chain_rules };
                faults.extend((!rules.contains(&rule)).then_some(9));
                faults.extend(full.then_some(19));
            }
        }
        Trial { bytes, faults, sort: None, rule, stay }
    }

    /// Runs the job with one record more, on memory that is full of what was there before it, or plenty.
    fn run(&self, record: &[u8], full: bool) -> (Outcome, Vec<u16>) {
        let job = [&self.job[..], record].concat();
        let size = |used: usize| if full { used } else { PLENTY };
        // Terms that a back has dropped needed memory too: the memory is full only where there was none.
        let PageFormat { term_bytes, answer_bytes, .. } = self.format;
        let (work, answers) = (term_bytes * (self.kept.len() - 2), answer_bytes * self.rules.len());
        let (mut work, mut answers) = (vec![0; size(work)], vec![0; size(answers)]);
        let outcome = run_job(&job, &mut work, &mut answers);
        let listed = Answers::new(Format::of(&job), &answers, outcome.answers);
        (outcome, listed.map(|answer| answer.rule).collect())
    }

    /// Takes a right record into the job.
    fn take(&mut self, kind: &Kind, trial: Trial) {
        self.job.extend(&trial.bytes);
        self.records += 1;
        match kind.name.as_str() {
            "Step" | "Chain" => self.rules.push(trial.rule),
            "Back" => self.kept.truncate(trial.stay),
            _ if self.repeats(&trial.bytes) => self.repeats += 1,
            _ => self.kept.push((trial.sort, trial.bytes)),
        }
    }

    /// The sort of the last term: of a bit-vector the top bit is there and the one above is not; of a Bool there is a negation.
    fn probe_sort(&self) {
        let last = self.format.number(self.kept.len() as u32 - 1);
        let stop = |words: &[u16]| {
            let words: Vec<u8> = words.iter().flat_map(|word| word.to_le_bytes()).collect();
            let length = (words.len() + last.len()) as u16;
            self.run(&[&length.to_le_bytes()[..], &words, &last].concat(), false).0.stop
        };
        match self.kept[self.kept.len() - 1].0 {
            None => assert_eq!(stop(&[20]), 0),
            Some(width) => assert_eq!((stop(&[30, width as u16 - 1]), stop(&[30, width as u16])), (0, 7)),
        }
    }
}

/// One record more, of a random kind: the library says what the page says. Gives the kind's number and the code.
fn turn(writer: &mut Writer, kinds: &[(&Kind, &[u32])], backs: bool) -> (u16, u32) {
    let &(kind, order) = writer.rng.pick(kinds);
    let full = !backs && writer.rng.chance(20);
    let is_term = kind.row.contains_key("result");
    let trial = if is_term { writer.term(kind, full) } else { writer.other(kind, full) };
    let expected = order.iter().find(|code| trial.faults.contains(code)).copied().unwrap_or(0);
    assert!(expected != 0 || trial.faults.is_empty(), "the order has none of {:?}", trial.faults);
    let (outcome, rules) = writer.run(&trial.bytes, full);
    let hex: Vec<String> = trial.bytes.iter().map(|byte| format!("{byte:02X}")).collect();
    assert_eq!(outcome.stop, expected, "{}: {} after {} terms", kind.name, hex.join(" "), writer.kept.len());
    if expected == 0 {
        let before = writer.kept.len();
        writer.take(kind, trial);
        if writer.kept.len() > before {
            writer.probe_sort();
        }
    }
    let said = [expected, writer.records, writer.rules.len() as u32, writer.kept.len() as u32, writer.repeats];
    assert_eq!((outcome.numbers(), rules), (said, writer.rules.clone()), "{}: {}", kind.name, hex.join(" "));
    (kind.number, expected)
}

/// Random jobs, every record of which is what the tables have, and beside each of them wrong ones with the code that the tables have.
#[test]
fn records_from_the_tables_alone() {
    let page = page("FORMAT.md");
    let (terms, mut others) = (term_kinds(&page), other_kinds(&page));
    others.retain(|kind| kind.name != FIRST);
    let formats = formats(&page);
    let orders: Vec<Vec<u32>> = ["term", "step", "back", "chain"].map(|record| order(&page, record)).into();
    let mut kinds: Vec<(&Kind, &[u32])> = terms.iter().map(|kind| (kind, &orders[0][..])).collect();
    let mut seen: HashMap<(u16, u32), usize> = HashMap::new();
    for seed in 0..200 {
        // Half of the jobs have backs, and then plenty of memory: what was dropped needed some too.
        let backs = seed % 2 == 0;
        kinds.truncate(terms.len());
        kinds.extend(others.iter().zip(&orders[1..]).map(|(kind, order)| (kind, &order[..])));
        if !backs {
            kinds.retain(|(kind, _)| kind.name != "Back");
        }
        let mut writer = Writer::new(&page, &formats[seed as usize / 2 % 2], seed);
        for _ in 0..150 {
            *seen.entry(turn(&mut writer, &kinds, backs)).or_default() += 1;
        }
    }
    let often = |kind: u16, code: u32| seen.get(&(kind, code)).copied().unwrap_or(0);
    for kind in terms.iter().chain(&others) {
        assert!(often(kind.number, 0) >= 5, "{} was taken {} times", kind.name, often(kind.number, 0));
        assert!(often(kind.number, 5) >= 1 || kind.parts.len() == 1, "{} had no wrong length", kind.name);
    }
    for code in [5, 6, 7, 8, 9, 18, 19] {
        let times: usize = seen.iter().filter(|((_, c), _)| *c == code).map(|(_, times)| times).sum();
        assert!(times >= 20, "code {code} was seen {times} times");
    }
}

/// The kinds and rules are those of the tables, of all numbers of two bytes.
#[test]
fn no_other_kind_and_no_other_rule() {
    let page = page("FORMAT.md");
    let kinds: Vec<u16> = term_kinds(&page).iter().chain(&other_kinds(&page)).map(|kind| kind.number).collect();
    let (step_rules, chain_rules) = (step_rules(&page), chain_rules(&page));
    let stop = |words: &[u16]| {
        let record: Vec<u8> = words.iter().flat_map(|word| word.to_le_bytes()).collect();
        run_job(&record, &mut [0; 8], &mut [0; 10]).stop
    };
    let first = other_kinds(&page).iter().find(|kind| kind.name == FIRST).unwrap().number;
    for number in 0..=u16::MAX {
        let known = match number {
            _ if number == first => 0,
            _ if kinds.contains(&number) => 5,
            _ => 4,
        };
        assert_eq!(stop(&[2, number]), known, "kind {number}");
        assert_eq!(stop(&[6, 100, number, 0]), if step_rules.contains(&number) { 0 } else { 9 }, "rule {number}");
        let chain = stop(&[10, 104, number, 1, 1, 0]);
        assert_eq!(chain, if chain_rules.contains(&number) { 0 } else { 9 }, "rule {number}");
    }
}

// Its examples

/// The bytes that a cell of the page has in hex, so often as it says.
fn bytes(cell: &str) -> Vec<u8> {
    let (text, times) = cell.split_once(" × ").unwrap_or((cell, "1"));
    let text = text.strip_prefix('`').and_then(|text| text.strip_suffix('`')).unwrap_or_else(|| panic!("{cell}"));
    let bytes: Vec<u8> = text.split(' ').map(|byte| u8::from_str_radix(byte, 16).unwrap()).collect();
    bytes.repeat(times.replace(',', "").parse().unwrap())
}

/// The numbers of a cell.
fn words<T: std::str::FromStr>(cell: &str) -> Vec<T> {
    cell.split(' ').map(|word| word.parse().unwrap_or_else(|_| panic!("{cell}"))).collect()
}

/// Runs an example with that much memory, and gives what it comes to and the answers' bytes.
fn example(cell: &str, work: usize, answers: usize) -> (Outcome, Vec<u8>) {
    let (mut work, mut answers) = (vec![0; work], vec![0; answers]);
    let job = bytes(cell);
    let outcome = run_job(&job, &mut work, &mut answers);
    answers.truncate(Format::of(&job).answer_bytes() * outcome.answers as usize);
    (outcome, answers)
}

fn kind_examples(page: &str) -> usize {
    let rows = table(page, &["kind", "name", "job", "its last term"]);
    let kinds = term_kinds(page);
    assert!(rows.iter().map(|row| (&row["kind"], &row["name"])).eq(kinds.iter().map(|k| (&k.row["kind"], &k.name))));
    for row in &rows {
        let (job, outcome) = (bytes(&row["job"]), example(&row["job"], PLENTY, 0).0);
        assert_eq!((outcome.stop, outcome.repeats, outcome.terms), (0, 0, outcome.records + 2), "{}", row["name"]);
        // Without its last record the example keeps one term less, and that record is of the kind.
        let (mut at, mut last) = (0, 0);
        while at < job.len() {
            (last, at) = (at, at + 2 + usize::from(u16::from_le_bytes([job[at], job[at + 1]])));
        }
        assert_eq!(u16::from_le_bytes([job[last + 2], job[last + 3]]).to_string(), row["kind"]);
    }
    rows.len()
}

fn stop_examples(page: &str) -> usize {
    let rows = table(page, &["stop", "name", "says", "example", "lent", "records", "terms"]);
    for row in &rows {
        let lent = |what: &str| row["lent"].strip_prefix(what).map_or(PLENTY, |size| size.trim().parse().unwrap());
        let (outcome, answers) = example(&row["example"], lent("work"), lent("answers"));
        let said = words::<u32>(&format!("{} {} 0 {} 0", row["stop"], row["records"], row["terms"]));
        assert_eq!((outcome.numbers().to_vec(), answers.len()), (said, 0), "{}", row["name"]);
        // What is lent matters: with plenty, or one byte more, the job runs to its end.
        if !row["lent"].is_empty() {
            assert_eq!(example(&row["example"], PLENTY, PLENTY).0.stop, 0);
            assert_eq!(example(&row["example"], lent("work") + 1, lent("answers") + 1).0.stop, 0);
        }
    }
    rows.len()
}

fn answer_examples(page: &str) -> usize {
    let rows = table(page, &["answer", "name", "says", "example", "rule code depth"]);
    for row in &rows {
        let (outcome, answers) = example(&row["example"], PLENTY, PLENTY);
        let last = Answers::new(Format::of(&bytes(&row["example"])), &answers, outcome.answers).last().unwrap();
        assert_eq!((outcome.stop, row["answer"].parse()), (0, Ok(last.code)), "{}", row["name"]);
        let numbers = [last.rule.into(), last.code.into(), last.depth].to_vec();
        assert_eq!(numbers, words::<u32>(&row["rule code depth"]), "{}", row["name"]);
    }
    rows.len()
}

fn whole_jobs(page: &str) -> usize {
    let rows = table(page, &["what it shows", "job", "comes to", "answers"]);
    let mut hex = 0;
    for row in &rows {
        let (outcome, answers) = example(&row["job"], PLENTY, PLENTY);
        assert_eq!(outcome.numbers().to_vec(), words(&row["comes to"]), "{}", row["what it shows"]);
        let said = if row["answers"].is_empty() { vec![] } else { bytes(&row["answers"]) };
        assert_eq!(answers, said, "{}", row["what it shows"]);
        hex += 1 + usize::from(!said.is_empty());
    }
    hex
}

fn limit_examples(page: &str) -> usize {
    let rows = table(page, &["under limits", "job", "width", "terms", "stop", "records", "kept"]);
    for row in &rows {
        let number = |column: &str| row[column].parse::<u32>().unwrap();
        let run = |limits: Limits| run_job_within(&bytes(&row["job"]), &mut [0; 80], &mut [], limits);
        let outcome = run(Limits { width: number("width"), terms: number("terms") });
        let said = [number("stop"), number("records"), number("kept")];
        assert_eq!([outcome.stop, outcome.records, outcome.terms], said, "{}", row["under limits"]);
        // Under the rack's limits it runs to its end.
        assert_eq!(run(Limits::RACK).stop, 0, "{}", row["under limits"]);
    }
    rows.len()
}

/// Every run of bytes in hex on the page stands in one of these six tables.
#[test]
fn every_example() {
    let page = page("FORMAT.md");
    let codes = stop_examples(&page) + limit_examples(&page) + answer_examples(&page);
    let starts = formats(&page).iter().filter(|format| !format.start.is_empty()).count();
    let run = kind_examples(&page) + codes + whole_jobs(&page) + starts;
    let is_byte = |byte: &str| byte.len() == 2 && byte.chars().all(|c| c.is_ascii_digit() || ('A'..='F').contains(&c));
    let is_hex = |text: &&str| text.split(' ').all(is_byte);
    assert_eq!(page.split('`').skip(1).step_by(2).filter(is_hex).count(), run);
}
