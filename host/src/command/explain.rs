//! Why a step is refused: what is claimed beside what is expected.
use super::{
    reader::{Item, Reader},
    smtlib::text,
};
use bitblast_host::{
    Answer, AnswerCode, Kind, Rule,
    jobs::{JobWriter, Term},
};

/// The parts that are shown of a long way down, at its start and at its end.
const SHOWN: usize = 4;

/// The lines that explain a refused step, which the reader has just read.
pub fn explain(reader: &mut Reader, item: &Item, answer: &Answer) -> Vec<String> {
    match item {
        Item::Step { literals } => match (literals[..].first(), AnswerCode::try_from(answer.code)) {
            (
                Some(&literal),
                Ok(
                    AnswerCode::BitNotLiteral
                    | AnswerCode::OtherValue
                    | AnswerCode::TermsDiffer
                    | AnswerCode::IndexNotNext,
                ),
            ) => sides(&mut reader.terms, answer.rule, literal),
            _ => literals.iter().map(|&literal| line("literal", &text(&reader.terms, literal))).collect(),
        },
        Item::Chain { premises, literal } => {
            let mut lines = vec![line("literal", &text(&reader.terms, *literal))];
            lines.extend(premises.iter().map(|&place| premise(reader, place)));
            lines
        }
        Item::Term { .. } | Item::Back { .. } | Item::FourBytes => vec![],
    }
}

fn line(what: &str, text: &str) -> String {
    format!("{what:<9} {text}")
}

/// A premise of the last step: the literal that the step of that place had.
fn premise(reader: &Reader, place: u16) -> String {
    let earlier = &reader.claims[..reader.claims.len() - 1];
    match usize::from(place).checked_sub(1).and_then(|k| earlier.get(k)) {
        Some(literals) => {
            let literals: Vec<String> = literals.iter().map(|&literal| text(&reader.terms, literal)).collect();
            line("premise", &format!("step {place}: {}", literals.join("  ")))
        }
        None => line("premise", &format!("there is no earlier step {place}")),
    }
}

/// Both sides of a literal that has the rule's form, and where its right side first differs from the expected one.
fn sides(terms: &mut JobWriter, rule: u16, literal: Term) -> Vec<String> {
    let sides = terms.node(literal).expect("a literal of that form is an equality").arguments.clone();
    let (left, claimed) = (sides[0], sides[1]);
    let expected = match Rule::try_from(rule) {
        Ok(Rule::BitwiseSlicing) => expected_slices(terms, left, claimed),
        _ => terms.circuit(rule, left),
    };
    let (path, here, wanted) = difference(terms, claimed, expected);
    vec![
        line("left", &text(terms, left)),
        line("claimed", &text(terms, claimed)),
        line("expected", &text(terms, expected)),
        line("differs", &format!("{}: {} where {} is expected", place(&path), text(terms, here), text(terms, wanted))),
    ]
}

/// The way down in words, its middle left out where it is long.
fn place(path: &[String]) -> String {
    match path.len() {
        0 => "at the top".to_owned(),
        n if n <= 2 * SHOWN => format!("in {}", path.join(", in ")),
        n => {
            let (first, last) = (path[..SHOWN].join(", in "), path[n - SHOWN..].join(", in "));
            format!("in {first}, {} deeper, in {last}", n - 2 * SHOWN)
        }
    }
}

/// Rule 23 takes the slices as the claim cuts them: each from the index below the one before, down to the low index that it claims.
fn expected_slices(terms: &mut JobWriter, left: Term, claimed: Term) -> Term {
    let operands = terms.node(left).expect("a left side of that form is an operation").arguments.clone();
    let slices = terms.node(claimed).expect("a right side of that form is a concat").arguments.clone();
    let mut top = terms.width(operands[1]);
    let mut expected = Vec::new();
    for slice in slices {
        let high = top - 1;
        let low = terms.node(slice).and_then(|node| terms.node(node.arguments[0])).and_then(|part| match part.kind {
            Kind::BvExtract => Some(usize::from(part.numbers[1])),
            _ => None,
        });
        top = low.filter(|&low| low <= high).unwrap_or(0);
        let parts = [operands[0], operands[1]].map(|operand| terms.extract(high, top, operand));
        expected.push(terms.term(Kind::BvAnd, &parts));
        if top == 0 {
            break;
        }
    }
    terms.term(Kind::BvConcat, &expected)
}

/// The way down to the first place where two terms differ, from the left, and what stands there.
fn difference(terms: &JobWriter, claimed: Term, expected: Term) -> (Vec<String>, Term, Term) {
    let (mut path, mut here, mut wanted) = (Vec::new(), claimed, expected);
    while let (Some(a), Some(b)) = (terms.node(here), terms.node(wanted)) {
        let mut pairs = a.arguments.iter().zip(&b.arguments);
        let Some(k) = pairs.position(|(x, y)| x != y).filter(|_| (a.kind, &a.numbers) == (b.kind, &b.numbers)) else {
            break;
        };
        path.push(match a.kind {
            Kind::BvBbTerm => format!("bit {k}"),
            kind => format!("argument {} of {}", k + 1, kind.words()),
        });
        (here, wanted) = (a.arguments[k], b.arguments[k]);
    }
    (path, here, wanted)
}
