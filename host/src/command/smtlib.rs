//! Terms as SMT-LIB text, cut where they are long.
use bitblast_host::{
    Kind,
    jobs::{JobWriter, Node, TRUE, Term},
};

/// The characters of a text that is cut where its terms are nested deeper.
const MOST: usize = 160;

/// The depths that are tried, until the text is short enough.
const DEPTHS: [usize; 8] = [30, 12, 8, 6, 4, 3, 2, 1];

/// A term's text. What is nested too deep for it is named by its number, `t57`, or is `..` where the job does not keep it.
pub fn text(terms: &JobWriter, term: Term) -> String {
    let mut text = String::new();
    for depth in DEPTHS {
        text.clear();
        if write(terms, term, depth, &mut text) {
            break;
        }
    }
    text
}

/// Writes a term as far as the depth says; whether the text is short enough so far.
fn write(terms: &JobWriter, term: Term, depth: usize, text: &mut String) -> bool {
    let Some(node) = terms.node(term) else {
        text.push_str(if term == TRUE { "true" } else { "false" });
        return true;
    };
    if node.arguments.is_empty() {
        text.push_str(&leaf(&node));
    } else if depth == 0 && !is_short(terms, &node) {
        match terms.number_of(term) {
            Some(number) => text.push_str(&format!("t{number}")),
            None => text.push_str(".."),
        }
    } else {
        text.push('(');
        text.push_str(&head(&node));
        for &argument in &node.arguments {
            text.push(' ');
            if !write(terms, argument, depth.saturating_sub(1), text) {
                return false;
            }
        }
        text.push(')');
    }
    depth <= 1 || text.len() <= MOST
}

/// An operation on variables and constants is never cut: it is what a claim is about.
fn is_short(terms: &JobWriter, node: &Node) -> bool {
    let is_leaf = |&argument: &Term| terms.node(argument).is_none_or(|node| node.arguments.is_empty());
    node.kind != Kind::BvBitOf && node.arguments.len() <= 3 && node.arguments.iter().all(is_leaf)
}

/// A variable or a constant. A variable's width is part of its name, since variables of different widths are different ones.
fn leaf(node: &Node) -> String {
    let numbers = &node.numbers;
    match node.kind {
        Kind::BoolVar => format!("b{}", numbers[0]),
        Kind::BvVar => format!("x{}w{}", numbers[1], numbers[0]),
        _ => {
            let value = numbers[1..].iter().rev().fold(0, |value, &part| value << 16 | u64::from(part));
            format!("#b{value:0width$b}", width = usize::from(numbers[0]))
        }
    }
}

/// What stands before the arguments.
fn head(node: &Node) -> String {
    let numbers: Vec<String> = node.numbers.iter().map(|number| format!(" {number}")).collect();
    match numbers.is_empty() {
        true => node.kind.words().to_owned(),
        false => format!("(_ {}{})", node.kind.words(), numbers.concat()),
    }
}
