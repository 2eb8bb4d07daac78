//! A reader of JSON that panics where the text is none.

#[derive(Debug, PartialEq)]
pub enum Value {
    Null,
    Bool(bool),
    Number(u64),
    Text(String),
    List(Vec<Value>),
    Object(Vec<(String, Value)>),
}

/// The one value of a text.
pub fn parse(text: &str) -> Value {
    let (value, rest) = value(text);
    assert!(rest.trim().is_empty(), "more than one value: {rest:.40}");
    value
}

/// A value, and what stands after it.
fn value(text: &str) -> (Value, &str) {
    let text = text.trim_start();
    match text.chars().next().expect("a value") {
        '{' => {
            let (members, rest) = members(&text[1..], '}', member);
            (Value::Object(members), rest)
        }
        '[' => {
            let (values, rest) = members(&text[1..], ']', value);
            (Value::List(values), rest)
        }
        '"' => {
            let (text, rest) = string(&text[1..]);
            (Value::Text(text), rest)
        }
        _ => word(text),
    }
}

/// What stands between commas, up to the closing character.
fn members<T>(text: &str, close: char, one: fn(&str) -> (T, &str)) -> (Vec<T>, &str) {
    let mut rest = text.trim_start();
    let mut all = Vec::new();
    if let Some(after) = rest.strip_prefix(close) {
        return (all, after);
    }
    loop {
        let (member, after) = one(rest);
        all.push(member);
        let after = after.trim_start();
        match after.strip_prefix(',') {
            Some(after) => rest = after,
            None => return (all, after.strip_prefix(close).expect("a comma or an end")),
        }
    }
}

fn member(text: &str) -> ((String, Value), &str) {
    let (name, rest) = string(text.trim_start().strip_prefix('"').expect("a name"));
    let (value, rest) = value(rest.trim_start().strip_prefix(':').expect("a colon"));
    ((name, value), rest)
}

/// A string behind its first quote.
fn string(text: &str) -> (String, &str) {
    let mut chars = text.char_indices();
    let mut string = String::new();
    loop {
        match chars.next().expect("the string's end") {
            (at, '"') => return (string, &text[at + 1..]),
            (_, '\\') => match chars.next().unwrap().1 {
                'n' => string.push('\n'),
                't' => string.push('\t'),
                'u' => {
                    let digits: String = (0..4).map(|_| chars.next().unwrap().1).collect();
                    string.push(char::from_u32(u32::from_str_radix(&digits, 16).unwrap()).unwrap());
                }
                c => {
                    assert!("\"\\/".contains(c), "an escape that is not written here: {c}");
                    string.push(c);
                }
            },
            (_, c) => {
                assert!(c >= ' ', "a control character in a string");
                string.push(c);
            }
        }
    }
}

fn word(text: &str) -> (Value, &str) {
    let end = text.find(|c: char| !c.is_ascii_alphanumeric()).unwrap_or(text.len());
    let value = match &text[..end] {
        "null" => Value::Null,
        "true" => Value::Bool(true),
        "false" => Value::Bool(false),
        digits => {
            assert!(digits == "0" || !digits.starts_with('0'), "a value at {text:.40}");
            Value::Number(digits.parse().unwrap_or_else(|_| panic!("a value at {text:.40}")))
        }
    };
    (value, &text[end..])
}
