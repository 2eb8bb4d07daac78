//! Steps as Alethe text (document 02, P13): a text's lines, and the job that they are written as.
use std::collections::HashMap;

/// The deepest nesting of a term.
const NESTING: usize = 200;

/// The most arguments of a term.
const ARGUMENTS: usize = 64;

/// The largest number of a record's two bytes.
const LARGEST: u64 = 65_535;

/// The operations without numbers in them: their spelling, kind, and least and most arguments.
const OPERATIONS: [(&str, u16, usize, usize); 24] = [
    ("not", 20, 1, 1),
    ("and", 21, 1, ARGUMENTS),
    ("or", 22, 1, ARGUMENTS),
    ("xor", 23, 2, 2),
    ("=", 24, 2, 2),
    ("ite", 25, 3, 3),
    ("@bbterm", 31, 1, ARGUMENTS),
    ("bvnot", 40, 1, 1),
    ("bvneg", 41, 1, 1),
    ("bvand", 42, 1, ARGUMENTS),
    ("bvor", 43, 1, ARGUMENTS),
    ("bvxor", 44, 1, ARGUMENTS),
    ("bvadd", 45, 1, ARGUMENTS),
    ("bvmul", 46, 1, ARGUMENTS),
    ("bvxnor", 47, 2, 2),
    ("bvcomp", 48, 2, 2),
    ("bvult", 49, 2, 2),
    ("bvslt", 50, 2, 2),
    ("bvshl", 51, 2, 2),
    ("bvlshr", 52, 2, 2),
    ("bvashr", 53, 2, 2),
    ("bvudiv", 54, 2, 2),
    ("bvurem", 55, 2, 2),
    ("concat", 56, 1, ARGUMENTS),
];

/// Those with numbers in them: their spelling, kind, and how many numbers. Each has one argument.
const INDEXED: [(&str, u16, usize); 3] = [("@bit_of", 30, 1), ("extract", 57, 2), ("sign_extend", 58, 1)];

/// Document 01's rules, 1 upward.
const RULES: [&str; 23] = [
    "value",
    "var",
    "and",
    "or",
    "xor",
    "xnor",
    "not",
    "ult",
    "slt",
    "add",
    "mult",
    "neg",
    "equality",
    "comp",
    "extract",
    "concat",
    "sign_extend",
    "shl",
    "lshr",
    "ashr",
    "udiv",
    "urem",
    "bitwise_slicing",
];

/// The spellings that a generator may use.
pub fn operations() -> &'static [(&'static str, u16, usize, usize)] {
    &OPERATIONS
}

pub fn rules() -> &'static [&'static str] {
    &RULES
}

/// The job of a text, in memory of `room` bytes; or the place of the first line that is refused, from 1.
pub fn convert(text: &[u8], room: usize) -> Result<Vec<u8>, u64> {
    let mut writer = Writer { room, ..Writer::default() };
    let body = text.strip_suffix(b"\n").unwrap_or(text);
    if text.is_empty() {
        return Ok(writer.job);
    }
    for (k, line) in body.split(|&byte| byte == b'\n').enumerate() {
        writer.line(line).ok_or(k as u64 + 1)?;
    }
    Ok(writer.job)
}

#[derive(Clone, Debug, PartialEq)]
enum Token<'a> {
    Open,
    Close,
    Word(&'a str),
}

/// The tokens of a line; none where a byte belongs to no token.
fn tokens(line: &[u8]) -> Option<Vec<Token<'_>>> {
    let mut tokens = Vec::new();
    let mut at = 0;
    while let Some(&byte) = line.get(at) {
        match byte {
            b' ' | b'\t' | b'\r' => at += 1,
            b'(' => {
                tokens.push(Token::Open);
                at += 1;
            }
            b')' => {
                tokens.push(Token::Close);
                at += 1;
            }
            _ => {
                let length =
                    line[at..].iter().take_while(|&&byte| symbol_byte(byte) || byte == b'#' || byte == b':').count();
                if length == 0 {
                    return None;
                }
                tokens.push(Token::Word(std::str::from_utf8(&line[at..at + length]).expect("ASCII")));
                at += length;
            }
        }
    }
    Some(tokens)
}

/// A byte of a simple symbol of SMT-LIB.
fn symbol_byte(byte: u8) -> bool {
    byte.is_ascii_alphanumeric() || b"~!@$%^&*_-+=<>.?/".contains(&byte)
}

fn is_symbol(word: &str) -> bool {
    word.bytes().all(symbol_byte) && !word.as_bytes()[0].is_ascii_digit()
}

/// A numeral: digits without a leading zero.
fn is_numeral(word: &str) -> bool {
    !word.is_empty() && word.bytes().all(|byte| byte.is_ascii_digit()) && (word == "0" || !word.starts_with('0'))
}

/// A numeral of at most `most`.
fn numeral(word: &str, most: u64) -> Option<u64> {
    if is_numeral(word) { word.parse().ok().filter(|&number| number <= most) } else { None }
}

/// A name that document 01's terms are spelled with.
fn is_reserved(word: &str) -> bool {
    OPERATIONS.iter().any(|row| row.0 == word)
        || INDEXED.iter().any(|row| row.0 == word)
        || ["true", "false", "_"].contains(&word)
        || word.strip_prefix("bv").is_some_and(is_numeral)
}

/// The tokens of a line, one after the other.
struct Tokens<'a> {
    rest: std::iter::Peekable<std::vec::IntoIter<Token<'a>>>,
}

impl<'a> Tokens<'a> {
    fn take(&mut self, token: Token) -> Option<()> {
        (self.rest.next()? == token).then_some(())
    }

    fn word(&mut self) -> Option<&'a str> {
        match self.rest.next()? {
            Token::Word(word) => Some(word),
            _ => None,
        }
    }

    fn index(&mut self) -> Option<u64> {
        numeral(self.word()?, LARGEST)
    }

    fn end(&mut self) -> Option<()> {
        self.rest.next().is_none().then_some(())
    }
}

/// The job so far: its bytes, its terms by their records, and the declared variables' records by their names.
#[derive(Default)]
struct Writer {
    room: usize,
    job: Vec<u8>,
    terms: HashMap<Vec<u8>, u64>,
    names: HashMap<String, Vec<u8>>,
    stepped: bool,
}

impl Writer {
    fn line(&mut self, line: &[u8]) -> Option<()> {
        let mut tokens = Tokens { rest: tokens(line)?.into_iter().peekable() };
        tokens.take(Token::Open)?;
        match tokens.word()? {
            "declare-const" if !self.stepped => self.declare(&mut tokens),
            "step" => self.step(&mut tokens),
            _ => None,
        }
    }

    fn declare(&mut self, tokens: &mut Tokens) -> Option<()> {
        let name = tokens.word()?;
        let number = u64::try_from(self.names.len()).ok().filter(|&number| number <= LARGEST)?;
        let record = match tokens.rest.next()? {
            Token::Word("Bool") => record(10, &[number as u16], &[]),
            Token::Open => {
                tokens.take(Token::Word("_"))?;
                tokens.take(Token::Word("BitVec"))?;
                let width = tokens.index()?;
                tokens.take(Token::Close)?;
                record(11, &[width as u16, number as u16], &[])
            }
            _ => return None,
        };
        tokens.take(Token::Close)?;
        tokens.end()?;
        if !is_symbol(name) || is_reserved(name) || self.names.contains_key(name) {
            return None;
        }
        self.names.insert(name.to_owned(), record.clone());
        self.put(record).map(|_| ())
    }

    fn step(&mut self, tokens: &mut Tokens) -> Option<()> {
        self.stepped = true;
        if !is_symbol(tokens.word()?) {
            return None;
        }
        tokens.take(Token::Open)?;
        tokens.take(Token::Word("cl"))?;
        let (literal, _) = self.term(tokens, NESTING)?;
        tokens.take(Token::Close)?;
        tokens.take(Token::Word(":rule"))?;
        let name = tokens.word()?;
        let rule = RULES.iter().position(|&rule| rule == name)? as u16 + 1;
        tokens.take(Token::Close)?;
        tokens.end()?;
        self.append(&record(100, &[rule, number(literal)?], &[]))
    }

    /// Reads a term and writes it: its number, and how deep it is nested.
    fn term(&mut self, tokens: &mut Tokens, left: usize) -> Option<(u64, usize)> {
        match tokens.rest.next()? {
            Token::Close => None,
            Token::Word("true") => Some((0, 0)),
            Token::Word("false") => Some((1, 0)),
            Token::Word(word) => {
                let record = match self.names.get(word) {
                    Some(record) => record.clone(),
                    None => constant(word)?,
                };
                Some((self.put(record)?, 0))
            }
            Token::Open => match tokens.rest.next()? {
                Token::Close => None,
                Token::Word("_") => {
                    let value = numeral(tokens.word()?.strip_prefix("bv")?, u64::MAX)?;
                    let width = tokens.index()?;
                    tokens.take(Token::Close)?;
                    Some((self.put(record(12, &[width as u16], &value.to_le_bytes()))?, 0))
                }
                Token::Word(word) => {
                    let &(_, kind, least, most) = OPERATIONS.iter().find(|row| row.0 == word)?;
                    self.applied(tokens, kind, &[], least, most, left)
                }
                Token::Open => {
                    tokens.take(Token::Word("_"))?;
                    let word = tokens.word()?;
                    let &(_, kind, count) = INDEXED.iter().find(|row| row.0 == word)?;
                    let mut numbers = Vec::new();
                    for _ in 0..count {
                        numbers.push(tokens.index()? as u16);
                    }
                    tokens.take(Token::Close)?;
                    self.applied(tokens, kind, &numbers, 1, 1, left)
                }
            },
        }
    }

    /// An operation's arguments, up to the closing parenthesis, and then itself.
    fn applied(
        &mut self,
        tokens: &mut Tokens,
        kind: u16,
        numbers: &[u16],
        least: usize,
        most: usize,
        left: usize,
    ) -> Option<(u64, usize)> {
        let mut body = numbers.to_vec();
        let mut deepest = 0;
        while *tokens.rest.peek()? != Token::Close {
            let (argument, depth) = self.term(tokens, left.checked_sub(1)?)?;
            body.push(number(argument)?);
            deepest = deepest.max(depth);
        }
        tokens.take(Token::Close)?;
        let count = body.len() - numbers.len();
        if count < least || most < count || left < deepest + 1 {
            return None;
        }
        Some((self.put(record(kind, &body, &[]))?, deepest + 1))
    }

    /// A term's number; its record is written unless it is there.
    fn put(&mut self, record: Vec<u8>) -> Option<u64> {
        if let Some(&number) = self.terms.get(&record) {
            return Some(number);
        }
        self.append(&record)?;
        let number = self.terms.len() as u64 + 2;
        self.terms.insert(record, number);
        Some(number)
    }

    fn append(&mut self, record: &[u8]) -> Option<()> {
        if self.room < self.job.len() + record.len() {
            return None;
        }
        self.job.extend_from_slice(record);
        Some(())
    }
}

/// A number that a record can hold.
fn number(number: u64) -> Option<u16> {
    u16::try_from(number).ok()
}

/// The constant of #b or #x.
fn constant(word: &str) -> Option<Vec<u8>> {
    let (digits, bits, base) = match word.get(..2)? {
        "#b" => (&word[2..], 1, 2),
        "#x" => (&word[2..], 4, 16),
        _ => return None,
    };
    if digits.is_empty() || digits.len() as u64 * bits > LARGEST {
        return None;
    }
    let mut value: u64 = 0;
    for digit in digits.chars() {
        value = value.checked_mul(base)?.checked_add(digit.to_digit(base as u32)?.into())?;
    }
    Some(record(12, &[number(digits.len() as u64 * bits)?], &value.to_le_bytes()))
}

/// A record: its length, its kind, two-byte numbers, and then other bytes.
fn record(kind: u16, numbers: &[u16], bytes: &[u8]) -> Vec<u8> {
    let length = 2 + 2 * numbers.len() + bytes.len();
    let mut record = (length as u16).to_le_bytes().to_vec();
    record.extend(kind.to_le_bytes());
    record.extend(numbers.iter().flat_map(|number| number.to_le_bytes()));
    record.extend_from_slice(bytes);
    record
}

/// What a case expects of the text in `room` bytes.
pub fn expect_text(text: &[u8], room: usize) -> String {
    let result = convert(text, room);
    let (code, line, job) = match &result {
        Ok(job) => (0, 0, &job[..]),
        Err(line) => (25, *line, &[][..]),
    };
    let bytes: String = job.iter().map(|byte| format!("{byte:02x}")).collect();
    format!("room {room}\ncode {code}\nline {line}\nlength {}\nbytes {bytes}\n", job.len())
}
