//! A job's records one after the other, and the terms that they build.
use bitblast_host::{
    Format, Kind,
    jobs::{JobWriter, Term, own_bytes},
};

/// A record: its place among the records from 1, its place in the job's bytes, and its own bytes.
#[derive(Clone, Copy)]
pub struct Record<'a> {
    pub place: u32,
    pub offset: usize,
    pub bytes: &'a [u8],
}

impl Record<'_> {
    /// The kind, if it is one.
    pub fn kind(&self) -> Option<Kind> {
        let number = self.bytes.get(2..4).map_or(0, |bytes| u16::from_le_bytes([bytes[0], bytes[1]]));
        Kind::try_from(number).ok()
    }

    /// The body's numbers of two bytes, and after them the numbers of terms.
    fn body(&self, kind: Kind, format: Format) -> (Vec<u16>, Vec<u32>) {
        let body = &self.bytes[4..];
        let (own, terms) = body.split_at(own_bytes(kind, body));
        let words = own.chunks(2).map(|bytes| u16::from_le_bytes([bytes[0], bytes[1]])).collect();
        (words, terms.chunks(format.number_bytes()).map(|bytes| format.number(bytes)).collect())
    }

    /// Whether it is answered: a step or a chain.
    pub fn is_step(&self) -> bool {
        matches!(self.kind(), Some(Kind::Step | Kind::Chain))
    }
}

/// The records of a job. Where no whole record stands, the rest of the job is the last one.
pub fn records(job: &[u8]) -> impl Iterator<Item = Record<'_>> {
    let (mut place, mut offset) = (0, 0);
    std::iter::from_fn(move || {
        let rest = job.get(offset..).filter(|rest| !rest.is_empty())?;
        let length =
            rest.get(..2).map_or(usize::MAX, |bytes| 2 + usize::from(u16::from_le_bytes([bytes[0], bytes[1]])));
        let bytes = rest.get(..length).unwrap_or(rest);
        let record = Record { place: place + 1, offset, bytes };
        (place, offset) = (place + 1, offset + bytes.len());
        Some(record)
    })
}

/// What a record says.
pub enum Item {
    /// A term, with its number, and whether it was there already.
    Term {
        number: u32,
        repeats: bool,
    },
    /// A step, with its literals.
    Step {
        literals: Vec<Term>,
    },
    /// A chain, with the places of its premises.
    Chain {
        premises: Vec<u16>,
        literal: Term,
    },
    Back {
        terms: u32,
    },
    /// The first record of a job whose term numbers have four bytes.
    FourBytes,
}

/// The terms that a job keeps, and the literals of its steps. It reads records that the library has done.
pub struct Reader {
    format: Format,
    pub terms: JobWriter,
    /// The literals of the steps and chains so far.
    pub claims: Vec<Vec<Term>>,
}

impl Reader {
    /// A reader of a job of that format.
    pub fn new(format: Format) -> Self {
        Reader { format, terms: JobWriter::of(format), claims: Vec::new() }
    }

    /// Reads the next record.
    pub fn read(&mut self, record: Record) -> Item {
        let kind = record.kind().expect("the library has done this record");
        let (words, numbers) = record.body(kind, self.format);
        match kind {
            Kind::FourBytes => Item::FourBytes,
            Kind::Step => {
                let literals = self.kept(&numbers);
                self.claims.push(literals.clone());
                Item::Step { literals }
            }
            Kind::Chain => {
                let literal = self.kept(&numbers)[0];
                self.claims.push(vec![literal]);
                Item::Chain { premises: words[2..].to_vec(), literal }
            }
            Kind::Back => {
                self.terms.back(numbers[0] as usize);
                Item::Back { terms: numbers[0] }
            }
            kind => {
                let arguments = self.kept(&numbers);
                let term = self.term(kind, &words, &arguments);
                let repeats = self.terms.is_kept(term);
                Item::Term { number: self.terms.number(term), repeats }
            }
        }
    }

    /// The kept terms of these numbers.
    fn kept(&self, numbers: &[u32]) -> Vec<Term> {
        numbers.iter().map(|&number| self.terms.kept()[number as usize]).collect()
    }

    fn term(&mut self, kind: Kind, words: &[u16], arguments: &[Term]) -> Term {
        let index = |at: usize| usize::from(words[at]);
        match kind {
            Kind::BoolVar => self.terms.bool_var(words[0]),
            Kind::BvVar => self.terms.bv_var(index(0), words[1]),
            Kind::Constant => {
                let value = words[1..].iter().rev().fold(0, |value, &part| value << 16 | u64::from(part));
                self.terms.constant(index(0), value)
            }
            Kind::BvBitOf => self.terms.bit(index(0), arguments[0]),
            Kind::BvExtract => self.terms.extract(index(0), index(1), arguments[0]),
            Kind::SignExtend => self.terms.sign_extend(index(0), arguments[0]),
            Kind::ZeroExtend | Kind::RotateLeft | Kind::RotateRight | Kind::Repeat => {
                self.terms.moved(kind, index(0), arguments[0])
            }
            _ => self.terms.term(kind, arguments),
        }
    }
}
