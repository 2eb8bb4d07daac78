//! A case of the oracle that is a text: the room lent for its job, and what is expected of it.
use bitblast_host::{Converted, alethe::MAX_LOOKUP_BYTES, convert_text, lent::Lent};

/// The bytes of work memory that are lent, one after the other: none of them changes the result.
const LENT: [usize; 5] = [0, 9, 64, 2_000, MAX_LOOKUP_BYTES];

/// What is expected of a text.
pub struct Expected {
    room: usize,
    numbers: [u64; 3],
    bytes: Vec<u8>,
}

impl Expected {
    pub fn parse(text: &str) -> Option<Self> {
        let field = |name: &str| text.lines().find_map(|line| line.strip_prefix(name)?.strip_prefix(' '));
        let number = |name: &str| field(name)?.parse::<u64>().ok();
        let digits = field("bytes")?;
        let bytes = (0..digits.len() / 2).map(|k| u8::from_str_radix(digits.get(2 * k..2 * k + 2)?, 16).ok());
        Some(Expected {
            room: number("room")? as usize,
            numbers: [number("code")?, number("line")?, number("length")?],
            bytes: bytes.collect::<Option<_>>()?,
        })
    }

    /// The first difference, if there is one, with each length of work memory.
    pub fn difference(&self, text: &[u8], seed: u64) -> Option<String> {
        LENT.iter().find_map(|&lent| {
            let difference = self.call(text, lent, seed)?;
            Some(format!("with {lent} bytes of work memory {difference}"))
        })
    }

    fn call(&self, text: &[u8], lent: usize, seed: u64) -> Option<String> {
        let (mut work, mut job) = (Lent::<u8>::new(lent), Lent::<u8>::new(self.room));
        work.ready(lent, seed);
        job.ready(self.room, seed + 1);
        let Converted { code, line, length, .. } = convert_text(text, work.lent(), job.lent());
        let numbers = [code.into(), line, length];
        if numbers != self.numbers {
            return Some(format!("code, line and length are {numbers:?}, expected are {:?}", self.numbers));
        }
        let past = self.bytes.len();
        let rest_stands = if code == 0 { job.untouched_from(past) } else { job.is_zero() };
        match () {
            _ if job.bytes()[..past] != self.bytes => Some("the job has other bytes".to_owned()),
            _ if !rest_stands => Some("the memory past the job is changed".to_owned()),
            _ if !work.is_zero() => Some("the work memory is not zero".to_owned()),
            _ if !(work.fences_stand() && job.fences_stand()) => {
                Some("bytes beside the lent memory are changed".to_owned())
            }
            _ => None,
        }
    }
}
