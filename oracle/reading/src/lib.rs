//! A plain reading of documents 01 and 02, written from their words alone: the job, the terms, the rules' circuits, the values.
//! It shares no code with the library. See ../README.md.
pub mod chain;
pub mod check;
pub mod circuit;
pub mod divide;
pub mod format;
pub mod generate;
pub mod job;
pub mod kind;
pub mod limited;
pub mod partial;
pub mod pool;
pub mod question;
pub mod rng;
pub mod rule;
pub mod shift;
pub mod sort;
pub mod survey;
pub mod text;
pub mod value;

/// Document 01's specimen of a job.
pub fn specimen() -> Vec<u8> {
    hex(
        "06 00 0B 00 01 00 00 00 06 00 0B 00 01 00 01 00 06 00 1E 00 00 00 02 00 06 00 1E 00 00 00 03 00 04 00 14 00 05 00 \
         06 00 15 00 04 00 06 00 06 00 32 00 02 00 03 00 06 00 18 00 08 00 07 00 06 00 64 00 09 00 09 00",
    )
}

/// Bytes written as pairs of hex digits.
pub fn hex(text: &str) -> Vec<u8> {
    text.split_whitespace().map(|pair| u8::from_str_radix(pair, 16).expect("two hex digits")).collect()
}
