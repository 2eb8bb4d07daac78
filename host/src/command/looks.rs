//! What a file that is no job looks like.
use bitblast_host::Report;

/// The bytes at a file's start by which text is told.
const LOOKED_AT: usize = 512;

/// What a file looks like that stops at its first record.
pub fn looks_like(job: &[u8], report: &Report) -> Option<&'static str> {
    match job {
        _ if report.outcome().stop == 0 || report.outcome().records > 0 => None,
        [0x1F, 0x8B, ..] => Some("gzip"),
        _ => is_text(&job[..job.len().min(LOOKED_AT)]).then_some("text"),
    }
}

/// Whether these bytes are text, of which the last character may be cut.
fn is_text(bytes: &[u8]) -> bool {
    let whole = match std::str::from_utf8(bytes) {
        Ok(text) => text,
        Err(error) if error.error_len().is_none() => std::str::from_utf8(&bytes[..error.valid_up_to()]).unwrap_or(""),
        Err(_) => "",
    };
    !whole.is_empty() && whole.chars().all(|c| !c.is_control() || matches!(c, '\t' | '\n' | '\r'))
}
