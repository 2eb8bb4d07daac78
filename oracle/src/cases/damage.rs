//! Finished jobs with some bytes changed.
use crate::maker::Maker;

/// Changes bytes of a finished job.
pub(super) fn damage(m: &mut Maker) -> String {
    let at = *m.rng.pick(&m.starts.clone());
    match m.rng.below(8) {
        0 => {
            let n = m.rng.below(m.bytes.len() + 1);
            m.bytes.truncate(n);
            "cut anywhere".to_owned()
        }
        1 => {
            m.bytes.truncate(at);
            "cut at a record".to_owned()
        }
        2 | 3 => {
            for _ in 0..m.rng.range(1, 3) {
                let k = m.rng.below(m.bytes.len());
                m.bytes[k] = match m.rng.below(3) {
                    0 => m.bytes[k] ^ (1 << m.rng.below(8)),
                    1 => m.rng.below(70) as u8,
                    _ => m.rng.number() as u8,
                };
            }
            "bytes changed".to_owned()
        }
        4 => {
            let l = *m.rng.pick(&[0u16, 1, 2, 3, 65535]);
            m.bytes[at..at + 2].copy_from_slice(&l.to_le_bytes());
            "a length changed".to_owned()
        }
        5 => {
            let end = at + 2 + usize::from(u16::from_le_bytes([m.bytes[at], m.bytes[at + 1]]));
            m.bytes.drain(at..end);
            "a record left out".to_owned()
        }
        6 => {
            let end = at + 2 + usize::from(u16::from_le_bytes([m.bytes[at], m.bytes[at + 1]]));
            let copy = m.bytes[at..end].to_vec();
            let to = *m.rng.pick(&m.starts.clone());
            m.bytes.splice(to..to, copy);
            "a record moved".to_owned()
        }
        _ => {
            let k = m.rng.range(10, 58) as u16;
            m.bytes[at + 2..at + 4].copy_from_slice(&k.to_le_bytes());
            "a kind changed".to_owned()
        }
    }
}
