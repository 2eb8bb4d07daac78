//! Test jobs: right and wrong claims for every rule, and bad input of every kind.
mod bad;
mod bench;
mod big;
mod damage;
mod edges;
mod mixed;
mod operands;
mod slicing;
mod summary;
mod wrong;

pub use bench::bench_jobs;
pub use summary::Summary;

use crate::job;
use crate::maker::Maker;
use std::fmt::Write as _;
use std::path::Path;

/// A job, and the bytes of work memory and of answers to lend it.
pub struct Case {
    pub job: Vec<u8>,
    pub work: usize,
    pub room: usize,
    pub note: String,
}

pub const SPECIMEN: &str = "06 00 0B 00 01 00 00 00 06 00 0B 00 01 00 01 00 06 00 1E 00 00 00 02 00 \
    06 00 1E 00 00 00 03 00 04 00 14 00 05 00 06 00 15 00 04 00 06 00 06 00 32 00 02 00 03 00 \
    06 00 18 00 08 00 07 00 06 00 64 00 09 00 09 00";

const WIDTHS: [usize; 14] = [1, 2, 3, 4, 5, 6, 7, 8, 16, 31, 32, 33, 63, 64];

/// A job with the memory that its maker knows it needs, and a little more.
fn with_enough(m: &mut Maker, note: String) -> Case {
    let work = 8 * (m.peak - 2) + m.rng.below(20);
    let room = 10 * m.steps + m.rng.below(40);
    Case { job: std::mem::take(&mut m.bytes), work, room, note }
}

type Make = fn(&mut Maker, usize) -> Case;

/// The sorts of cases that every seed starts with, and how many there are of each.
fn sorts() -> [(usize, Make); 5] {
    [
        (3, lengths),
        (plan().len(), planned),
        (big::COUNT, big::case),
        (bad::COUNT, bad::case),
        (edges::COUNT, edges::case),
    ]
}

/// How many cases come before the random ones.
pub fn fixed() -> usize {
    sorts().iter().map(|(count, _)| count).sum()
}

/// Case number `i` of a seed, about document 01's rules and kinds alone.
pub fn case(seed: u64, i: usize) -> Case {
    (seed..).step_by(1 << 32).map(|seed| made(seed, i)).find(|case| !asks_document_02(case)).unwrap()
}

/// Whether a job stops here, as it may by chance, at a rule or kind that document 02 adds and the original does not know.
fn asks_document_02(case: &Case) -> bool {
    let out = job::run_traced(&case.job, case.work, case.room, |_| {});
    let word = |at: usize| case.job.get(at..at + 2).map_or(0, |pair| u16::from_le_bytes([pair[0], pair[1]]));
    let at = (0..out.records).fold(0, |at, _| at + 2 + usize::from(word(at)));
    match out.stop {
        4 => matches!(word(at + 2), 60..=63 | 103 | 104),
        9 => matches!(word(at + 4), 24..=33),
        _ => false,
    }
}

fn made(seed: u64, i: usize) -> Case {
    let mut m = Maker::new(seed.wrapping_mul(0x1_0000_0001).wrapping_add(i as u64 + 1));
    m.rng.number();
    let mut i = i;
    for (count, make) in sorts() {
        if i < count {
            return make(&mut m, i);
        }
        i -= count;
    }
    random(&mut m, i)
}

/// The longest job, one byte more, and the specimen.
fn lengths(_: &mut Maker, i: usize) -> Case {
    let (job, note) = match i {
        0 => (vec![0; job::MAX_JOB + 1], "code 2"),
        1 => (vec![0; job::MAX_JOB], "the longest job, L 0"),
        _ => {
            let bytes = SPECIMEN.split_whitespace().map(|b| u8::from_str_radix(b, 16).unwrap());
            (bytes.collect(), "the specimen")
        }
    };
    Case { job, work: 4096, room: 4096, note: note.to_owned() }
}

/// Rules and widths: (rule, width, variables only).
fn plan() -> Vec<(u16, usize, bool)> {
    let mut out = Vec::new();
    for rule in 1..=23u16 {
        for w in WIDTHS {
            if operands::cost(rule, w, 2) <= 3_000 {
                out.push((rule, w, true));
                if rule != 1 && rule != 23 {
                    out.push((rule, w, false));
                }
            }
        }
    }
    out
}

/// One rule at one width: the right claim and wrong ones.
fn planned(m: &mut Maker, i: usize) -> Case {
    let (rule, w, plain) = plan()[i];
    m.systematic(rule, w, plain);
    let note = format!("rule {} width {}{}", rule, w, if plain { ", variables" } else { "" });
    with_enough(m, note)
}

fn random(m: &mut Maker, i: usize) -> Case {
    let steps = m.rng.range(1, 8);
    let form = m.rng.below(20);
    let mut note;
    if i % 25 == 3 {
        m.look_alikes();
        // The maker does not follow the numbers of plain records: enough for all.
        let job = std::mem::take(&mut m.bytes);
        return Case { work: 8 * 400 + i % 9, room: 40, job, note: "look-alikes".to_owned() };
    }
    if i % 40 == 11 {
        m.depths();
        note = "depths".to_owned();
    } else if i % 100 == 7 {
        m.high_bytes();
        note = "high bytes".to_owned();
    } else if form == 19 {
        // random bytes, small numbers and zeros common
        for _ in 0..m.rng.below(200) {
            let byte = match m.rng.below(3) {
                0 => 0,
                1 => m.rng.below(12) as u8,
                _ => m.rng.number() as u8,
            };
            m.bytes.push(byte);
        }
        note = "random bytes".to_owned();
    } else {
        m.mixed(steps);
        note = "mixed".to_owned();
        if (8..=13).contains(&form) {
            let group = *m.rng.pick(&[0, 0, 0, 0, 1, 2, 3, 4, 5, 6]);
            let which = m.rng.below(10_000);
            let what = m.bad(group, which);
            note = format!("mixed, then a bad record: {}", what);
            if m.rng.chance(50) {
                // what stands after it is not read
                m.words(10, &[1]);
                m.step(2, &[0]);
            }
        }
        if (14..=16).contains(&form) && !m.bytes.is_empty() {
            note = damage::damage(m);
        }
    }
    let mut case = with_enough(m, note);
    if form >= 17 || m.rng.chance(10) {
        let need = 8 * (m.peak - 2);
        let less = |n: usize| need.saturating_sub(n);
        case.work = *m.rng.pick(&[0, 7, 8, need, less(1), less(8), need + 1, 3 * need + 5]);
        case.note += ", work lent";
    }
    if form >= 18 || m.rng.chance(10) {
        let need = 10 * m.steps;
        let less = |n: usize| need.saturating_sub(n);
        case.room = *m.rng.pick(&[0, 9, 10, 19, 20, need, less(1), need + 9, less(10)]);
        case.note += ", answers lent";
    }
    case
}

/// Writes the cases NNNNN.job and NNNNN.expect, index.txt and summary.txt; gives the summary.
pub fn write_all(seed: u64, count: usize, dir: &Path) -> std::io::Result<String> {
    std::fs::create_dir_all(dir)?;
    let mut summary = Summary::default();
    let mut notes = String::new();
    for i in 0..count {
        let c = case(seed, i);
        let (text, _, _) = job::expect_text(&c.job, c.work, c.room);
        let path = dir.join(format!("{:05}.job", i));
        if i < 2 {
            // zeros only: a sparse file
            std::fs::File::create(path)?.set_len(c.job.len() as u64)?;
        } else {
            std::fs::write(path, &c.job)?;
        }
        std::fs::write(dir.join(format!("{:05}.expect", i)), text)?;
        let _ = writeln!(notes, "{:05} {}", i, c.note);
        summary.look(i, &c);
    }
    let text = summary.text();
    std::fs::write(dir.join("index.txt"), notes)?;
    std::fs::write(dir.join("summary.txt"), &text)?;
    Ok(text)
}
