//! Every length around each boundary: of a record's body, of the job, of the work memory, of the answers.
use super::{Case, with_enough};
use crate::maker::Maker;

const KINDS: [u16; 32] = [
    10, 11, 12, 20, 21, 22, 23, 24, 25, 30, 31, 40, 41, 42, 43, 44, 45, 46, 47, 48, 49, 50, 51, 52, 53, 54, 55, 56, 57,
    58, 100, 101,
];

/// The lengths of bodies, in bytes: around the fixed ones, and around 64 numbers and a step's 65.
const BODIES: [std::ops::Range<usize>; 2] = [0..15, 124..135];
const BODY_COUNT: usize = 15 + 11;

/// The cuts of a job of at most this many bytes, and one more.
const CUTS: usize = 161;

/// The lengths of the work memory, for a job of at most 18 terms of its own.
const WORKS: usize = 18 * 8 + 10;

/// The lengths of the answers, for a job of at most 5 steps.
const ROOMS: usize = 5 * 10 + 11;

pub(super) const COUNT: usize = KINDS.len() * BODY_COUNT + CUTS + WORKS + ROOMS;

/// Writes a job of the sort that the limits above are for: claims of width 1 or 2, and a back now and then.
fn short_job(m: &mut Maker) {
    loop {
        let mut job = Maker::new(m.rng.number());
        for _ in 0..job.rng.range(2, 5) {
            let rule = job.rng.range(1, 22) as u16;
            let w = job.rng.range(1, 2);
            let left = job.left(rule, w, true);
            let right = if job.rng.chance(30) { left.clone() } else { job.expected(rule, &left) };
            job.claim(rule, &left, &right);
            if job.rng.chance(30) {
                let count = job.rng.range(2, job.list.len());
                job.back(count);
            }
        }
        if job.bytes.len() < CUTS && job.peak - 2 <= 18 {
            std::mem::swap(m, &mut job);
            return;
        }
    }
}

pub(super) fn case(m: &mut Maker, i: usize) -> Case {
    let mut i = i;
    if i < KINDS.len() * BODY_COUNT {
        let (kind, length) = (KINDS[i / BODY_COUNT], i % BODY_COUNT);
        return body(m, kind, BODIES.into_iter().flatten().nth(length).unwrap());
    }
    i -= KINDS.len() * BODY_COUNT;
    short_job(m);
    let mut case = with_enough(m, String::new());
    if i < CUTS {
        case.job.truncate(i);
        case.note = format!("edge: job cut to {}", i);
    } else if i < CUTS + WORKS {
        case.work = i - CUTS;
        case.note = format!("edge: work {}", case.work);
    } else {
        case.room = i - CUTS - WORKS;
        case.note = format!("edge: answers {}", case.room);
    }
    case
}

/// A record with a body of that length, after some terms; its numbers are mostly those of terms.
fn body(m: &mut Maker, kind: u16, length: usize) -> Case {
    let x = m.var(3, 0);
    let y = m.var(3, 1);
    for t in [x, y] {
        m.emit(&t);
        let bits = m.bits(&t);
        let b = m.bb(bits);
        m.emit(&b);
    }
    let count = m.list.len();
    // arguments of one sort, so that lists that fit do well
    let same: Vec<usize> = if m.rng.chance(50) {
        (0..count).filter(|&k| m.width(&m.list[k].clone()).is_none()).collect()
    } else {
        (0..count).filter(|&k| m.width(&m.list[k].clone()).is_some()).collect()
    };
    let mut bytes = Vec::new();
    while bytes.len() < length {
        let word = if m.rng.chance(3) { m.rng.below(count + 2) } else { *m.rng.pick(&same) };
        bytes.extend((word as u16).to_le_bytes());
    }
    bytes.truncate(length);
    m.record(kind, &bytes);
    m.steps += 1;
    m.peak += 1;
    m.words(10, &[1]);
    let mut case = with_enough(m, format!("edge: kind {} with a body of {}", kind, length));
    case.work += 8;
    case
}
