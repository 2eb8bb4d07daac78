//! Terms that are chosen to be looked for in one place: they take long where the seed is known, and no time where it is random.
use bitblast_host::{Format, Seeds, Service, run_job};
use std::time::{Duration, Instant};

/// What the library computes with, where the seed is 0 (crates/table/specs/Buckets.antt).
const MULTIPLIER: u64 = 668_265_264;
const PRIME: u64 = (1 << 31) - 1;
const HASH_END: u64 = 1 << 31;

/// A memory of which a job of more than a quarter of its bytes gets all.
const WORK: usize = 1 << 20;

const VARIABLES: u64 = 45_000;
const GATES: usize = 8_000;

/// The kind of a conjunction, as it stands above its first argument.
const AND: u64 = 21 << 16;

fn fold(x: u64) -> u64 {
    x % (1 << 31) + x / (1 << 31)
}

/// How many buckets the memory has: behind as many rows as it can ever hold, up to the seed, and about twice the most terms at most.
fn buckets(format: Format) -> u64 {
    let (row, link, most) = if format == Format::FourBytes { (9, 3, 1 << 21) } else { (7, 2, 1 << 17) };
    let rows = format.max_terms().min(WORK / format.term_bytes());
    most.min((WORK - rows * row - 4) as u64 / link)
}

/// The words of a term's number in a record: the number and, in four bytes, 0.
fn words(format: Format, number: u64) -> Vec<u64> {
    if format == Format::FourBytes { vec![number, 0] } else { vec![number] }
}

/// The bucket of a conjunction of two terms.
fn bucket(format: Format, a: u64, b: u64) -> u64 {
    let words = [words(format, a), words(format, b)].concat();
    words.iter().fold(AND, |hash, word| fold((hash + word) * MULTIPLIER)) % HASH_END * buckets(format) / HASH_END
}

fn power(base: u64, exponent: u64) -> u64 {
    match exponent {
        0 => 1,
        n if n % 2 == 0 => power(base * base % PRIME, n / 2),
        n => base * power(base, n - 1) % PRIME,
    }
}

/// Conjunctions of variables whose records all fall into the first bucket: the second number of each is one that leads to a small number.
fn crafted_gates(format: Format) -> Vec<(u64, u64)> {
    let factor = power(MULTIPLIER, words(format, 0).len() as u64);
    let inverse = power(factor, PRIME - 2);
    let mut ends: Vec<u64> = (2..PRIME / buckets(format)).map(|end| end * inverse % PRIME).collect();
    ends.sort_unstable();
    let pairs = (0..VARIABLES).flat_map(|a| {
        let before = (AND + a) * factor % PRIME;
        let from = ends.partition_point(|&end| end < before);
        ends[from..].iter().map(move |end| (a, end - before)).take_while(|pair| pair.1 < VARIABLES).collect::<Vec<_>>()
    });
    pairs.filter(|&(a, b)| bucket(format, a, b) == 0).take(GATES).collect()
}

/// A job of variables and of these gates.
fn crafted(format: Format) -> Vec<u8> {
    let mut job = Vec::new();
    let mut put = |numbers: &[u64]| numbers.iter().for_each(|&number| job.extend((number as u16).to_le_bytes()));
    if format == Format::FourBytes {
        put(&[2, 103]);
    }
    (0..VARIABLES).for_each(|name| put(&[4, 10, name]));
    let gates = crafted_gates(format);
    assert_eq!(gates.len(), GATES);
    for (a, b) in gates {
        let body = [words(format, a), words(format, b)].concat();
        put(&[&[2 + 2 * body.len() as u64, 21], &body[..]].concat());
    }
    job
}

/// How long the job takes with that seed, the fastest of so many runs on the same memory: the first touches its pages, and what else the machine does
/// falls on some runs only. It ends, and keeps every term.
fn time(job: &[u8], runs: usize, seed: impl Fn(&mut [u8])) -> Duration {
    let (mut work, mut answers) = (vec![0; WORK], Vec::new());
    let run = |_| {
        seed(&mut work);
        let begun = Instant::now();
        let outcome = run_job(job, &mut work, &mut answers);
        let time = begun.elapsed();
        assert_eq!((outcome.stop, outcome.terms as usize), (0, 2 + VARIABLES as usize + GATES));
        assert!(work.iter().all(|&byte| byte == 0), "the seed stays");
        time
    };
    (0..runs).map(run).min().unwrap()
}

#[test]
fn crafted_terms() {
    for format in [Format::TwoBytes, Format::FourBytes] {
        let job = crafted(format);
        let known = time(&job, 3, |_| ());
        let random = time(&job, 100, |work| Seeds::default().put(work));
        assert!(random * 20 < known, "{format:?}: with a seed {random:?}, without {known:?}");

        // The first check of a service, the middle one of five: what else the machine does falls on some of them only.
        let first_check = |_| {
            let mut service = Service::new(WORK, 0);
            let begun = Instant::now();
            assert_eq!(service.check(&job).outcome().stop, 0);
            begun.elapsed()
        };
        let mut served: Vec<_> = (0..5).map(first_check).collect();
        served.sort();
        assert!(served[2] * 10 < known, "{format:?}: in services {served:?}, without a seed {known:?}");
    }
}

#[test]
fn seeds_differ_and_need_room() {
    let mut seeds = Seeds::default();
    let (mut one, mut two, mut short) = ([0; 8], [0; 8], [7; 3]);
    seeds.put(&mut one);
    seeds.put(&mut two);
    seeds.put(&mut short);
    assert_eq!((&one[..4], &two[..4], short), (&[0; 4][..], &[0; 4][..], [7; 3]));
    assert_ne!(one, two);
}
