//! Jobs whose numbers have four bytes, worked out by hand.
use reading::format::{FOUR, Format, TWO};
use reading::generate::{Maker, asked_case, case};
use reading::job::{Lent, Limits, RACK, bbcheck, expect_text, run, run_whole, run_within};
use reading::kind::*;
use reading::limited::Limited;
use reading::pool::{Id, YES};
use reading::question::{Answer, Question};
use reading::{hex, specimen};

const MUCH: Lent = Lent { work: 1 << 20, room: 1 << 16 };

/// Stop, records, answers, terms and repeats.
fn came(text: &str, work: usize, room: usize) -> [usize; 5] {
    let out = run(&hex(text), Lent { work, room }, |_| {});
    [usize::from(out.stop), out.records, out.answers, out.terms, out.repeats]
}

/// The specimen with its numbers in four bytes.
const SPECIMEN: &str = "02 00 67 00 06 00 0B 00 01 00 00 00 06 00 0B 00 01 00 01 00 08 00 1E 00 00 00 02 00 00 00 \
     08 00 1E 00 00 00 03 00 00 00 06 00 14 00 05 00 00 00 0A 00 15 00 04 00 00 00 06 00 00 00 \
     0A 00 32 00 02 00 00 00 03 00 00 00 0A 00 18 00 08 00 00 00 07 00 00 00 08 00 64 00 09 00 09 00 00 00";

#[test]
fn the_specimen() {
    assert_eq!(bbcheck(&hex(SPECIMEN)), bbcheck(&specimen()));
    assert_eq!(came(SPECIMEN, 96, 12), [0, 10, 1, 10, 0]);
    assert!(expect_text(&hex(SPECIMEN), MUCH).ends_with("bytes 0a00c8000900000002000000\n"));
    assert_eq!(came(SPECIMEN, 95, 12), [8, 8, 0, 9, 0]);
    assert_eq!(came(SPECIMEN, 96, 11), [19, 9, 0, 10, 0]);
}

/// Where the record of kind 103 stands, and what it has.
#[test]
fn the_first_record() {
    for (text, expected) in [
        ("02 00 67 00", [0, 1, 0, 2, 0]),
        ("02 00 67 00 02 00 67 00", [4, 1, 0, 2, 0]),
        ("02 00 67 00 04 00 67 00 00 00", [4, 1, 0, 2, 0]),
        ("04 00 0A 00 00 00 02 00 67 00", [4, 1, 0, 3, 0]),
        ("04 00 0A 00 00 00 04 00 67 00 00 00", [4, 1, 0, 3, 0]),
        ("03 00 67 00 00", [5, 0, 0, 2, 0]),
        ("04 00 67 00 00 00", [5, 0, 0, 2, 0]),
        ("02 00 67", [3, 0, 0, 2, 0]),
        ("04 00 67 00", [3, 0, 0, 2, 0]),
        ("01 00 67 00", [3, 0, 0, 2, 0]),
        // Behind a first record with a body numbers had two bytes, but nothing is read.
        ("04 00 67 00 00 00 06 00 14 00 00 00 00 00", [5, 0, 0, 2, 0]),
    ] {
        assert_eq!(came(text, 96, 96), expected, "{text}");
    }
    assert_eq!((Format::of(&hex("02 00 67 00 01")), Format::of(&hex("03 00 67 00 00"))), (FOUR, TWO));
}

/// Arguments, literals and back counts have four bytes, all else has two.
#[test]
fn which_numbers() {
    let after = |text: &str| came(&format!("02 00 67 00 06 00 0B 00 02 00 07 00 {text}"), 96, 96);
    for (text, stop) in [
        ("04 00 14 00 00 00", 5),
        ("06 00 14 00 00 00 00 00", 0),
        ("06 00 14 00 00 00 01 00", 6),
        ("06 00 14 00 01 00 00 01", 6),
        ("06 00 0A 00 01 00 00 00", 5),
        ("08 00 0B 00 02 00 07 00 00 00", 5),
        ("0C 00 0C 00 02 00 03 00 00 00 00 00 00 00", 0),
        ("08 00 1E 00 01 00 02 00 00 00", 0),
        ("0A 00 1E 00 01 00 00 00 02 00 00 00", 5),
        ("0A 00 39 00 01 00 00 00 02 00 00 00", 0),
        ("08 00 3D 00 FF FF 02 00 00 00", 0),
        ("04 00 65 00 02 00", 5),
        ("06 00 65 00 02 00 00 00", 0),
        ("06 00 65 00 02 00 01 00", 18),
        ("06 00 65 00 03 00 00 01", 18),
        ("06 00 65 00 01 00 00 00", 18),
        ("06 00 64 00 02 00 00 00", 5),
        ("08 00 64 00 02 00 00 00 00 00", 0),
        ("08 00 64 00 02 00 00 00 01 00", 6),
        ("04 00 64 00 02 00", 0),
        ("0C 00 68 00 1F 00 01 00 01 00 00 00 00 00", 0),
        ("0A 00 68 00 1F 00 01 00 01 00 00 00", 5),
        ("0E 00 68 00 1F 00 01 00 01 00 00 00 00 00 00 00", 5),
        ("0C 00 68 00 1F 00 01 00 01 00 00 00 01 00", 6),
    ] {
        assert_eq!(after(text)[0], stop, "{text}");
    }
    // As many arguments and literals as before: 64, not 65.
    for (kind, words, least) in [(AND, &[][..], 1), (STEP, &[1][..], 0)] {
        for (count, stop) in [(least, 0), (64, 0), (65, 5)] {
            let mut maker = Maker::new(0);
            maker.in_four_bytes();
            maker.words(kind, words, &vec![0; count]);
            assert_eq!(run(&maker.bytes, MUCH, |_| {}).stop, stop, "{count} in kind {kind}");
        }
    }
}

/// A term costs 12 bytes and an answer 12.
#[test]
fn lent_memory() {
    let terms = "02 00 67 00 04 00 0A 00 00 00 04 00 0A 00 00 00 04 00 0A 00 01 00";
    for (work, expected) in [(11, [8, 1, 0, 2, 0]), (12, [8, 3, 0, 3, 1]), (23, [8, 3, 0, 3, 1]), (24, [0, 4, 0, 4, 1])]
    {
        assert_eq!(came(terms, work, 0), expected, "{work}");
    }
    let steps = "02 00 67 00 04 00 64 00 02 00 04 00 64 00 02 00";
    for (room, expected) in [
        (0, [19, 1, 0, 2, 0]),
        (11, [19, 1, 0, 2, 0]),
        (12, [19, 2, 1, 2, 0]),
        (23, [19, 2, 1, 2, 0]),
        (24, [0, 3, 2, 2, 0]),
    ] {
        assert_eq!(came(steps, 0, room), expected, "{room}");
    }
}

/// A job of so many variables: where the names are spent, they are wider.
fn many(count: usize) -> Maker {
    let mut maker = Maker::new(0);
    maker.in_four_bytes();
    for k in 0..count {
        maker.words(VARIABLE, &[(k >> 16) as u16 + 1, k as u16], &[]);
    }
    maker
}

#[test]
fn limits() {
    let job = many(69_998).bytes;
    let lent = Lent { work: 12 * 70_000, room: 0 };
    let terms = |terms: u32| {
        let out = run_within(&job, lent, Limits { terms, ..RACK }, |_| {}).0;
        (out.stop, out.terms)
    };
    assert_eq!(terms(1_024), (8, 1_024));
    assert_eq!(terms(65_535), (8, 65_535));
    assert_eq!(terms(65_536), (8, 65_536));
    assert_eq!(terms(69_999), (8, 69_999));
    for most in [70_000, 1_000_000, 1_000_001, u32::MAX] {
        assert_eq!(terms(most), (0, 70_000), "{most}");
    }
    // A job whose numbers have two bytes has at most 65,535 terms under any limit.
    let short = &job[4..];
    let out = run_within(short, lent, Limits { terms: u32::MAX, ..RACK }, |_| {}).0;
    assert_eq!((out.stop, out.records, out.terms), (8, 65_533, 65_535));
}

#[test]
fn a_million_terms() {
    let lent = Lent { work: 12 * 1_000_000, room: 0 };
    let came = |count: usize, lent: Lent| {
        let out = run(&many(count).bytes, lent, |_| {});
        (out.stop, out.records, out.terms)
    };
    assert_eq!(came(999_998, lent), (0, 999_999, 1_000_000));
    assert_eq!(came(999_999, lent), (8, 999_999, 1_000_000));
    assert_eq!(came(999_998, Lent { work: 12 * 999_998 - 1, ..lent }), (8, 999_998, 999_999));
}

/// Terms whose numbers have the same low bytes, and a depth that two bytes do not hold.
#[test]
fn great_numbers() {
    let mut maker = many(65_536 - 2);
    // Terms 65,536 and 65,538 are Bools, 2 is a bit-vector.
    let not = |maker: &mut Maker, number: u32| maker.words(NOT, &[], &[number]);
    not(&mut maker, 0);
    not(&mut maker, 65_536);
    not(&mut maker, 65_537);
    let good = run(&maker.bytes, MUCH, |_| {});
    assert_eq!((good.stop, good.terms), (0, 65_539));
    maker.words(BACK, &[], &[65_538]);
    not(&mut maker, 65_538);
    let dropped = run(&maker.bytes, MUCH, |_| {});
    assert_eq!((dropped.stop, dropped.terms), (6, 65_538));

    let mut maker = Maker::new(0);
    maker.in_four_bytes();
    let top = (0..70_000).fold(YES, |top, _| maker.pool.not(top));
    let bits = maker.pool.bb(&[top]);
    let claim = maker.equals(bits, bits);
    maker.step(2, &[claim], None);
    let answers = Limited::of(&maker.bytes, MUCH, RACK).bytes;
    // 70,000 is 1 11 70 in hex.
    assert_eq!(answers, "0a00c8000200000070110100");
}

/// Questions name a term by its number in either format; the value buffer has eight bytes a term in both.
#[test]
fn questions() {
    let mut maker = many(65_540);
    let (x, c) = (maker.pool.add(VARIABLE, &[3, 9], &[]), maker.pool.add(CONSTANT, &[3, 5], &[]));
    let equality = maker.pool.op(EQUALS, &[x, c]);
    for (kind, words, places) in
        [(VARIABLE, &[3, 9][..], &[][..]), (CONSTANT, &[3, 5, 0, 0, 0], &[]), (EQUALS, &[], &[65_542, 65_543])]
    {
        maker.words(kind, words, places);
    }
    let kept = 65_545;
    let lent = Lent { work: 12 * kept, room: 0 };
    let ask = |question: Question| {
        let (outcome, store) = run_whole(&maker.bytes, lent, |_| {});
        question.answer(outcome.stop, &store)
    };
    let sweep = |number, values| ask(Question::Sweep { number, values });
    let swept = |code, assignments, differing| Answer::Swept { code, assignments, differing };
    assert_eq!(maker.pool.sides(equality), Some((x, c)));
    assert_eq!(sweep(65_544, 8 * kept), swept(0, 8, 7));
    assert_eq!(sweep(65_544, 8 * kept - 1), swept(21, 0, 0));
    for other in [8, 65_543, 65_545, 65_544 + (1 << 24)] {
        assert_eq!(sweep(other, 8 * kept), swept(20, 0, 0), "{other}");
    }
    let counted = ask(Question::Count { number: 65_543, values: 8 * kept, run: 8 });
    assert_eq!(counted, Answer::Counted { code: 0, counts: vec![0, 0, 0, 0, 0, 1, 0, 0] });
    let derived = ask(Question::Derive { number: 65_542, values: 8 * kept, room: 3, inputs: vec![0, 2, 1] });
    assert_eq!(derived, Answer::Derived { code: 0, bits: vec![0, 2, 1] });
}

/// A job in two bytes, with its numbers in four.
fn lengthened(job: &[u8]) -> Vec<u8> {
    let mut long = hex("02 00 67 00");
    let mut rest = job;
    while !rest.is_empty() {
        let word = |at: usize| u16::from_le_bytes([rest[at], rest[at + 1]]);
        let (length, kind) = (usize::from(word(0)), word(2));
        let own = match kind {
            STEP => 2,
            CHAIN => length - 4,
            BACK => 0,
            _ => shape(kind).expect("a kind").own,
        };
        let (words, numbers) = rest[4..length + 2].split_at(own);
        let numbers: Vec<u8> = numbers.chunks(2).flat_map(|number| [number[0], number[1], 0, 0]).collect();
        long.extend((2 + words.len() as u16 + numbers.len() as u16).to_le_bytes());
        long.extend(kind.to_le_bytes());
        long.extend([words, &numbers].concat());
        rest = &rest[length + 2..];
    }
    long
}

/// Jobs that run to their end in two bytes come to the same in four, but for the first record.
#[test]
fn the_same_in_both() {
    let mut compared = 0;
    for i in 40..600 {
        let case = case(3, i);
        let mut answers: [Vec<(u16, u16, u64)>; 2] = Default::default();
        let mut came = |job: &[u8], which: usize| {
            let lent = Lent { work: 1 << 20, room: 1 << 16 };
            run(job, lent, |step| answers[which].push((step.answer.rule, step.answer.code, step.answer.depth)))
        };
        let short = came(&case.job, 0);
        if short.stop != 0 || Format::of(&case.job) == FOUR {
            continue;
        }
        let mut long = came(&lengthened(&case.job), 1);
        long.records -= 1;
        assert_eq!((long, &answers[1]), (short, &answers[0]), "case {i}");
        compared += 1;
    }
    assert!(compared > 100, "{compared} jobs");
}

/// Both generators make jobs of both formats.
#[test]
fn both_are_generated() {
    let is_long = |job: &[u8]| Format::of(job) == FOUR;
    let jobs = (30..230).filter(|&i| is_long(&case(1, i).job)).count();
    let asked = (3..203).filter(|&i| is_long(&asked_case(1, i).job)).count();
    assert!((40..160).contains(&jobs) && (40..160).contains(&asked), "{jobs} and {asked} of 200");
    let asked = asked_case(1, 0);
    let kept = run_whole(&asked.job, asked.lent, |_| {}).1.list.len() as u32;
    let great: Vec<Id> = asked.asked.iter().map(|asked| asked.question.number() as Id).collect();
    assert!(great.iter().any(|&number| number > 65_535 && number < kept as Id), "{great:?} of {kept}");
}
