//! What can be tested of declarations that nothing checks: the text of the Rattle source, the layout of the structs, and the
//! bytes around each lent slice.
use bitblast_host::{
    Converted, Counted, INTERFACE, Known, Outcome, Swept, Tally, count_job, interface,
    jobs::{self, SPECIMEN_ANSWER},
    known_job,
    lent::Lent,
    run_job, sweep_job, tally_answers,
};
use std::{
    fs,
    mem::{align_of, offset_of, size_of},
    path::Path,
};

#[test]
fn layout() {
    assert_eq!((size_of::<Outcome>(), align_of::<Outcome>()), (20, 4));
    assert_eq!(
        [
            offset_of!(Outcome, stop),
            offset_of!(Outcome, records),
            offset_of!(Outcome, answers),
            offset_of!(Outcome, terms),
            offset_of!(Outcome, repeats)
        ],
        [0, 4, 8, 12, 16]
    );
    assert_eq!((size_of::<Swept>(), align_of::<Swept>()), (32, 4));
    assert_eq!(
        [
            offset_of!(Swept, code),
            offset_of!(Swept, assignments),
            offset_of!(Swept, differing),
            offset_of!(Swept, outcome)
        ],
        [0, 4, 8, 12]
    );
    assert_eq!((size_of::<Counted>(), align_of::<Counted>()), (24, 4));
    assert_eq!([offset_of!(Counted, code), offset_of!(Counted, outcome)], [0, 4]);
    assert_eq!((size_of::<Known>(), align_of::<Known>()), (24, 4));
    assert_eq!([offset_of!(Known, code), offset_of!(Known, outcome)], [0, 4]);
    assert_eq!((size_of::<Converted>(), align_of::<Converted>()), (24, 8));
    assert_eq!([offset_of!(Converted, code), offset_of!(Converted, line), offset_of!(Converted, length)], [0, 8, 16]);
    assert_eq!((size_of::<Tally>(), align_of::<Tally>()), (32, 8));
    assert_eq!(
        [offset_of!(Tally, jobs), offset_of!(Tally, held), offset_of!(Tally, form_only), offset_of!(Tally, refused)],
        [0, 8, 16, 24]
    );
}

/// All Rattle source below a folder in one line, without comments and derives, and with single spaces.
fn source(folder: &Path, text: &mut String) {
    for entry in fs::read_dir(folder).unwrap().map(|entry| entry.unwrap().path()) {
        if entry.is_dir() {
            source(&entry, text);
        } else if entry.extension().is_some_and(|end| end == "rt") {
            for line in fs::read_to_string(entry).unwrap().lines().filter(|line| !line.starts_with("#[derive(")) {
                let code = line.split("//").next().unwrap();
                text.extend(code.split_whitespace().flat_map(|word| [word, " "]));
            }
        }
    }
}

#[test]
fn the_source_says_the_same() {
    let mut text = String::new();
    for entry in fs::read_dir(Path::new(env!("CARGO_MANIFEST_DIR")).join("../crates")).unwrap() {
        source(&entry.unwrap().path().join("src"), &mut text);
    }
    for declared in [
        "#[unsafe(no_mangle)] pub extern \"C\" fn bb_job(job: &[u8], work: &mut [u8], answers: &mut [u8]) -> Outcome ",
        "#[unsafe(no_mangle)] pub extern \"C\" fn bb_job_within( job: &[u8], work: &mut [u8], answers: &mut [u8], width_limit: u32, term_limit: u32, ) -> Outcome ",
        "#[unsafe(no_mangle)] pub extern \"C\" fn bb_sweep( job: &[u8], work: &mut [u8], answers: &mut [u8], values: &mut [u8], number: u32, ) -> Swept ",
        "#[unsafe(no_mangle)] pub extern \"C\" fn bb_count( job: &[u8], work: &mut [u8], answers: &mut [u8], values: &mut [u8], number: u32, counts: &mut [u32], ) -> Counted ",
        "#[unsafe(no_mangle)] pub extern \"C\" fn bb_known( job: &[u8], work: &mut [u8], answers: &mut [u8], values: &mut [u8], number: u32, inputs: &[u8], outputs: &mut [u8], ) -> Known ",
        "#[unsafe(no_mangle)] pub extern \"C\" fn bb_text(text: &[u8], work: &mut [u8], job: &mut [u8]) -> Converted ",
        "#[unsafe(no_mangle)] pub extern \"C\" fn bb_version() -> u32 ",
        "#[unsafe(no_mangle)] pub extern \"C\" fn bb_tally(tally: &mut Tally, answers: &[u8], count: u32) ",
        "#[repr(C)] pub struct Outcome { pub stop: u32, pub records: u32, pub answers: u32, pub terms: u32, pub repeats: u32, }",
        "#[repr(C)] pub struct Swept { pub code: u32, pub assignments: u32, pub differing: u32, pub outcome: Outcome, }",
        "#[repr(C)] pub struct Counted { pub code: u32, pub outcome: Outcome, }",
        "#[repr(C)] pub struct Known { pub code: u32, pub outcome: Outcome, }",
        "#[repr(C)] pub struct Converted { pub code: u32, pub line: u64, pub length: u64, }",
        "#[repr(C)] pub struct Tally { pub jobs: u64, pub held: u64, pub form_only: u64, pub refused: u64, }",
    ] {
        assert!(text.contains(declared), "crates/ has no `{declared}`: does src/ffi.rs still fit?");
    }
    assert_eq!(text.matches("pub extern \"C\" fn").count(), 8, "src/ffi.rs declares eight functions");
}

/// Declarations here, the header and the linked library are of one interface.
#[test]
fn one_interface() {
    assert_eq!(interface(), INTERFACE);
    let header = Path::new(env!("CARGO_MANIFEST_DIR")).join("../include/bitblast.h");
    let header = fs::read_to_string(header).unwrap();
    assert!(header.contains(&format!("#define BB_VERSION {INTERFACE}\n")));
}

/// The specimen with every length of work memory and answers around what it needs: 64 and 10 bytes.
#[test]
fn fences_around_every_length() {
    let job = jobs::specimen();
    let (mut work, mut answers) = (Lent::new(80), Lent::new(40));
    for work_size in 0..=80 {
        for room in 0..=40 {
            let outcome = run_job(&job, work.ready(work_size, room as u64), answers.ready(room, work_size as u64));
            let expected = match (work_size / 8, room) {
                (rows @ 0..=7, _) => [8, rows as u32, 0, 2 + rows as u32, 0],
                (_, 0..=9) => [19, 8, 0, 10, 0],
                _ => [0, 9, 1, 10, 0],
            };
            assert_eq!(outcome.numbers(), expected, "work {work_size}, answers {room}");
            assert!(work.is_zero() && work.fences_stand(), "work {work_size}, answers {room}");
            let written = 10 * outcome.answers as usize;
            assert_eq!(answers.bytes()[..written], SPECIMEN_ANSWER[..written]);
            assert!(answers.untouched_from(written) && answers.fences_stand(), "work {work_size}, answers {room}");
        }
    }
}

/// A variable three times, a back that drops it, the variable twice, and a back that stops the job: three repeats, of which the first back takes
/// none away. The outcome is returned through memory: nothing around it is written.
#[test]
fn repeats_and_fences_around_the_outcome() {
    #[repr(C)]
    struct Fenced {
        before: u32,
        outcome: Outcome,
        behind: [u32; 4],
    }
    let (variable, drop_all, wrong) = ([6, 0, 11, 0, 1, 0, 0, 0], [4, 0, 101, 0, 2, 0], [4, 0, 101, 0, 9, 0]);
    let job = [&variable[..], &variable, &variable, &drop_all, &variable, &variable, &wrong].concat();
    let (mut work, mut answers) = ([0xEE; 64], [0xDD; 10]);
    let mut fenced = Fenced { before: 7, outcome: Outcome::default(), behind: [7; 4] };
    fenced.outcome = run_job(&job, &mut work, &mut answers);
    assert_eq!(fenced.outcome.numbers(), [18, 6, 0, 3, 3]);
    assert_eq!((fenced.before, fenced.behind), (7, [7; 4]));
}

/// Slices that begin at odd addresses, and a job with other bytes right behind it.
#[test]
fn slices_at_any_address() {
    let specimen = jobs::specimen();
    for shift in 0..8 {
        let mut job = vec![0xFF; shift];
        job.extend(&specimen);
        job.extend([0xFF; 16]);
        let before = job.clone();
        let (mut work, mut answers) = (vec![0xEE; 200], vec![0xDD; 60]);
        let outcome = run_job(
            &job[shift..shift + specimen.len()],
            &mut work[shift + 1..shift + 101],
            &mut answers[shift + 3..shift + 33],
        );
        assert_eq!(outcome.numbers(), [0, 9, 1, 10, 0]);
        assert_eq!(job, before);
        for (k, byte) in work.iter().enumerate() {
            assert_eq!(*byte, if (shift + 1..shift + 101).contains(&k) { 0 } else { 0xEE });
        }
        for (k, byte) in answers.iter().enumerate() {
            let at = k.wrapping_sub(shift + 3);
            assert_eq!(*byte, if at < 10 { SPECIMEN_ANSWER[at] } else { 0xDD });
        }
    }
}

/// The memories of a question, with garbage in them and fences around them.
struct Memories {
    work: Lent,
    answers: Lent,
    values: Lent,
    counts: Lent<u32>,
    outputs: Lent,
}

impl Memories {
    fn new() -> Self {
        Memories {
            work: Lent::new(80),
            answers: Lent::new(40),
            values: Lent::new(120),
            counts: Lent::new(300),
            outputs: Lent::new(70),
        }
    }

    /// Looks at the memories after a question about the specimen, which was answered with a code.
    fn look(&self, code: u32, outcome: Outcome, lent: [usize; 4]) {
        let Memories { work, answers, values, .. } = self;
        assert!(work.is_zero() && work.fences_stand(), "{lent:?}");
        let written = 10 * outcome.answers as usize;
        assert_eq!(answers.bytes()[..written], SPECIMEN_ANSWER[..written]);
        assert!(answers.untouched_from(written) && answers.fences_stand(), "{lent:?}");
        assert!(values.fences_stand(), "{lent:?}");
        let left = if code == 0 { values.is_zero() } else { values.untouched_from(0) };
        assert!(left, "the value buffer, {lent:?}");
    }

    /// Counts the values of one of the specimen's terms, and looks at everything around them.
    fn count(&mut self, [work, room, size, run]: [usize; 4], number: u32, expected: &[u32]) -> Counted {
        #[repr(C)]
        struct Fenced {
            before: u32,
            counted: Counted,
            behind: [u32; 4],
        }
        let mut fenced = Fenced { before: 7, counted: Counted::default(), behind: [7; 4] };
        fenced.counted = count_job(
            &jobs::specimen(),
            self.work.ready(work, size as u64),
            self.answers.ready(room, work as u64),
            self.values.ready(size, room as u64 + 1),
            number,
            self.counts.ready(run, 1 + size as u64),
        );
        assert_eq!((fenced.before, fenced.behind), (7, [7; 4]));
        self.look(fenced.counted.code, fenced.counted.outcome, [work, room, size, run]);
        let written = if fenced.counted.code == 0 { expected } else { &[] };
        assert_eq!(&self.counts.units()[..written.len()], written, "term {number}");
        assert!(self.counts.untouched_from(written.len()) && self.counts.fences_stand(), "term {number}");
        fenced.counted
    }

    /// Derives the bit of one of the specimen's terms, and looks at everything around it.
    fn known(&mut self, [work, answers, size, room]: [usize; 4], number: u32, inputs: &[u8], expected: u8) -> Known {
        #[repr(C)]
        struct Fenced {
            before: u32,
            known: Known,
            behind: [u32; 4],
        }
        let mut fenced = Fenced { before: 7, known: Known::default(), behind: [7; 4] };
        fenced.known = known_job(
            &jobs::specimen(),
            self.work.ready(work, size as u64),
            self.answers.ready(answers, work as u64),
            self.values.ready(size, answers as u64 + 1),
            number,
            inputs,
            self.outputs.ready(room, 100 + size as u64),
        );
        assert_eq!((fenced.before, fenced.behind), (7, [7; 4]));
        self.look(fenced.known.code, fenced.known.outcome, [work, answers, size, room]);
        let written = if fenced.known.code == 0 { &[expected][..] } else { &[] };
        assert_eq!(&self.outputs.units()[..written.len()], written, "term {number}, {inputs:?}");
        assert!(self.outputs.untouched_from(written.len()) && self.outputs.fences_stand(), "term {number}, {inputs:?}");
        fenced.known
    }

    /// Sweeps the specimen, and looks at everything around the sweep.
    fn sweep(&mut self, [work, room, size]: [usize; 3], number: u32) -> Swept {
        #[repr(C)]
        struct Fenced {
            before: u32,
            swept: Swept,
            behind: [u32; 4],
        }
        let mut fenced = Fenced { before: 7, swept: Swept::default(), behind: [7; 4] };
        fenced.swept = sweep_job(
            &jobs::specimen(),
            self.work.ready(work, size as u64),
            self.answers.ready(room, work as u64),
            self.values.ready(size, room as u64 + 1),
            number,
        );
        assert_eq!((fenced.before, fenced.behind), (7, [7; 4]));
        self.look(fenced.swept.code, fenced.swept.outcome, [work, room, size, 0]);
        fenced.swept
    }
}

/// The specimen's ten terms need 80 bytes of values; its one Equals is term 9.
#[test]
fn fences_around_a_sweep() {
    let mut memories = Memories::new();
    for size in 0..=120 {
        for number in [0, 1, 2, 7, 8, 9, 10, 11, 65_545, u32::MAX] {
            let swept = memories.sweep([64, 10, size], number);
            let expected = match (number, size) {
                (9, 80..) => [0, 4, 0],
                (9, _) => [21, 0, 0],
                _ => [20, 0, 0],
            };
            assert_eq!([swept.code, swept.assignments, swept.differing], expected, "term {number}, values {size}");
            assert_eq!(swept.outcome.numbers(), [0, 9, 1, 10, 0]);
        }
    }
}

/// A job that stops early is refused before the value buffer is looked at.
#[test]
fn fences_around_the_sweep_of_a_job_that_stops() {
    let mut memories = Memories::new();
    for work in 0..=80 {
        for room in [0, 9, 10, 40] {
            for size in [0, 79, 80] {
                let swept = memories.sweep([work, room, size], 9);
                let code = match (work, room, size) {
                    (0..64, _, _) | (_, 0..10, _) => 20,
                    (_, _, 0..80) => 21,
                    _ => 0,
                };
                let assignments = if code == 0 { 4 } else { 0 };
                assert_eq!([swept.code, swept.assignments, swept.differing], [code, assignments, 0]);
            }
        }
    }
}

/// Terms 2, 7 and 9 of the specimen: x of width 1, the And, the Equals. The codes come in their order.
#[test]
fn fences_around_counts() {
    let mut memories = Memories::new();
    for size in [0, 16, 63, 64, 79, 80, 81, 120] {
        for run in [0, 1, 2, 3, 255, 256, 257, 300] {
            for (number, expected) in [(0, [0, 1]), (1, [1, 0]), (2, [1, 1]), (7, [3, 1]), (9, [0, 4]), (10, [0; 2])] {
                for room in [9, 10] {
                    let counted = memories.count([64, room, size, run], number, &expected);
                    let code = match (number, room, size, run) {
                        (10.., _, _, _) | (_, 9, _, _) => 20,
                        (_, _, 0..80, _) => 21,
                        (_, _, _, 0..2) => 22,
                        _ => 0,
                    };
                    assert_eq!(counted.code, code, "term {number}, answers {room}, values {size}, counts {run}");
                    assert_eq!(counted.outcome.terms, 10);
                }
            }
        }
    }
}

/// Terms 0, 2, 4, 7 and 8 of the specimen: `true`, x of width 1, its bit, the And of it and Not of y's, and bvslt, which is refused. The codes
/// come in their order.
#[test]
fn fences_around_bits() {
    let mut memories = Memories::new();
    for size in [0, 16, 63, 64, 79, 80, 81, 120] {
        for room in [0, 1, 2, 64, 70] {
            for answers in [9, 10] {
                for (number, inputs, expected) in [
                    (0, &[][..], Some(1)),
                    (0, &[0], None),
                    (2, &[2], Some(2)),
                    (2, &[1], Some(1)),
                    (4, &[0], Some(0)),
                    (4, &[0, 0], None),
                    (7, &[2, 1], Some(0)),
                    (7, &[1, 2], Some(2)),
                    (7, &[1, 0], Some(1)),
                    (7, &[1, 3], None),
                    (7, &[1], None),
                    (8, &[1, 0], None),
                    (10, &[], None),
                ] {
                    let known = memories.known([64, answers, size, room], number, inputs, expected.unwrap_or(0));
                    let code = match (number, answers, size, room) {
                        (10.., ..) | (_, 9, ..) => 20,
                        (_, _, 0..80, _) => 21,
                        (_, _, _, 0) => 23,
                        _ if expected.is_none() => 23,
                        _ => 0,
                    };
                    assert_eq!(known.code, code, "term {number}, {inputs:?}, values {size}, outputs {room}");
                    assert_eq!(known.outcome.terms, 10);
                }
            }
        }
    }
}

#[test]
fn fences_around_a_tally() {
    #[repr(C)]
    struct Fenced {
        before: [u64; 8],
        tally: Tally,
        behind: [u64; 8],
    }
    let mut fenced = Fenced { before: [7; 8], tally: Tally::default(), behind: [7; 8] };
    let mut answers = Lent::new(10);
    answers.ready(10, 0).copy_from_slice(&SPECIMEN_ANSWER);
    for count in [0, 1, 2, u32::MAX] {
        tally_answers(&mut fenced.tally, answers.bytes(), count);
    }
    assert_eq!(fenced.tally.numbers(), [4, 3, 0, 0]);
    assert_eq!((fenced.before, fenced.behind), ([7; 8], [7; 8]));
    assert_eq!(answers.bytes(), SPECIMEN_ANSWER);
    assert!(answers.fences_stand());
}
