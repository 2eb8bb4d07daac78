//! Alethe text: the job that it is converted into, and the command line.
mod run;

use bitblast_host::{
    Service,
    alethe::{JOB_BYTES_PER_BYTE, MAX_LOOKUP_BYTES},
    convert, convert_text,
    lent::Lent,
    rng::Rng,
};
use run::{bbhost, text};
use std::{fs, path::Path};

/// Variables, a step of each sort of term, and one term in three spellings.
const TEXT: &str = "\
(declare-const a Bool)
(declare-const x (_ BitVec 2))
(declare-const y (_ BitVec 2))
(step t1 (cl (= (bvand x y) (@bbterm (and ((_ @bit_of 0) x) ((_ @bit_of 0) y)) (and ((_ @bit_of 1) x) ((_ @bit_of 1) y))))) :rule and)
(step t2 (cl (= #b10 (@bbterm false true))) :rule value)
(step t2 (cl (= (_ bv2 2) (@bbterm false true))) :rule value)
(step t3 (cl(= ((_ extract 1 1) x)(@bbterm ((_ @bit_of 1) x)))) :rule extract)
";

#[test]
fn a_text_is_converted_and_checked() {
    let job = convert(TEXT.as_bytes()).unwrap();
    let mut service = Service::new(1 << 16, 100);
    let report = service.check(&job);
    assert!(report.all_held());
    assert_eq!((report.outcome().answers, report.outcome().repeats), (4, 0));
}

/// The work memory never changes the result, and both memories are left as they should be.
#[test]
fn any_work_memory_gives_the_same_job() {
    let expected = convert(TEXT.as_bytes()).unwrap();
    for size in (0..400).step_by(3).chain([MAX_LOOKUP_BYTES]) {
        let (mut work, mut job) = (Lent::<u8>::new(size), Lent::<u8>::new(expected.len() + 20));
        let converted = convert_text(
            TEXT.as_bytes(),
            work.ready(size, size as u64),
            job.ready(expected.len() + 20, 1 + size as u64),
        );
        assert_eq!((converted.code, converted.line, converted.length), (0, 0, expected.len() as u64), "work {size}");
        assert_eq!(job.bytes()[..expected.len()], expected);
        assert!(job.untouched_from(expected.len()) && job.fences_stand(), "work {size}");
        assert!(work.is_zero() && work.fences_stand(), "work {size}");
    }
}

/// The first line that fails is named, whatever fails, and the output is zero.
#[test]
fn the_first_bad_line() {
    let lines: Vec<&str> = TEXT.lines().collect();
    for bad in
        ["", " ", "; note", "(declare-const x Bool)", "(step t (cl z) :rule and)", "(step t (cl (not)) :rule and)"]
    {
        for k in 0..=lines.len() {
            let mut changed = lines.clone();
            changed.insert(k, bad);
            let place = match (bad, k) {
                // Declared before the other x: that one is refused, three lines later at the most.
                ("(declare-const x Bool)", 0 | 1) => 3,
                // A step before the declarations: the next of them is refused.
                _ => k as u64 + 1,
            };
            let refused = convert((changed.join("\n") + "\n").as_bytes()).unwrap_err();
            assert_eq!(refused.line, place, "{bad:?} at {k}");
        }
    }
}

/// Every room that is too short: the output is zero, and the line is the one that does not fit.
#[test]
fn every_room() {
    let expected = convert(TEXT.as_bytes()).unwrap();
    let mut last = 1;
    for room in 0..expected.len() {
        let mut job = Lent::<u8>::new(room);
        let converted = convert_text(TEXT.as_bytes(), &mut [], job.ready(room, 7));
        assert_eq!((converted.code, converted.length), (25, 0), "room {room}");
        assert!(last <= converted.line && job.is_zero() && job.fences_stand(), "room {room}");
        last = converted.line;
    }
    assert_eq!(last, TEXT.lines().count() as u64);
}

/// The room that `convert` lends is never too short.
#[test]
fn constants_take_the_most_room() {
    let constants: String = (0..512).map(|k| format!("(bvnot #b{k:b})")).collect();
    for term in ["(= #b0 #b1)".to_owned(), format!("(bvadd{})", &constants[..64 * 12])] {
        let text = format!("(step s(cl {term}):rule or)");
        let mut job = vec![0; 1 << 20];
        let converted = convert_text(text.as_bytes(), &mut [], &mut job);
        assert!(converted.length as usize <= JOB_BYTES_PER_BYTE * text.len());
    }
}

/// Bytes of any sort: every call ends, and the memories are left as they should be.
#[test]
fn random_bytes() {
    let mut rng = Rng::new(5);
    let words = [
        "(",
        ")",
        " ",
        "\n",
        "step",
        "s",
        "cl",
        ":rule",
        "and",
        "declare-const",
        "Bool",
        "_",
        "BitVec",
        "8",
        "x",
        "#b1",
        "not",
        "=",
        "\0",
        "\u{80}",
        ";",
    ];
    for seed in 0..3_000 {
        let given: String = (0..rng.below(60)).map(|_| words[rng.below(words.len())]).collect();
        let (size, room) = (rng.below(100), rng.below(200));
        let (mut work, mut job) = (Lent::<u8>::new(size), Lent::<u8>::new(room));
        let converted = convert_text(given.as_bytes(), work.ready(size, seed), job.ready(room, seed));
        assert!(work.is_zero() && work.fences_stand() && job.fences_stand(), "{given:?}");
        match converted.code {
            0 => assert!(job.untouched_from(converted.length as usize), "{given:?}"),
            _ => assert!(converted.code == 25 && converted.line > 0 && job.is_zero(), "{given:?}"),
        }
    }
}

#[test]
fn the_command_line() {
    let folder = Path::new(env!("CARGO_TARGET_TMPDIR")).join("text");
    fs::create_dir_all(&folder).unwrap();
    let path = |name: &str| folder.join(name).to_str().unwrap().to_owned();
    let (good, bad, job) = (path("good.alethe"), path("bad.alethe"), path("good.job"));
    fs::write(&good, TEXT).unwrap();
    fs::write(&bad, format!("{TEXT}\n")).unwrap();

    let converted = bbhost(&["convert", &good], b"");
    assert_eq!(converted.status.code(), Some(0));
    assert_eq!(converted.stdout, convert(TEXT.as_bytes()).unwrap());
    assert_eq!(bbhost(&["convert", &good, "-o", &job], b"").status.code(), Some(0));
    assert_eq!(fs::read(&job).unwrap(), converted.stdout);
    assert_eq!(bbhost(&["convert", "-"], TEXT.as_bytes()).stdout, converted.stdout);
    assert_eq!(bbhost(&["check", &good], b"").status.code(), Some(0));
    assert_eq!(bbhost(&["check", &job], b"").status.code(), Some(0));

    for command in ["convert", "check"] {
        let refused = bbhost(&[command, &bad], b"");
        assert_eq!(refused.status.code(), Some(1), "{command}");
        let says = text(&refused.stderr);
        assert!(says.starts_with(&format!("{bad}:8: ")), "{says}");
    }
    let object = bbhost(&["check", "--json", &bad], b"");
    assert!(text(&object.stdout).contains("\"error_kind\":\"refused\""));
    for wrong in [&["convert"][..], &["convert", &good, &bad], &["convert", "--fast", &good], &["convert", "-o"]] {
        assert_eq!(bbhost(wrong, b"").status.code(), Some(2), "{wrong:?}");
    }
}
