//! Limits that a caller states, worked out by hand.
use reading::generate::case;
use reading::hex;
use reading::job::{Lent, Limits, RACK, run_within};
use reading::limited::{Limited, parse};
use reading::specimen;

const LENT: Lent = Lent { work: 800, room: 100 };

fn outcome(bytes: &[u8], width: u32, terms: u32) -> (u16, usize, usize, usize) {
    let out = run_within(bytes, LENT, Limits { width, terms }, |_| {}).0;
    (out.stop, out.records, out.terms, out.repeats)
}

/// A BvBbTerm of so many `true`.
fn bits(count: usize) -> Vec<u8> {
    [&[(2 * count + 2) as u8, 0, 31, 0][..], &vec![0; 2 * count]].concat()
}

#[test]
fn widths() {
    let variable = |width: u8| [6, 0, 11, 0, width, 0, 0, 0];
    for (limit, width, stop) in [(16, 16, 0), (16, 17, 7), (0, 1, 7), (64, 64, 0), (65, 65, 7), (u32::MAX, 65, 7)] {
        assert_eq!(outcome(&variable(width), limit, 1024).0, stop, "{width} under {limit}");
    }
    // 17 arguments are a length that the kind has: the width is what does not fit.
    assert_eq!(outcome(&bits(16), 16, 1024).0, 0);
    assert_eq!(outcome(&bits(17), 16, 1024).0, 7);
    assert_eq!(outcome(&bits(65), 16, 1024).0, 5);
    // Both arguments are within the limit, their concat is not.
    let concat = [&variable(9)[..], &hex("06 00 38 00 02 00 02 00")].concat();
    assert_eq!(outcome(&concat, 17, 1024), (7, 1, 3, 0));
    assert_eq!(outcome(&concat, 18, 1024), (0, 2, 4, 0));
    // A Bool has no width.
    assert_eq!(outcome(&hex("04 00 0A 00 00 00"), 0, 1024).0, 0);
}

#[test]
fn terms() {
    let (x, y) = (hex("04 00 0A 00 00 00"), hex("04 00 0A 00 01 00"));
    let twice = [&x[..], &x, &y].concat();
    assert_eq!(outcome(&twice, 64, 4), (0, 3, 4, 1));
    assert_eq!(outcome(&twice, 64, 3), (8, 2, 3, 1));
    for limit in 0..=2 {
        assert_eq!(outcome(&twice, 64, limit), (8, 0, 2, 0));
    }
    // 7 is tested before 8.
    assert_eq!(outcome(&bits(3), 2, 2).0, 7);
    assert_eq!(outcome(&bits(2), 2, 2).0, 8);
    assert_eq!(outcome(&specimen(), 1, 10).0, 0);
    assert_eq!(outcome(&specimen(), 1, 9), (8, 7, 9, 0));
}

/// The two lines of an .expect file, and every limit of generated cases read back.
#[test]
fn lines() {
    let limits = Limits { width: 1, terms: 10 };
    let text = Limited::of(&specimen(), LENT, limits).text(limits);
    assert_eq!(text, "within 1 10\ncame 0 9 1 10 0 0800c800090000000200\n");
    for i in 30..60 {
        let case = case(5, i);
        let read: Vec<Limits> = case.text().lines().filter_map(parse).collect();
        assert_eq!(read, case.under);
        assert_eq!(case.limited(Limits { width: 64, terms: 65_535 }), case.limited(RACK));
    }
}
