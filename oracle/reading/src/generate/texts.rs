//! Texts from a seed, and what the reading makes of them.
use crate::{
    rng::Rng,
    text::{convert, expect_text, operations, rules},
};
use std::{fs, io, path::Path};

/// Room for the job of any of these texts.
const ROOM: usize = 1 << 20;

/// Writes the cases NNNNN.alethe and NNNNN.expect; how many texts are accepted, and how many are refused.
pub fn write_texts(seed: u64, count: usize, folder: &Path) -> io::Result<(usize, usize)> {
    fs::create_dir_all(folder)?;
    let edges = edges();
    let (mut accepted, mut refused) = (0, 0);
    for k in 0..count {
        let mut rng = Rng::new(seed.wrapping_mul(1_000_003).wrapping_add(k as u64));
        let text = match edges.get(k) {
            Some(text) => text.clone(),
            None => text(&mut rng),
        };
        let whole = convert(&text, ROOM).map_or(0, |job| job.len());
        let room = match rng.below(10) {
            0 => whole,
            1 => whole.saturating_sub(1),
            2 => rng.below(whole + 1),
            _ => whole + rng.below(40),
        };
        let expect = expect_text(&text, room);
        if expect.contains("\ncode 0\n") {
            accepted += 1
        } else {
            refused += 1
        }
        fs::write(folder.join(format!("{k:05}.alethe")), &text)?;
        fs::write(folder.join(format!("{k:05}.expect")), expect)?;
    }
    Ok((accepted, refused))
}

/// A text: right, or with a fault.
fn text(rng: &mut Rng) -> Vec<u8> {
    let mut maker = Maker { names: Vec::new() };
    let mut lines = Vec::new();
    for k in 0..rng.range(0, 6) {
        lines.push(maker.declaration(rng, k));
    }
    for _ in 0..rng.range(0, 8) {
        lines.push(maker.step(rng));
    }
    let mut text = lines.join("\n").into_bytes();
    if rng.chance(80) {
        text.push(b'\n');
    }
    if rng.chance(50) {
        damage(rng, &mut text);
    }
    text
}

/// Changes a text in one place: a byte changed, added or left out, the end cut, a part repeated or left out, two lines exchanged.
fn damage(rng: &mut Rng, text: &mut Vec<u8>) {
    if text.is_empty() {
        return;
    }
    let (at, other) = (rng.below(text.len()), rng.below(text.len()));
    let (low, high) = (at.min(other), at.max(other));
    let bytes = b"()# \t\r\n;|\"\0\x80_=:abx019bv";
    match rng.below(8) {
        0 => text[at] = rng.pick(bytes),
        1 => text.insert(at, rng.pick(bytes)),
        2 => drop(text.remove(at)),
        3 => text.truncate(at),
        4 => drop(text.drain(low..high)),
        5 => {
            let part = text[low..high].to_vec();
            text.splice(high..high, part);
        }
        6 => text.swap(low, high),
        _ => {
            let mut lines: Vec<Vec<u8>> = text.split(|&byte| byte == b'\n').map(<[u8]>::to_vec).collect();
            let (one, two) = (rng.below(lines.len()), rng.below(lines.len()));
            lines.swap(one, two);
            *text = lines.join(&b'\n');
        }
    }
}

struct Maker {
    names: Vec<String>,
}

impl Maker {
    fn declaration(&mut self, rng: &mut Rng, k: usize) -> String {
        let name = match rng.below(12) {
            0 => "x".repeat(rng.range(1, 300)),
            1 => rng
                .pick(&[
                    "par", "let", "!", "Bool", "BitVec", "cl", "bv", "bv01", "bv1", "step", "and", "extract", "true",
                    "_", "9a",
                ])
                .to_owned(),
            2 => format!("~!@$%^&*_-+=<>.?/{k}"),
            _ => format!("v{k}"),
        };
        let sort = match rng.below(8) {
            0 | 1 => "Bool".to_owned(),
            2 => rng
                .pick(&[
                    "(_ BitVec 0)",
                    "(_ BitVec 65535)",
                    "(_ BitVec 65536)",
                    "(_ BitVec 08)",
                    "( _  BitVec\t8 )",
                    "(_ BitVec x)",
                ])
                .to_owned(),
            _ => format!("(_ BitVec {})", rng.range(1, 64)),
        };
        let line = format!("(declare-const {name} {sort})");
        self.names.push(name);
        spaced(rng, line)
    }

    fn step(&mut self, rng: &mut Rng) -> String {
        let deep = rng.range(0, 5);
        let term = self.term(rng, deep);
        let name = rng.pick(&["t1", "s", "and", "@p", "step"]);
        let rule = if rng.chance(95) { rng.pick(rules()) } else { rng.pick(&["foo", "And", "refl", ":rule", "0"]) };
        spaced(rng, format!("(step {name} (cl {term}) :rule {rule})"))
    }

    fn term(&mut self, rng: &mut Rng, deep: usize) -> String {
        if deep == 0 || rng.chance(15) {
            return self.leaf(rng);
        }
        match rng.below(10) {
            0 => format!("((_ @bit_of {}) {})", index(rng), self.term(rng, deep - 1)),
            1 => format!("((_ extract {} {}) {})", index(rng), index(rng), self.term(rng, deep - 1)),
            2 => format!("((_ sign_extend {}) {})", index(rng), self.term(rng, deep - 1)),
            _ => {
                let (name, _, least, most) = rng.pick(operations());
                let count = if rng.chance(4) { rng.range(0, 4) } else { rng.range(least, most.min(4)) };
                let arguments: String = (0..count).map(|_| format!(" {}", self.term(rng, deep - 1))).collect();
                format!("({name}{arguments})")
            }
        }
    }

    fn leaf(&self, rng: &mut Rng) -> String {
        match rng.below(8) {
            0 => "true".to_owned(),
            1 => "false".to_owned(),
            2 => format!("#b{:b}", rng.below(32)),
            3 => format!("#x{:x}", rng.value()),
            4 => format!("#x{:X}", rng.below(256)),
            5 => format!("(_ bv{} {})", rng.value(), index(rng)),
            _ if self.names.is_empty() => "v9".to_owned(),
            _ => self.names[rng.below(self.names.len())].clone(),
        }
    }
}

/// An index, most often a small one.
fn index(rng: &mut Rng) -> String {
    match rng.below(20) {
        0 => rng.pick(&["65535", "65536", "007", "x", "-1", "99999999999999999999"]).to_owned(),
        _ => rng.below(70).to_string(),
    }
}

/// Other blanks, and none beside a parenthesis.
fn spaced(rng: &mut Rng, line: String) -> String {
    match rng.below(5) {
        0 => line.replace(" (", "(").replace(") ", ")"),
        1 => format!(" \t{}\r", line.replace(' ', "  ")),
        2 => line.replace(' ', "\t"),
        _ => line,
    }
}

/// Texts at the edges of the form.
fn edges() -> Vec<Vec<u8>> {
    let step = |term: &str| format!("(declare-const x Bool)\n(step s (cl {term}) :rule and)\n").into_bytes();
    let nested = |depth: usize| step(&format!("{}x{}", "(not ".repeat(depth), ")".repeat(depth)));
    let many = |count: usize| step(&format!("(and{})", " x".repeat(count)));
    let constant = |word: &str| step(&format!("(= {word} {word})"));
    let named = |name: &str| format!("(declare-const {name} Bool)\n").into_bytes();
    let mut edges: Vec<Vec<u8>> = [
        "",
        "\n",
        " ",
        " \n",
        "()",
        "(",
        ")",
        "; note\n",
        "(declare-const x Bool)\n\n",
        "(declare-const x Bool)\n \n",
        "(declare-const x Bool)",
        "(declare-const x Bool)(declare-const y Bool)\n",
        "(declare-const x Bool)\n(declare-const x Bool)\n",
        "(step s (cl true) :rule and)\n(declare-const x Bool)\n",
        "(step s (cl) :rule and)\n",
        "(step s (cl true false) :rule and)\n",
        "(step s(cl true):rule and)\n",
        "(step s (cl true) :rule and) x\n",
        "(step s (cl true) :rule and\n)\n",
        "(step |s| (cl true) :rule and)\n",
        "(step \"s\" (cl true) :rule and)\n",
        "(step 1s (cl true) :rule and)\n",
        "(declare-const x Int)\n",
        "(declare-const x (_ BitVec 8) )\n",
        "\r\n",
        "(declare-const x Bool)\r\n(step s (cl x) :rule var)\r\n",
        "(declare-fun x Bool)\n",
        "(define x)\n",
        "step s\n",
        "\u{e9}\n",
    ]
    .iter()
    .map(|text| text.as_bytes().to_vec())
    .collect();
    edges.extend([nested(0), nested(199), nested(200), nested(201), nested(5_000)]);
    edges.extend([many(0), many(1), many(64), many(65), many(500)]);
    edges.extend(
        [
            "#b",
            "#x",
            "#b2",
            "#xG",
            "#xg",
            "#b0",
            "#b1",
            "#x0F",
            "#x0f",
            "#xffffffffffffffff",
            "#x10000000000000000",
            "#x00000000000000001",
            "(_ bv1 1)",
            "(_ bv2 1)",
            "(_ bv01 4)",
            "(_ bv0 0)",
            "(_ bv18446744073709551615 64)",
            "(_ bv18446744073709551616 65)",
            "(_ bv 4)",
            "(_ bv1 65535)",
            "(_ bv1 65536)",
            "(_ bvx 4)",
            "#",
            "#o7",
            ":x",
        ]
        .map(constant),
    );
    edges.push(constant(&format!("#b{}", "0".repeat(65_535))));
    edges.push(constant(&format!("#b{}", "0".repeat(65_536))));
    edges.push(constant(&format!("#x{}", "0".repeat(16_383))));
    edges.push(constant(&format!("#x{}", "0".repeat(16_384))));
    edges.extend(
        [
            "not",
            "bvurem",
            "@bit_of",
            "@bbterm",
            "extract",
            "sign_extend",
            "true",
            "false",
            "_",
            "bv0",
            "bv00",
            "bv",
            "bv1x",
            "bv99999999999999999999",
            "zero_extend",
            "cl",
            "#x",
            ":a",
            "0",
            "a0",
            "x'",
            "x,y",
        ]
        .map(named),
    );
    edges.push(named(&"n".repeat(70_000)));
    edges.push(step("(= #b01 (_ bv1 2))"));
    edges.push(step("(= #x1 #b0001)"));
    edges.push(step("(not (not x x))"));
    edges.push(step("((_ @bit_of 9) x)"));
    edges.push(step("((_ @bit_of) x)"));
    edges.push(step("((_ @bit_of 1 2) x)"));
    edges.push(step("((_ extract 1) x)"));
    edges.push(step("(_ extract 1 0)"));
    edges.push(step("((extract 1 0) x)"));
    edges.push(step("(extract 1 0 x)"));
    edges.push(step("((_ bvadd 1) x x)"));
    edges.push(step("(x)"));
    edges.push(step("((x))"));
    edges.push(step("y"));
    edges
}
