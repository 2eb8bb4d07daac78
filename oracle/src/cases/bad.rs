//! Records that stop a job.
use super::{Case, with_enough};
use crate::maker::Maker;

impl Maker {
    /// A number of a kept term with the given sort, written if there is none.
    fn a_bool(&mut self) -> u16 {
        let t = self.any_bool(1);
        self.emit(&t)
    }
    fn a_bv(&mut self, w: usize) -> u16 {
        let t = self.operand(w, 1);
        self.emit(&t)
    }

    /// A record that breaks code 7 (or, for the last few, just does not).
    #[rustfmt::skip]
    fn bad_sort(&mut self, which: usize) -> &'static str {
        let w = self.rng.range(1, 63);
        let wide = self.rng.range(w + 1, 64);
        let b = self.a_bool();
        let x = self.a_bv(w);
        let y = self.a_bv(wide);
        let constant = |m: &mut Maker, w: u16, v: u64| {
            let mut body = w.to_le_bytes().to_vec();
            body.extend_from_slice(&v.to_le_bytes());
            m.record(12, &body);
        };
        let w16 = w as u16;
        let mixed = |m: &mut Maker, kind: u16, good: u16, bad: u16| {
            let n = *m.rng.pick(&[1, 2, 3, 64]);
            let mut args = vec![good; n];
            let k = m.rng.below(n);
            args[k] = bad;
            m.words(kind, &args);
        };
        match which % 40 {
            0 => { self.words(11, &[0, 0]); "11 width 0" }
            1 => { self.words(11, &[65, 0]); "11 width 65" }
            2 => { self.words(11, &[65535, 0]); "11 width 65535" }
            3 => { constant(self, 0, 0); "12 width 0" }
            4 => { constant(self, 65, 0); "12 width 65" }
            5 => { constant(self, w16, 1 << w); "12 value 2^w" }
            6 => { constant(self, w16, u64::MAX); "12 value all ones" }
            7 => { constant(self, 320, 1); "12 width 320" }
            8 => { self.words(20, &[x]); "Not of bv" }
            9 => { mixed(self, 21, b, x); "And with bv" }
            10 => { mixed(self, 22, b, x); "Or with bv" }
            11 => { self.words(23, &[b, x]); "Xor with bv" }
            12 => { self.words(23, &[x, x]); "Xor of bvs" }
            13 => { self.words(24, &[b, x]); "Equals Bool bv" }
            14 => { self.words(24, &[x, y]); "Equals of two widths" }
            15 => { self.words(25, &[b, x, x]); "Ite of bvs" }
            16 => { self.words(25, &[x, b, b]); "Ite on bv" }
            17 => { self.words(30, &[0, b]); "BvBitOf Bool" }
            18 => { self.words(30, &[w16, x]); "BvBitOf index n" }
            19 => { self.words(30, &[65535, x]); "BvBitOf index 65535" }
            20 => { mixed(self, 31, b, x); "BvBbTerm with bv" }
            21 => { self.words(40, &[b]); "BvNot of Bool" }
            22 => { self.words(41, &[b]); "BvNeg of Bool" }
            23 => { let k = self.rng.range(42, 46) as u16; mixed(self, k, x, b); "n-ary with Bool" }
            24 => {
                let k = self.rng.range(42, 46) as u16;
                if self.rng.chance(50) { self.words(k, &[x, y]) } else { self.words(k, &[x, x, y, x]) }
                "n-ary of two widths"
            }
            25 => { let k = self.rng.range(47, 55) as u16; self.words(k, &[x, y]); "binary of two widths" }
            26 => { let k = self.rng.range(47, 55) as u16; self.words(k, &[x, b]); "binary with Bool" }
            27 => { let k = self.rng.range(47, 55) as u16; self.words(k, &[b, b]); "binary of Bools" }
            28 => { mixed(self, 56, x, b); "concat with Bool" }
            29 => { self.words(56, &vec![x; 64 / w + 1]); "concat beyond 64" }
            30 => { self.words(56, &[y; 64]); "concat far beyond 64" }
            31 => { self.words(57, &[0, 1, y]); "extract i below j" }
            32 => { self.words(57, &[w16, 0, x]); "extract i is n" }
            33 => { self.words(57, &[65535, 65535, x]); "extract far out" }
            34 => { self.words(57, &[0, 0, b]); "extract of Bool" }
            35 => { self.words(58, &[65 - w16, x]); "sign_extend to 65" }
            36 => { self.words(58, &[65535, x]); "sign_extend 65535" }
            37 => { self.words(58, &[0, b]); "sign_extend of Bool" }
            38 => { self.words(58, &[64 - w16, x]); "sign_extend to 64, fits" }
            _ => { constant(self, 64, u64::MAX); "12 all ones at 64, fits" }
        }
    }

    /// A record that breaks code 6 (sometimes a later code too).
    #[rustfmt::skip]
    fn bad_argument(&mut self, which: usize) -> &'static str {
        let n = self.list.len() as u16;
        let out = *self.rng.pick(&[n, n, n + 1, 65535]);
        let x = self.a_bv(4);
        let n2 = self.list.len() as u16;
        let out = if out < n2 { n2 } else { out };
        match which % 9 {
            0 => { self.words(20, &[out]); "Not" }
            1 => {
                let len = self.rng.range(1, 64);
                let mut args = vec![0; len];
                let k = self.rng.below(len);
                args[k] = out;
                self.words(21, &args);
                "And"
            }
            2 => { self.words(24, &[x, out]); "Equals" }
            3 => { self.words(25, &[x, x, out]); "Ite, ill-sorted too" }
            4 => { self.words(30, &[99, out]); "BvBitOf, index out too" }
            5 => { self.words(45, &[x, 0, out]); "BvAdd, ill-sorted too" }
            6 => { self.words(57, &[0, 5, out]); "extract, indices out too" }
            7 => { self.step(99, &[0, out]); "step, rule out too" }
            _ => { self.step(2, &[out]); "step" }
        }
    }

    /// A record that breaks code 5 (sometimes a later code too).
    #[rustfmt::skip]
    fn bad_length(&mut self, which: usize) -> &'static str {
        match which % 16 {
            0 => { self.words(20, &[0, 1]); "Not of two" }
            1 => { self.words(20, &[]); "Not of none" }
            2 => { self.words(21, &[]); "And of none" }
            3 => { self.words(21, &[0; 65]); "And of 65" }
            4 => { self.words(22, &[9999; 65]); "Or of 65, arguments out too" }
            5 => { self.words(23, &[0, 1, 0]); "Xor of three" }
            6 => { self.words(25, &[0, 1]); "Ite of two" }
            7 => { let k = *self.rng.pick(&[10, 11, 12, 20, 21, 31, 42, 56, 57, 100, 101]); self.record(k, &[0; 3]); "three bytes" }
            8 => { self.words(11, &[4]); "11 without name" }
            9 => { self.words(12, &[4, 0, 0, 0]); "12 with six bytes of value" }
            10 => { self.words(100, &[]); "step without rule" }
            11 => { self.words(100, &[0; 66]); "step of 65 literals" }
            12 => { self.words(101, &[]); "back without count" }
            13 => { self.words(101, &[2, 2]); "back with two counts" }
            14 => { let k = *self.rng.pick(&[10, 31, 46, 56, 58]); self.record(k, &vec![0; self.rng.clone().range(129, 4000)]); "long body" }
            _ => { let k = self.rng.range(47, 55) as u16; self.words(k, &[0]); "binary of one" }
        }
    }

    /// Kinds that neither document 01 nor document 02 has.
    fn bad_kind(&mut self, which: usize) -> &'static str {
        let kind = [
            0, 1, 2, 9, 13, 14, 19, 26, 29, 32, 39, 59, 64, 65, 99, 102, 105, 106, 150, 199, 200, 255, 256, 266, 276,
            356, 2560, 65535,
        ][which % 28];
        let len = *self.rng.pick(&[0, 1, 2, 4, 10, 200]);
        self.record(kind, &vec![0; len]);
        "kind unknown"
    }

    #[rustfmt::skip]
    fn bad_end(&mut self, which: usize) -> &'static str {
        match which % 6 {
            0 => { self.bytes.push(6); "one byte left" }
            1 => { self.bytes.extend([0, 0]); "L 0" }
            2 => { self.bytes.extend([1, 0, 20, 0, 0, 0]); "L 1" }
            3 => { self.bytes.extend([255, 255, 20, 0, 0, 0]); "L 65535" }
            4 => { self.bytes.extend([4, 0, 20, 0, 0]); "one byte short" }
            _ => { self.bytes.extend([2, 0, 20]); "kind cut" }
        }
    }

    fn bad_back(&mut self, which: usize) -> &'static str {
        let n = self.list.len();
        let to = [0, 1, n + 1, 65535][which % 4];
        self.words(101, &[to as u16]);
        "back"
    }

    /// Rules that neither document 01 nor document 02 has.
    fn bad_rule(&mut self, which: usize) -> &'static str {
        let rule = [0, 99, 100, 256, 279, 65535][which % 6];
        let n = *self.rng.pick(&[0, 1, 2, 64]);
        self.step(rule, &vec![0; n]);
        "rule"
    }
}

/// How many bad records there are of each group of `bad`.
const GROUPS: [usize; 7] = [40, 9, 16, 28, 6, 4, 6];

pub(super) const COUNT: usize = 40 + 9 + 16 + 28 + 6 + 4 + 6;

/// Each bad record once, after a short job.
pub(super) fn case(m: &mut Maker, i: usize) -> Case {
    let (mut group, mut which) = (0, i);
    while which >= GROUPS[group] {
        which -= GROUPS[group];
        group += 1;
    }
    let x = m.var(4, 0);
    let bits = m.bits(&x);
    let b = m.bb(bits);
    m.claim(2, &x, &b);
    let what = m.bad(group, which);
    if group != 4 {
        m.words(10, &[1]); // not read
    }
    let mut case = with_enough(m, format!("bad record: {}", what));
    case.work += 800;
    case
}

impl Maker {
    pub(super) fn bad(&mut self, group: usize, which: usize) -> &'static str {
        match group {
            0 => self.bad_sort(which),
            1 => self.bad_argument(which),
            2 => self.bad_length(which),
            3 => self.bad_kind(which),
            4 => self.bad_end(which),
            5 => self.bad_back(which),
            _ => self.bad_rule(which),
        }
    }
}
