//! The values of document 01's Meaning, for a spot check of held steps on random assignments.
use crate::job::{Kept, Sort};
use std::collections::HashMap;

fn mask(w: u32) -> u64 {
    if w == 64 { u64::MAX } else { (1 << w) - 1 }
}

fn w16(r: &[u8], at: usize) -> usize {
    usize::from(u16::from_le_bytes([r[at], r[at + 1]]))
}

/// The value of term `root`; a variable's value is `var(record bytes)`, cut to its width.
pub fn eval(terms: &[Kept], root: usize, var: &dyn Fn(&[u8]) -> u64) -> u64 {
    let mut val: HashMap<usize, u64> = HashMap::new();
    let mut stack = vec![root];
    while let Some(&t) = stack.last() {
        if val.contains_key(&t) {
            stack.pop();
            continue;
        }
        let r = &terms[t].record;
        if r.is_empty() {
            val.insert(t, u64::from(t == 0));
            continue;
        }
        let kind = w16(r, 0);
        let skip = match kind {
            10..=12 => r.len(),
            30 | 58 => 4,
            57 => 6,
            _ => 2,
        };
        let args: Vec<usize> = r[skip..].chunks_exact(2).map(|c| w16(c, 0)).collect();
        let open: Vec<usize> = args.iter().copied().filter(|a| !val.contains_key(a)).collect();
        if !open.is_empty() {
            stack.extend(open);
            continue;
        }
        let v: Vec<u64> = args.iter().map(|a| val[a]).collect();
        let width = |t: usize| match terms[t].sort {
            Sort::Bool => 1,
            Sort::Bv(w) => w,
        };
        let m = mask(width(t));
        let n = args.first().map_or(1, |&a| width(a));
        let signed = |x: u64| {
            if n < 64 && x >> (n - 1) & 1 == 1 {
                x as i128 - (1i128 << n)
            } else if n == 64 {
                x as i64 as i128
            } else {
                x as i128
            }
        };
        let out = match kind {
            10 | 11 => var(r) & m,
            12 => u64::from_le_bytes(r[4..12].try_into().unwrap()),
            20 => 1 - v[0],
            21 | 42 => v.iter().fold(m, |a, b| a & b),
            22 | 43 => v.iter().fold(0, |a, b| a | b),
            23 | 44 => v.iter().fold(0, |a, b| a ^ b),
            24 | 48 => u64::from(v[0] == v[1]),
            25 => {
                if v[0] == 1 {
                    v[1]
                } else {
                    v[2]
                }
            }
            30 => v[0] >> w16(r, 2) & 1,
            31 => v.iter().enumerate().fold(0, |a, (i, b)| a | b << i),
            40 => !v[0] & m,
            41 => v[0].wrapping_neg() & m,
            45 => v.iter().fold(0u64, |a, &b| a.wrapping_add(b)) & m,
            46 => v.iter().fold(1u64, |a, &b| a.wrapping_mul(b)) & m,
            47 => !(v[0] ^ v[1]) & m,
            49 => u64::from(v[0] < v[1]),
            50 => u64::from(signed(v[0]) < signed(v[1])),
            51 => {
                if v[1] < u64::from(n) {
                    v[0] << v[1] & m
                } else {
                    0
                }
            }
            52 => {
                if v[1] < u64::from(n) {
                    v[0] >> v[1]
                } else {
                    0
                }
            }
            53 => (signed(v[0]) >> v[1].min(100)) as u64 & m,
            54 => v[0].checked_div(v[1]).unwrap_or(m),
            55 => v[0].checked_rem(v[1]).unwrap_or(v[0]),
            56 => args.iter().zip(&v).fold(0u128, |a, (&t, &b)| a << width(t) | u128::from(b)) as u64,
            57 => v[0] >> w16(r, 4) & m,
            58 => signed(v[0]) as u64 & m,
            _ => unreachable!(),
        };
        val.insert(t, out);
        stack.pop();
    }
    val[&root]
}
