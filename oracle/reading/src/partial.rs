//! Bits of which only part is known: 0, 1, or 2 for not known.
use crate::kind::*;
use crate::pool::{Id, Pool};
use crate::sort::Sort;

/// Not known.
pub const OPEN: u8 = 2;

/// Whether a term of bits holds it: variables, constants, `true`, `false`, gates over Bools, BvBitOf and BvBbTerm.
pub fn is_of_bits(pool: &Pool, id: Id) -> bool {
    match pool.kind(id) {
        BOOL | VARIABLE | CONSTANT | TRUE | FALSE | NOT | AND | OR | XOR | ITE | BIT_OF | BB_TERM => true,
        EQUALS => pool.sort(pool.args(id)[0]) == Sort::Bool,
        _ => false,
    }
}

/// `decided` if an argument is that, its opposite if all are the opposite, else not known: And is decided by 0, Or by 1.
fn decided_by(decided: u8, bits: &[u8]) -> u8 {
    if bits.contains(&decided) {
        decided
    } else if bits.contains(&OPEN) {
        OPEN
    } else {
        1 - decided
    }
}

/// Whether an odd number of them is 1; not known if one of them is not.
fn odd(bits: &[u8]) -> u8 {
    if bits.contains(&OPEN) { OPEN } else { bits.iter().sum::<u8>() % 2 }
}

/// The bits of terms `below`, which hold their arguments, each at its place; `given` has those of the variables.
pub fn derive(pool: &Pool, below: &[Id], given: &mut dyn FnMut(Id) -> Vec<u8>) -> Vec<Vec<u8>> {
    let mut bits: Vec<Vec<u8>> = vec![Vec::new(); below.last().map_or(0, |&root| root + 1)];
    for &id in below {
        let term = pool.term(id);
        // Of a Bool the first bit is the only one.
        let v: Vec<u8> = term.args.iter().map(|&a| bits[a][0]).collect();
        bits[id] = match term.kind {
            BOOL | VARIABLE => given(id),
            CONSTANT => (0..term.numbers[0]).map(|k| (term.numbers[1] >> k & 1) as u8).collect(),
            TRUE => vec![1],
            FALSE => vec![0],
            NOT => vec![odd(&[v[0], 1])],
            AND => vec![decided_by(0, &v)],
            OR => vec![decided_by(1, &v)],
            XOR => vec![odd(&v)],
            EQUALS => vec![odd(&[v[0], v[1], 1])],
            ITE => vec![match v[0] {
                0 => v[2],
                1 => v[1],
                _ if v[1] == v[2] => v[1],
                _ => OPEN,
            }],
            BIT_OF => vec![bits[term.args[0]][term.numbers[0] as usize]],
            BB_TERM => v,
            kind => unreachable!("kind {kind} is not of bits"),
        };
    }
    bits
}
