//! Stand-in for the `rug` crate: only what term.rs and bitvectors.rs use. Values stay within i128
//! (the largest is below 2^65), and every operation is overflow checked.
use std::fmt;
use std::ops::{Add, AddAssign, Div, Neg, Sub};

#[derive(Clone, PartialEq, Eq, Hash, PartialOrd, Ord, Default)]
pub struct Integer(i128);

/// The incomplete result of `Integer::i_pow_u`, as in rug.
pub struct IPowU(i32, u32);

impl Integer {
    pub fn new() -> Self {
        Integer(0)
    }
    pub fn i_pow_u(base: i32, exp: u32) -> IPowU {
        IPowU(base, exp)
    }
    pub fn to_usize(&self) -> Option<usize> {
        usize::try_from(self.0).ok()
    }
    pub fn to_i128(&self) -> i128 {
        self.0
    }
}

impl From<IPowU> for Integer {
    fn from(p: IPowU) -> Self {
        Integer(i128::from(p.0).checked_pow(p.1).expect("shim Integer overflow"))
    }
}
impl From<usize> for Integer {
    fn from(v: usize) -> Self {
        Integer(v as i128)
    }
}
impl From<u64> for Integer {
    fn from(v: u64) -> Self {
        Integer(v.into())
    }
}
impl From<i32> for Integer {
    fn from(v: i32) -> Self {
        Integer(v.into())
    }
}
impl Add<Integer> for &Integer {
    type Output = Integer;
    fn add(self, o: Integer) -> Integer {
        Integer(self.0.checked_add(o.0).expect("shim Integer overflow"))
    }
}
impl AddAssign<i32> for Integer {
    fn add_assign(&mut self, o: i32) {
        self.0 = self.0.checked_add(o.into()).expect("shim Integer overflow");
    }
}
impl Sub<i32> for Integer {
    type Output = Integer;
    fn sub(self, o: i32) -> Integer {
        Integer(self.0.checked_sub(o.into()).expect("shim Integer overflow"))
    }
}
impl Neg for Integer {
    type Output = Integer;
    fn neg(self) -> Integer {
        Integer(-self.0)
    }
}
impl PartialEq<i32> for Integer {
    fn eq(&self, o: &i32) -> bool {
        self.0 == i128::from(*o)
    }
}
impl fmt::Display for Integer {
    fn fmt(&self, f: &mut fmt::Formatter) -> fmt::Result {
        self.0.fmt(f)
    }
}
impl fmt::Debug for Integer {
    fn fmt(&self, f: &mut fmt::Formatter) -> fmt::Result {
        self.0.fmt(f)
    }
}

/// Only named by term.rs; no term of the job is a real number.
#[derive(Clone, PartialEq, Eq, Hash, Debug)]
pub struct Rational(i128, i128);

impl Rational {
    pub fn is_zero(&self) -> bool {
        self.0 == 0
    }
}
impl From<Integer> for Rational {
    fn from(v: Integer) -> Self {
        Rational(v.0, 1)
    }
}
impl Neg for Rational {
    type Output = Rational;
    fn neg(self) -> Rational {
        Rational(-self.0, self.1)
    }
}
impl Div for Rational {
    type Output = Rational;
    fn div(self, _: Rational) -> Rational {
        unimplemented!("no real numbers in the shim")
    }
}
