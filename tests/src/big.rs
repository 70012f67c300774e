//! Signed integers of any size, as a sign and a magnitude.
//!
//! The magnitude is a list of 64-bit limbs, lowest first, that does not end in a zero limb. Zero
//! has no limbs and is not negative. So equal integers are equal values.

use std::cmp::Ordering;
use std::ops::{Add, Mul, Neg, Sub};

#[derive(Clone, Debug, PartialEq, Eq)]
pub struct Big {
    negative: bool,
    limbs: Vec<u64>,
}

impl Big {
    fn new(negative: bool, mut limbs: Vec<u64>) -> Big {
        while limbs.last() == Some(&0) {
            limbs.pop();
        }
        let negative = negative && !limbs.is_empty();
        Big { negative, limbs }
    }

    pub fn zero() -> Big {
        Big::new(false, Vec::new())
    }

    pub fn power_of_two(exponent: usize) -> Big {
        let mut limbs = vec![0; exponent / 64];
        limbs.push(1 << (exponent % 64));
        Big::new(false, limbs)
    }

    pub fn is_zero(&self) -> bool {
        self.limbs.is_empty()
    }

    /// The count of binary digits of the magnitude; 0 for zero.
    pub fn bits(&self) -> usize {
        match self.limbs.last() {
            None => 0,
            Some(top) => self.limbs.len() * 64 - top.leading_zeros() as usize,
        }
    }

    /// This integer modulo 2^m, in 0 to 2^m − 1.
    pub fn modulo_power(&self, m: usize) -> Big {
        let mut limbs = self.limbs.clone();
        limbs.truncate(m.div_ceil(64));
        if !m.is_multiple_of(64) && limbs.len() == m.div_ceil(64) {
            limbs[m / 64] %= 1 << (m % 64);
        }
        let cut = Big::new(false, limbs);
        if self.negative && !cut.is_zero() {
            &Big::power_of_two(m) - &cut
        } else {
            cut
        }
    }

    /// This integer as a word, where it is one.
    pub fn to_u64(&self) -> Option<u64> {
        match (self.negative, self.limbs.as_slice()) {
            (false, []) => Some(0),
            (false, [word]) => Some(*word),
            _ => None,
        }
    }
}

impl From<u64> for Big {
    fn from(word: u64) -> Big {
        Big::new(false, vec![word])
    }
}

impl From<i128> for Big {
    fn from(integer: i128) -> Big {
        let magnitude = integer.unsigned_abs();
        Big::new(
            integer < 0,
            vec![magnitude as u64, (magnitude >> 64) as u64],
        )
    }
}

impl Neg for &Big {
    type Output = Big;

    fn neg(self) -> Big {
        Big::new(!self.negative, self.limbs.clone())
    }
}

impl Add for &Big {
    type Output = Big;

    fn add(self, other: &Big) -> Big {
        sum(self, other.negative, &other.limbs)
    }
}

impl Sub for &Big {
    type Output = Big;

    fn sub(self, other: &Big) -> Big {
        sum(self, !other.negative, &other.limbs)
    }
}

impl Mul for &Big {
    type Output = Big;

    fn mul(self, other: &Big) -> Big {
        let negative = self.negative != other.negative;
        Big::new(negative, multiply(&self.limbs, &other.limbs))
    }
}

/// `left` plus the integer with this sign and this magnitude.
fn sum(left: &Big, negative: bool, magnitude: &[u64]) -> Big {
    if left.negative == negative {
        return Big::new(negative, add(&left.limbs, magnitude));
    }
    match order(&left.limbs, magnitude) {
        Ordering::Less => Big::new(negative, subtract(magnitude, &left.limbs)),
        _ => Big::new(left.negative, subtract(&left.limbs, magnitude)),
    }
}

fn order(a: &[u64], b: &[u64]) -> Ordering {
    let by_length = a.len().cmp(&b.len());
    by_length.then_with(|| a.iter().rev().cmp(b.iter().rev()))
}

fn limb(a: &[u64], index: usize) -> u128 {
    a.get(index).copied().unwrap_or(0).into()
}

fn add(a: &[u64], b: &[u64]) -> Vec<u64> {
    let mut carry = 0;
    let mut result = Vec::new();
    for index in 0..a.len().max(b.len()) {
        let total = limb(a, index) + limb(b, index) + carry;
        result.push(total as u64);
        carry = total >> 64;
    }
    result.push(carry as u64);
    result
}

/// `a` less `b`, for `a` at least `b`.
fn subtract(a: &[u64], b: &[u64]) -> Vec<u64> {
    let mut borrow = 0;
    let mut result = Vec::new();
    for index in 0..a.len() {
        let total = (1 << 64) + limb(a, index) - limb(b, index) - borrow;
        result.push(total as u64);
        borrow = 1 - (total >> 64);
    }
    assert_eq!(borrow, 0, "a magnitude is not negative");
    result
}

fn multiply(a: &[u64], b: &[u64]) -> Vec<u64> {
    let mut result = vec![0; a.len() + b.len()];
    for (shift, &left) in a.iter().enumerate() {
        let mut carry = 0;
        for (index, &right) in b.iter().enumerate() {
            let cell = &mut result[shift + index];
            let total = u128::from(left) * u128::from(right) + u128::from(*cell) + carry;
            *cell = total as u64;
            carry = total >> 64;
        }
        result[shift + b.len()] = carry as u64;
    }
    result
}

#[cfg(test)]
mod tests {
    use super::*;
    use crate::random::Random;

    /// Integers of all lengths up to 126 bits, of both signs, with the ends of the limbs.
    fn samples() -> Vec<i128> {
        let mut random = Random::new(0xb16);
        let mut list = vec![0];
        for bits in 0..126 {
            let power = 1i128 << bits;
            let inner = (u128::from(random.word()) << 64 | u128::from(random.word())) as i128;
            list.extend([power, power - 1, power + 1, inner.rem_euclid(power)]);
        }
        let negatives: Vec<i128> = list.iter().map(|integer| -integer).collect();
        list.extend(negatives);
        list
    }

    #[test]
    fn agrees_with_machine_integers() {
        let list = samples();
        for &a in &list {
            let big = Big::from(a);
            assert_eq!(-&big, Big::from(-a));
            assert_eq!(
                big.bits(),
                128 - a.unsigned_abs().leading_zeros() as usize,
                "{a}"
            );
            assert_eq!(big.to_u64(), u64::try_from(a).ok());
            for &b in &list {
                assert_eq!(&big + &Big::from(b), Big::from(a + b), "{a} + {b}");
                assert_eq!(&big - &Big::from(b), Big::from(a - b), "{a} - {b}");
                if let Some(product) = a.checked_mul(b) {
                    assert_eq!(&big * &Big::from(b), Big::from(product), "{a} * {b}");
                }
            }
        }
    }

    #[test]
    fn remainders_agree_with_machine_integers() {
        for a in samples() {
            for m in 0..126 {
                let expected = Big::from(a.rem_euclid(1 << m));
                assert_eq!(Big::from(a).modulo_power(m), expected, "{a} mod 2^{m}");
            }
        }
    }

    #[test]
    fn ring_laws_of_long_integers() {
        let mut random = Random::new(0xb17);
        for _ in 0..300 {
            let mut long = || {
                let count = random.below(12);
                let limbs = (0..count).map(|_| random.edged_word()).collect();
                Big::new(random.chance(50), limbs)
            };
            let (a, b, c) = (long(), long(), long());
            assert_eq!(&(&a + &b) - &b, a);
            assert_eq!(&a * &b, &b * &a);
            assert_eq!(&(&a * &b) * &c, &a * &(&b * &c));
            assert_eq!(&a * &(&b + &c), &(&a * &b) + &(&a * &c));
            for m in [1, 63, 64, 65, 200] {
                let rest = a.modulo_power(m);
                assert!(!rest.negative && rest.bits() <= m);
                assert!((&a - &rest).modulo_power(m).is_zero());
            }
        }
    }
}
