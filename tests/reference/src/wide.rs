//! Signed whole numbers of 512 bits, two's complement, for exact comparisons.

use std::cmp::Ordering;
use std::ops::{Add, Mul, Neg, Sub};

const LIMBS: usize = 8;

/// A signed number; the least significant 64 bits first.
#[derive(Clone, Copy, PartialEq, Eq, Debug)]
pub struct Wide([u64; LIMBS]);

impl Wide {
    pub fn is_negative(&self) -> bool {
        self.0[LIMBS - 1] >> 63 == 1
    }

    pub fn abs(self) -> Wide {
        if self.is_negative() {
            -self
        } else {
            self
        }
    }

    pub fn square(self) -> Wide {
        self * self
    }

    /// The nearest double or one beside it, for reports.
    pub fn to_f64(self) -> f64 {
        let size = self.abs().0.iter().rev().fold(0.0, |sum, &limb| sum * 2f64.powi(64) + limb as f64);
        if self.is_negative() {
            -size
        } else {
            size
        }
    }

    /// How many of the low limbs the size needs.
    fn limbs(&self) -> usize {
        self.0.iter().rposition(|&limb| limb != 0).map_or(0, |highest| highest + 1)
    }
}

impl From<i128> for Wide {
    fn from(value: i128) -> Wide {
        let fill = if value < 0 { u64::MAX } else { 0 };
        let mut limbs = [fill; LIMBS];
        limbs[0] = value as u64;
        limbs[1] = (value >> 64) as u64;
        Wide(limbs)
    }
}

impl From<i64> for Wide {
    fn from(value: i64) -> Wide {
        Wide::from(i128::from(value))
    }
}

impl Add for Wide {
    type Output = Wide;

    fn add(self, other: Wide) -> Wide {
        let mut sum = [0; LIMBS];
        let mut carry = 0u128;
        for (limb, (a, b)) in sum.iter_mut().zip(self.0.iter().zip(other.0)) {
            carry += u128::from(*a) + u128::from(b);
            *limb = carry as u64;
            carry >>= 64;
        }
        let sum = Wide(sum);
        let overflow = self.is_negative() == other.is_negative() && sum.is_negative() != self.is_negative();
        debug_assert!(!overflow, "sum beyond 512 bits");
        sum
    }
}

impl Neg for Wide {
    type Output = Wide;

    fn neg(self) -> Wide {
        let mut flipped = self;
        let mut carry = true;
        for limb in &mut flipped.0 {
            (*limb, carry) = (!*limb).overflowing_add(carry.into());
        }
        flipped
    }
}

impl Sub for Wide {
    type Output = Wide;

    fn sub(self, other: Wide) -> Wide {
        self + -other
    }
}

impl Mul for Wide {
    type Output = Wide;

    fn mul(self, other: Wide) -> Wide {
        let (a, b) = (self.abs(), other.abs());
        let (m, n) = (a.limbs(), b.limbs());
        assert!(m + n <= LIMBS, "product beyond 512 bits");
        let mut product = [0; LIMBS];
        for i in 0..m {
            let mut carry = 0u128;
            for j in 0..n {
                carry += u128::from(product[i + j]) + u128::from(a.0[i]) * u128::from(b.0[j]);
                product[i + j] = carry as u64;
                carry >>= 64;
            }
            if i + n < LIMBS {
                product[i + n] = carry as u64;
            }
        }
        let product = Wide(product);
        debug_assert!(!product.is_negative(), "product beyond 512 bits");
        if self.is_negative() != other.is_negative() {
            -product
        } else {
            product
        }
    }
}

impl PartialOrd for Wide {
    fn partial_cmp(&self, other: &Wide) -> Option<Ordering> {
        Some(self.cmp(other))
    }
}

impl Ord for Wide {
    fn cmp(&self, other: &Wide) -> Ordering {
        let signs = other.is_negative().cmp(&self.is_negative());
        signs.then_with(|| self.0.iter().rev().cmp(other.0.iter().rev()))
    }
}

#[cfg(test)]
mod tests {
    use super::*;

    fn wide(value: i128) -> Wide {
        Wide::from(value)
    }

    #[test]
    fn small_numbers_as_in_128_bits() {
        let values = [0, 1, -1, 7, -13, 1 << 40, -(1 << 50), (1 << 62) + 12_345, -(1 << 63) + 1];
        for a in values {
            assert_eq!(wide(a).is_negative(), a < 0);
            assert_eq!(wide(a).to_f64(), a as f64);
            for b in values {
                assert_eq!(wide(a) + wide(b), wide(a + b));
                assert_eq!(wide(a) - wide(b), wide(a - b));
                assert_eq!(wide(a) * wide(b), wide(a * b));
                assert_eq!(wide(a).cmp(&wide(b)), a.cmp(&b));
            }
        }
    }

    #[test]
    fn large_numbers_keep_the_laws() {
        let a = wide(-3 * 10i128.pow(37)) * wide(7 * 10i128.pow(30));
        let b = wide(11 * 10i128.pow(36)) + wide(-17);
        assert_eq!((a + b).square(), a.square() + a * b + b * a + b.square());
        assert_eq!((a - b) * (a + b), a.square() - b.square());
        assert!(a.square() > b.square() && a < b && -a > b);
    }
}
