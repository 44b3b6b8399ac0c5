//! Whole numbers of any size, as far as an exact comparison needs them.

use std::cmp::Ordering;

/// Digits to the base 2^32, lowest first, without zeros at the top.
#[derive(Clone, Debug, PartialEq, Eq)]
pub struct Big(Vec<u32>);

impl Big {
    pub fn of(mut n: u64) -> Big {
        let mut digits = Vec::new();
        while n > 0 {
            digits.push(n as u32);
            n >>= 32;
        }
        Big(digits)
    }

    pub fn times(&self, k: u32) -> Big {
        let mut digits = Vec::with_capacity(self.0.len() + 1);
        let mut carry = 0u64;
        for &d in &self.0 {
            carry += u64::from(d) * u64::from(k);
            digits.push(carry as u32);
            carry >>= 32;
        }
        digits.push(carry as u32);
        Big(digits).trimmed()
    }

    pub fn times_power_of_ten(&self, k: u32) -> Big {
        (0..k).fold(self.clone(), |n, _| n.times(10))
    }

    /// How far apart two numbers are.
    pub fn apart(&self, other: &Big) -> Big {
        let (high, low) = if self.order(other) == Ordering::Less { (other, self) } else { (self, other) };
        let mut digits = Vec::with_capacity(high.0.len());
        let mut borrow = 0i64;
        for (i, &d) in high.0.iter().enumerate() {
            let mut x = i64::from(d) - borrow - i64::from(*low.0.get(i).unwrap_or(&0));
            borrow = 0;
            if x < 0 {
                x += 1 << 32;
                borrow = 1;
            }
            digits.push(x as u32);
        }
        Big(digits).trimmed()
    }

    pub fn order(&self, other: &Big) -> Ordering {
        self.0.len().cmp(&other.0.len()).then_with(|| self.0.iter().rev().cmp(other.0.iter().rev()))
    }

    fn trimmed(mut self) -> Big {
        while self.0.last() == Some(&0) {
            self.0.pop();
        }
        self
    }
}
