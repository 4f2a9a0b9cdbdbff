//! Whole numbers of any size, as far as the exact chance needs them.

use std::cmp::Ordering;

/// Low limb first; no zero limb at the top, so zero has no limbs.
#[derive(Clone, Debug, Default, PartialEq, Eq)]
pub struct Big(Vec<u32>);

impl Big {
    pub fn from(number: u64) -> Big {
        Big(vec![number as u32, (number >> 32) as u32]).trimmed()
    }

    pub fn plus(&self, other: &Big) -> Big {
        let mut sum = Vec::new();
        let mut carry = 0;
        for i in 0..self.0.len().max(other.0.len()) {
            let column = self.limb(i) + other.limb(i) + carry;
            sum.push(column as u32);
            carry = column >> 32;
        }
        sum.push(carry as u32);
        Big(sum).trimmed()
    }

    /// The difference, if it isn't negative.
    pub fn less(&self, other: &Big) -> Option<Big> {
        if self < other {
            return None;
        }
        let mut rest = Vec::new();
        let mut borrow = 0;
        for i in 0..self.0.len() {
            let taken = other.limb(i) + borrow;
            let column = self.limb(i);
            borrow = u64::from(column < taken);
            rest.push((column + (borrow << 32) - taken) as u32);
        }
        Some(Big(rest).trimmed())
    }

    pub fn times(&self, factor: u32) -> Big {
        self.times_all(&[factor])
    }

    pub fn times_power(&self, factor: u32, exponent: u32) -> Big {
        self.times_all(&vec![factor; exponent as usize])
    }

    pub fn times_all(&self, factors: &[u32]) -> Big {
        let mut product = self.0.clone();
        for &factor in factors {
            let mut carry = 0;
            for limb in &mut product {
                let column = *limb as u64 * factor as u64 + carry;
                *limb = column as u32;
                carry = column >> 32;
            }
            if carry > 0 {
                product.push(carry as u32);
            }
        }
        Big(product).trimmed()
    }

    /// Quotient and remainder.
    pub fn divided_by(&self, divisor: u32) -> (Big, u32) {
        let mut quotient = vec![0; self.0.len()];
        let mut rest = 0u64;
        for i in (0..self.0.len()).rev() {
            let column = (rest << 32) + self.0[i] as u64;
            quotient[i] = (column / divisor as u64) as u32;
            rest = column % divisor as u64;
        }
        (Big(quotient).trimmed(), rest as u32)
    }

    pub fn decimal(&self) -> String {
        let mut digits = Vec::new();
        let mut rest = self.clone();
        while !rest.0.is_empty() {
            let (quotient, digit) = rest.divided_by(10);
            digits.push(char::from(b'0' + digit as u8));
            rest = quotient;
        }
        if digits.is_empty() {
            digits.push('0');
        }
        digits.iter().rev().collect()
    }

    fn limb(&self, i: usize) -> u64 {
        self.0.get(i).copied().unwrap_or(0) as u64
    }

    fn trimmed(mut self) -> Big {
        while self.0.last() == Some(&0) {
            self.0.pop();
        }
        self
    }
}

impl Ord for Big {
    fn cmp(&self, other: &Big) -> Ordering {
        let by_length = self.0.len().cmp(&other.0.len());
        by_length.then_with(|| self.0.iter().rev().cmp(other.0.iter().rev()))
    }
}

impl PartialOrd for Big {
    fn partial_cmp(&self, other: &Big) -> Option<Ordering> {
        Some(self.cmp(other))
    }
}
