//! Unsigned integers of any size: base 2^32 limbs, least significant first,
//! with no zero limb at the top.

use std::cmp::Ordering;

#[derive(Clone, Debug, PartialEq, Eq)]
pub struct Natural {
    limbs: Vec<u32>,
}

const BASE: u64 = 1 << 32;

impl Natural {
    pub fn zero() -> Natural {
        Natural { limbs: Vec::new() }
    }

    pub fn from_u64(value: u64) -> Natural {
        Natural { limbs: vec![(value % BASE) as u32, (value / BASE) as u32] }.trimmed()
    }

    fn trimmed(mut self) -> Natural {
        while self.limbs.last() == Some(&0) {
            self.limbs.pop();
        }
        self
    }

    fn limb(&self, at: usize) -> u64 {
        u64::from(self.limbs.get(at).copied().unwrap_or(0))
    }

    pub fn add(&self, other: &Natural) -> Natural {
        let size = self.limbs.len().max(other.limbs.len()) + 1;
        let mut limbs = Vec::with_capacity(size);
        let mut carry = 0;
        for at in 0..size {
            let sum = self.limb(at) + other.limb(at) + carry;
            limbs.push((sum % BASE) as u32);
            carry = sum / BASE;
        }
        Natural { limbs }.trimmed()
    }

    pub fn mul(&self, other: &Natural) -> Natural {
        let mut limbs = vec![0u32; self.limbs.len() + other.limbs.len() + 1];
        for (i, &x) in self.limbs.iter().enumerate() {
            let mut carry = 0u64;
            for j in 0..=other.limbs.len() {
                let sum = u64::from(limbs[i + j]) + u64::from(x) * other.limb(j) + carry;
                limbs[i + j] = (sum % BASE) as u32;
                carry = sum / BASE;
            }
            assert_eq!(carry, 0);
        }
        Natural { limbs }.trimmed()
    }

    /// Quotient and remainder by a small number.
    pub fn div_small(&self, divisor: u32) -> (Natural, u32) {
        let mut limbs = self.limbs.clone();
        let mut rest = 0u64;
        for limb in limbs.iter_mut().rev() {
            let part = rest * BASE + u64::from(*limb);
            *limb = (part / u64::from(divisor)) as u32;
            rest = part % u64::from(divisor);
        }
        (Natural { limbs }.trimmed(), rest as u32)
    }

    /// The value, where it is at most 2^64 - 1.
    pub fn to_u64(&self) -> Option<u64> {
        if self.limbs.len() > 2 {
            return None;
        }
        Some(self.limb(1) * BASE + self.limb(0))
    }

    pub fn decimal(&self) -> String {
        let mut digits = Vec::new();
        let mut rest = self.clone();
        while !rest.limbs.is_empty() {
            let (quotient, digit) = rest.div_small(10);
            digits.push(char::from(b'0' + digit as u8));
            rest = quotient;
        }
        if digits.is_empty() {
            digits.push('0');
        }
        digits.iter().rev().collect()
    }
}

impl Ord for Natural {
    fn cmp(&self, other: &Natural) -> Ordering {
        let by_size = self.limbs.len().cmp(&other.limbs.len());
        by_size.then_with(|| self.limbs.iter().rev().cmp(other.limbs.iter().rev()))
    }
}

impl PartialOrd for Natural {
    fn partial_cmp(&self, other: &Natural) -> Option<Ordering> {
        Some(self.cmp(other))
    }
}

/// n! / (k! (n - k)!), by products and exact small divisions.
pub fn binomial(n: u32, k: u32) -> Natural {
    if k > n {
        return Natural::zero();
    }
    let mut value = Natural::from_u64(1);
    for i in 1..=k {
        let (quotient, rest) = value.mul(&Natural::from_u64(u64::from(n - k + i))).div_small(i);
        assert_eq!(rest, 0);
        value = quotient;
    }
    value
}
