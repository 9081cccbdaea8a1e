//! Whole numbers of any size, as many as the exact test needs: sum, difference, product, comparison, small quotient.

use std::cmp::Ordering;

/// Sign and magnitude, lowest limb first, with no zero limb on top; zero is never negative.
#[derive(Clone, Debug, PartialEq, Eq)]
pub struct Wide {
    negative: bool,
    limbs: Vec<u64>,
}

fn trimmed(mut limbs: Vec<u64>) -> Vec<u64> {
    while limbs.last() == Some(&0) {
        limbs.pop();
    }
    limbs
}

fn compared(a: &[u64], b: &[u64]) -> Ordering {
    a.len().cmp(&b.len()).then_with(|| a.iter().rev().cmp(b.iter().rev()))
}

/// Adds b, shifted up by whole limbs, to a, which has room for the sum.
fn add_at(a: &mut [u64], b: &[u64], shift: usize) {
    let mut carry = 0u128;
    for (i, limb) in a[shift..].iter_mut().enumerate() {
        if b.len() <= i && carry == 0 {
            return;
        }
        let sum = *limb as u128 + b.get(i).copied().unwrap_or(0) as u128 + carry;
        *limb = sum as u64;
        carry = sum >> 64;
    }
}

fn added(a: &[u64], b: &[u64]) -> Vec<u64> {
    let mut sum = a.to_vec();
    sum.resize(a.len().max(b.len()) + 1, 0);
    add_at(&mut sum, b, 0);
    trimmed(sum)
}

/// Takes b from a, which is not less.
fn subtract(a: &mut [u64], b: &[u64]) {
    let mut borrow = false;
    for (i, limb) in a.iter_mut().enumerate() {
        let (first, under) = limb.overflowing_sub(b.get(i).copied().unwrap_or(0));
        let (second, under_again) = first.overflowing_sub(borrow as u64);
        *limb = second;
        borrow = under || under_again;
    }
}

fn subtracted(a: &[u64], b: &[u64]) -> Vec<u64> {
    let mut difference = a.to_vec();
    subtract(&mut difference, b);
    trimmed(difference)
}

fn multiplied(a: &[u64], b: &[u64]) -> Vec<u64> {
    if a.len().min(b.len()) < 40 {
        return multiplied_plainly(a, b);
    }
    // Karatsuba: three products of halves instead of four.
    let half = a.len().max(b.len()).div_ceil(2);
    let (a0, a1) = a.split_at(half.min(a.len()));
    let (b0, b1) = b.split_at(half.min(b.len()));
    let low = multiplied(a0, b0);
    let high = multiplied(a1, b1);
    let mut middle = multiplied(&added(a0, a1), &added(b0, b1));
    subtract(&mut middle, &low);
    subtract(&mut middle, &high);
    let mut product = vec![0; 2 * half + high.len() + middle.len() + 1];
    add_at(&mut product, &low, 0);
    add_at(&mut product, &trimmed(middle), half);
    add_at(&mut product, &high, 2 * half);
    trimmed(product)
}

fn multiplied_plainly(a: &[u64], b: &[u64]) -> Vec<u64> {
    let mut product = vec![0u64; a.len() + b.len()];
    for (i, &x) in a.iter().enumerate() {
        let mut carry = 0u128;
        for (j, &y) in b.iter().enumerate() {
            let sum = x as u128 * y as u128 + product[i + j] as u128 + carry;
            product[i + j] = sum as u64;
            carry = sum >> 64;
        }
        product[i + b.len()] = carry as u64;
    }
    trimmed(product)
}

impl Wide {
    fn new(negative: bool, limbs: Vec<u64>) -> Wide {
        Wide { negative: negative && !limbs.is_empty(), limbs }
    }

    pub fn of(v: i128) -> Wide {
        let magnitude = v.unsigned_abs();
        Wide::new(v < 0, trimmed(vec![magnitude as u64, (magnitude >> 64) as u64]))
    }

    pub fn is_positive(&self) -> bool {
        !self.negative && !self.limbs.is_empty()
    }

    pub fn negated(&self) -> Wide {
        Wide::new(!self.negative, self.limbs.clone())
    }

    pub fn plus(&self, other: &Wide) -> Wide {
        if self.negative == other.negative {
            return Wide::new(self.negative, added(&self.limbs, &other.limbs));
        }
        match compared(&self.limbs, &other.limbs) {
            Ordering::Less => Wide::new(other.negative, subtracted(&other.limbs, &self.limbs)),
            _ => Wide::new(self.negative, subtracted(&self.limbs, &other.limbs)),
        }
    }

    pub fn minus(&self, other: &Wide) -> Wide {
        self.plus(&other.negated())
    }

    pub fn times(&self, other: &Wide) -> Wide {
        Wide::new(self.negative != other.negative, multiplied(&self.limbs, &other.limbs))
    }

    pub fn times_small(&self, other: i128) -> Wide {
        self.times(&Wide::of(other))
    }

    pub fn power(&self, exponent: u32) -> Wide {
        (0..exponent).fold(Wide::of(1), |product, _| product.times(self))
    }

    /// self <= other.
    pub fn at_most(&self, other: &Wide) -> bool {
        !self.minus(other).is_positive()
    }

    /// The floor of self/d, d positive, where it is small.
    pub fn floor_quotient(&self, d: &Wide) -> i128 {
        let magnitude = Wide::new(false, self.limbs.clone());
        let mut powers = vec![d.clone()];
        while powers[powers.len() - 1].at_most(&magnitude) {
            powers.push(powers[powers.len() - 1].times_small(2));
        }
        let mut rest = magnitude;
        let mut quotient = 0i128;
        for power in powers.iter().rev() {
            quotient *= 2;
            if power.at_most(&rest) {
                rest = rest.minus(power);
                quotient += 1;
            }
        }
        if !self.negative {
            return quotient;
        }
        if rest.limbs.is_empty() {
            -quotient
        } else {
            -quotient - 1
        }
    }
}
