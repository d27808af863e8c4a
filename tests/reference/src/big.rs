//! Natural numbers of any size.

use std::cmp::Ordering;
use std::fmt;

const BASE: u32 = 1_000_000_000;
const DIGITS: usize = 9;

/// A natural number in limbs of nine decimal digits, the least limb first; the last limb is not 0.
#[derive(Clone, Debug, Default, PartialEq, Eq, Hash)]
pub struct Natural {
    limbs: Vec<u32>,
}

impl Natural {
    pub fn zero() -> Natural {
        Natural::default()
    }

    /// Reads a decimal number without leading zeros.
    pub fn parse(digits: &[u8]) -> Option<Natural> {
        let leading_zero = digits.len() > 1 && digits[0] == b'0';
        if digits.is_empty() || leading_zero || !digits.iter().all(u8::is_ascii_digit) {
            return None;
        }
        let limb = |group: &[u8]| group.iter().fold(0, |limb, &d| limb * 10 + u32::from(d - b'0'));
        Some(Natural::of_limbs(digits.rchunks(DIGITS).map(limb).collect()))
    }

    fn of_limbs(mut limbs: Vec<u32>) -> Natural {
        while limbs.last() == Some(&0) {
            limbs.pop();
        }
        Natural { limbs }
    }

    pub fn is_zero(&self) -> bool {
        self.limbs.is_empty()
    }

    pub fn plus(&self, other: &Natural) -> Natural {
        let mut limbs = self.limbs.clone();
        limbs.resize(self.limbs.len().max(other.limbs.len()), 0);
        let mut carry = 0;
        for (at, limb) in limbs.iter_mut().enumerate() {
            let sum = *limb + other.limbs.get(at).unwrap_or(&0) + carry;
            *limb = sum % BASE;
            carry = sum / BASE;
        }
        if carry > 0 {
            limbs.push(carry);
        }
        Natural { limbs }
    }

    /// The difference, where `other` is not the greater one.
    pub fn minus(&self, other: &Natural) -> Option<Natural> {
        if self < other {
            return None;
        }
        let mut limbs = self.limbs.clone();
        let mut borrow = 0;
        for (at, limb) in limbs.iter_mut().enumerate() {
            let less = other.limbs.get(at).unwrap_or(&0) + borrow;
            borrow = u32::from(*limb < less);
            *limb = *limb + borrow * BASE - less;
        }
        Some(Natural::of_limbs(limbs))
    }

    /// The product: a row of the one's limbs for each limb of the other.
    pub fn times(&self, other: &Natural) -> Natural {
        let base = u64::from(BASE);
        let mut limbs = vec![0; self.limbs.len() + other.limbs.len()];
        for (at, &limb) in self.limbs.iter().enumerate() {
            let mut carry = 0;
            for (to, &by) in limbs[at..].iter_mut().zip(other.limbs.iter().chain([&0])) {
                let sum = u64::from(*to) + u64::from(limb) * u64::from(by) + carry;
                *to = (sum % base) as u32;
                carry = sum / base;
            }
        }
        Natural::of_limbs(limbs)
    }

    /// The number as 64 bits, where it fits.
    pub fn to_u64(&self) -> Option<u64> {
        let step = |value: u64, &limb: &u32| {
            let shifted = value.checked_mul(u64::from(BASE))?;
            shifted.checked_add(u64::from(limb))
        };
        self.limbs.iter().rev().try_fold(0, step)
    }
}

impl From<u64> for Natural {
    fn from(mut value: u64) -> Natural {
        let mut limbs = Vec::new();
        while value > 0 {
            limbs.push((value % u64::from(BASE)) as u32);
            value /= u64::from(BASE);
        }
        Natural { limbs }
    }
}

impl Ord for Natural {
    fn cmp(&self, other: &Natural) -> Ordering {
        let by_length = self.limbs.len().cmp(&other.limbs.len());
        by_length.then_with(|| self.limbs.iter().rev().cmp(other.limbs.iter().rev()))
    }
}

impl PartialOrd for Natural {
    fn partial_cmp(&self, other: &Natural) -> Option<Ordering> {
        Some(self.cmp(other))
    }
}

impl fmt::Display for Natural {
    fn fmt(&self, out: &mut fmt::Formatter<'_>) -> fmt::Result {
        let Some((most, rest)) = self.limbs.split_last() else {
            return out.write_str("0");
        };
        write!(out, "{most}")?;
        rest.iter().rev().try_for_each(|limb| write!(out, "{limb:09}"))
    }
}

#[cfg(test)]
mod tests {
    use super::*;

    fn natural(digits: &str) -> Natural {
        Natural::parse(digits.as_bytes()).expect("a number")
    }

    #[test]
    fn prints_what_it_read() {
        for digits in
            ["0", "7", "999999999", "1000000000", "123456789012345678901234567890", "1000000000000000000"]
        {
            assert_eq!(natural(digits).to_string(), digits);
        }
    }

    #[test]
    fn refuses_what_is_no_number() {
        for digits in ["", "00", "01", "-1", "+1", "1 ", "1,2", "a", "0x1"] {
            assert_eq!(Natural::parse(digits.as_bytes()), None, "{digits}");
        }
    }

    #[test]
    fn adds_with_carries() {
        assert_eq!(natural("999999999999999999").plus(&natural("1")), natural("1000000000000000000"));
        assert_eq!(natural("0").plus(&natural("0")), Natural::zero());
        assert_eq!(natural("999999999").plus(&natural("999999999")), natural("1999999998"));
    }

    #[test]
    fn subtracts_with_borrows() {
        assert_eq!(natural("1000000000000000000").minus(&natural("1")), Some(natural("999999999999999999")));
        assert_eq!(natural("5").minus(&natural("5")), Some(Natural::zero()));
        assert_eq!(natural("5").minus(&natural("6")), None);
        assert_eq!(natural("1000000000").minus(&natural("999999999")), Some(natural("1")));
    }

    #[test]
    fn multiplies_with_carries() {
        assert_eq!(natural("999999999").times(&natural("999999999")), natural("999999998000000001"));
        assert_eq!(natural("0").times(&natural("12345678901234567890")), Natural::zero());
        assert_eq!(natural("12345678901234567890").times(&natural("0")), Natural::zero());
        let square = natural("999999999999999999999999999").times(&natural("999999999999999999999999999"));
        assert_eq!(square, natural("999999999999999999999999998000000000000000000000000001"));
        let product = natural("98765432109876543210").times(&natural("1000000000000000000000001"));
        assert_eq!(product, natural("98765432109876543210000098765432109876543210"));
    }

    #[test]
    fn compares_by_size() {
        let ascending = [
            "0",
            "1",
            "9",
            "10",
            "999999999",
            "1000000000",
            "1000000001",
            "2000000000",
            "99999999999999999999",
        ];
        for pair in ascending.windows(2) {
            assert!(natural(pair[0]) < natural(pair[1]));
        }
    }

    #[test]
    fn agrees_with_64_bits() {
        let values =
            [0, 1, 65_535, 65_536, 999_999_999, 1_000_000_000, u64::from(u32::MAX), 1 << 40, u64::MAX / 2];
        for a in values {
            for b in values {
                let (big_a, big_b) = (Natural::from(a), Natural::from(b));
                assert_eq!(big_a.plus(&big_b).to_u64(), Some(a + b));
                assert_eq!(big_a.minus(&big_b).and_then(|d| d.to_u64()), a.checked_sub(b));
                assert_eq!(big_a.cmp(&big_b), a.cmp(&b));
                let product = u128::from(a) * u128::from(b);
                assert_eq!(big_a.times(&big_b).to_string(), product.to_string());
            }
        }
        assert_eq!(natural("18446744073709551615").to_u64(), Some(u64::MAX));
        assert_eq!(natural("18446744073709551616").to_u64(), None);
    }
}
