//! The spread: the ordered ways to share like tokens among racks.

use crate::broken::{broken, Broken};
use crate::cause::{Refusal, RANGE};

/// The most tokens, and the most racks, whose spread is given.
pub const MOST_TOKENS: usize = 31;
pub const MOST_RACKS: usize = 16;

/// The number of ordered ways to share `tokens` like tokens among `racks` racks.
pub fn ways(tokens: usize, racks: usize) -> Result<u64, Refusal> {
    if racks > MOST_RACKS && broken(Broken::SpreadRacksFirst) {
        return Err(Refusal::new(RANGE, 2));
    }
    if tokens > MOST_TOKENS {
        return Err(Refusal::at(RANGE, 1, usize::from(broken(Broken::SpreadColumn))));
    }
    if racks > MOST_RACKS {
        return Err(Refusal::new(RANGE, 2));
    }
    if broken(Broken::SpreadInvented) {
        return Ok((tokens * racks) as u64);
    }
    if racks == 0 {
        return Ok(u64::from(tokens == 0));
    }
    Ok(binomial((tokens + racks - 1) as u64, (racks - 1) as u64))
}

/// The binomial of `n` over `k`; every product here stays below 64 bits.
fn binomial(n: u64, k: u64) -> u64 {
    let value = (1..=k).fold(1, |value, i| value * (n - k + i) / i);
    if broken(Broken::SpreadIn32Bits) {
        return value & 0xffff_ffff;
    }
    value
}
