//! The power that a circuit breaker makes available.

use crate::refusal::{Cause, Refusal};

/// Tenths of a kVA by network (from 1) and rated current (from 4 A).
const TENTHS: [[u64; 15]; 3] = [
    [9, 12, 14, 16, 18, 21, 23, 25, 28, 30, 32, 35, 37, 39, 41],
    [16, 20, 24, 28, 32, 36, 40, 44, 48, 52, 56, 60, 64, 68, 72],
    [
        28, 35, 42, 48, 55, 62, 69, 76, 83, 90, 97, 104, 111, 118, 125,
    ],
];

pub fn rating(network: u64, ampere: u64) -> Result<u64, Refusal> {
    if (1..=3).contains(&network) && (4..=18).contains(&ampere) {
        Ok(TENTHS[network as usize - 1][ampere as usize - 4])
    } else {
        Err(Cause::Rating.at(ampere))
    }
}

#[cfg(test)]
mod tests {
    use super::*;

    #[test]
    fn corners_of_the_table() {
        assert_eq!(rating(1, 4), Ok(9));
        assert_eq!(rating(1, 18), Ok(41));
        assert_eq!(rating(2, 11), Ok(44));
        assert_eq!(rating(3, 18), Ok(125));
        for (network, ampere) in [(0, 4), (4, 4), (1, 3), (3, 19), (u64::MAX, u64::MAX)] {
            assert_eq!(rating(network, ampere), Err(Cause::Rating.at(ampere)));
        }
    }
}
