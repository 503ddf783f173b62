//! The price-revision figures of a month.

use super::facts::LARGEST_FIGURE;
use super::rounded;

/// Largest wage index s and materials index Mx; the least is 1.
pub const LARGEST_INDEX: u64 = 9_999_999;

#[derive(Clone, Copy, Debug, PartialEq, Eq)]
pub struct Month {
    pub ne: u64,
    pub nc: u64,
}

/// Why numbers are no month.
#[derive(Clone, Copy, Debug, PartialEq, Eq, PartialOrd, Ord)]
pub enum MonthFlaw {
    WageIndex,
    MaterialsIndex,
    Nc,
    Ne,
}

/// N_E worked out, for indices within their limits.
pub fn worked_out(s: u64, mx: u64) -> u64 {
    let share = |index: u64, at_base: i128, weight: i128| {
        let q = rounded(10_000 * i128::from(index), at_base);
        rounded(weight * q, 1_000) as u64
    };
    4_250 + share(s, 888_131, 390) + share(mx, 141_151, 185)
}

impl Month {
    pub fn new(s: u64, mx: u64, nc: u64) -> Result<Month, MonthFlaw> {
        if !(1..=LARGEST_INDEX).contains(&s) {
            return Err(MonthFlaw::WageIndex);
        }
        if !(1..=LARGEST_INDEX).contains(&mx) {
            return Err(MonthFlaw::MaterialsIndex);
        }
        if nc > LARGEST_FIGURE {
            return Err(MonthFlaw::Nc);
        }
        let ne = worked_out(s, mx);
        if ne > LARGEST_FIGURE {
            return Err(MonthFlaw::Ne);
        }
        Ok(Month { ne, nc })
    }
}

#[cfg(test)]
mod tests {
    use super::*;

    #[test]
    fn known_months() {
        assert_eq!(worked_out(888_131, 141_151), 10_000);
        assert_eq!(worked_out(892_572, 141_151), 10_019);
        // q1 = 0.011, q2 = 0.07.
        assert_eq!(worked_out(1, 1), 4_250);
    }

    #[test]
    fn limits() {
        let flaw = |s, mx, nc| Month::new(s, mx, nc).err();
        assert_eq!(flaw(0, 1, 0), Some(MonthFlaw::WageIndex));
        assert_eq!(flaw(10_000_000, 1, 0), Some(MonthFlaw::WageIndex));
        assert_eq!(flaw(1, 0, 0), Some(MonthFlaw::MaterialsIndex));
        assert_eq!(flaw(1, 10_000_000, 0), Some(MonthFlaw::MaterialsIndex));
        assert_eq!(flaw(1, 1, 100_000), Some(MonthFlaw::Nc));
        assert_eq!(flaw(1, 9_999_999, 0), Some(MonthFlaw::Ne));
        assert_eq!(flaw(9_999_999, 1, 99_999), None);
        assert_eq!(
            flaw(u64::MAX, u64::MAX, u64::MAX),
            Some(MonthFlaw::WageIndex)
        );
    }
}
