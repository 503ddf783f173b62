//! The months posted to a cabinet.

use super::account::LAST_MONTH;
use crate::refusal::{Cause, Refusal};
use crate::rules::Month;

#[derive(Clone, Debug, Default)]
pub struct Months(Vec<Month>);

impl Months {
    /// The number of the month that is due.
    pub fn due(&self) -> u64 {
        self.0.len() as u64
    }

    /// Keeps the month that is due; answers its number and its N_E.
    pub fn post(&mut self, s: u64, mx: u64, nc: u64) -> Result<(u64, u64), Refusal> {
        let due = self.due();
        if due > LAST_MONTH {
            return Err(Cause::MonthsFull.at(due));
        }
        let month = Month::new(s, mx, nc).map_err(|_| Cause::MonthFigure.at(due))?;
        self.0.push(month);
        Ok((due, month.ne))
    }

    pub fn is_posted(&self, month: u64) -> bool {
        month < self.due()
    }

    /// SE and SC over the posted months from the first to the last.
    pub fn sums(&self, first: u64, last: u64) -> (u64, u64) {
        let mut sums = (0, 0);
        for month in &self.0[first as usize..=last as usize] {
            sums.0 += month.ne;
            sums.1 += month.nc;
        }
        sums
    }
}
