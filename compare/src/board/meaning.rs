//! What every board means: a capacity, a limit, and rows under numbers.

use std::collections::BTreeMap;

use super::{Board, Row};
use crate::refusal::{Cause, Refusal};

#[derive(Clone, Debug, PartialEq, Eq)]
pub struct Meaning {
    capacity: u64,
    limit: u64,
    rows: BTreeMap<u64, Row>,
}

impl Meaning {
    pub fn new(capacity: u64, limit: u64) -> Meaning {
        Meaning {
            capacity,
            limit,
            rows: BTreeMap::new(),
        }
    }

    /// The numbers at which rows stand, upward.
    pub fn numbers(&self) -> impl Iterator<Item = u64> {
        self.rows.keys().copied()
    }

    /// How many rows stand.
    pub fn count(&self) -> u64 {
        self.rows.len() as u64
    }

    fn inside(&self, number: u64) -> Result<(), Refusal> {
        if number < self.capacity {
            Ok(())
        } else {
            Err(Cause::Outside.at(number))
        }
    }
}

impl Board for Meaning {
    fn capacity(&self) -> u64 {
        self.capacity
    }

    fn limit(&self) -> u64 {
        self.limit
    }

    fn read(&self, number: u64) -> Result<Option<Row>, Refusal> {
        self.inside(number)?;
        Ok(self.rows.get(&number).copied())
    }

    fn store(&mut self, number: u64, row: &Row) -> Result<(), Refusal> {
        self.inside(number)?;
        if !self.rows.contains_key(&number) && self.count() == self.limit {
            return Err(Cause::Full.at(number));
        }
        self.rows.insert(number, *row);
        Ok(())
    }

    fn clear(&mut self, number: u64) -> Result<(), Refusal> {
        self.inside(number)?;
        self.rows.remove(&number);
        Ok(())
    }
}
