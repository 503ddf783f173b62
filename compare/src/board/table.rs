//! The table board: a slot of 129 bytes for each number.

use super::{Board, NoMemory, ROW, Row, SLOT, zeros};
use crate::refusal::{Cause, Refusal};

const SLOT_LENGTH: usize = SLOT as usize;

#[derive(Clone, Debug)]
pub struct Table {
    capacity: u64,
    memory: Vec<u8>,
}

impl Table {
    pub(super) fn make(capacity: u64, length: u64) -> Result<Table, NoMemory> {
        Ok(Table {
            capacity,
            memory: zeros(length)?,
        })
    }

    pub fn memory(&self) -> &[u8] {
        &self.memory
    }

    /// Where the slot of a number begins.
    fn slot(&self, number: u64) -> Result<usize, Refusal> {
        if number < self.capacity {
            Ok(number as usize * SLOT_LENGTH)
        } else {
            Err(Cause::Outside.at(number))
        }
    }
}

impl Board for Table {
    fn capacity(&self) -> u64 {
        self.capacity
    }

    fn limit(&self) -> u64 {
        self.capacity
    }

    fn read(&self, number: u64) -> Result<Option<Row>, Refusal> {
        let at = self.slot(number)?;
        let mut row = [0; ROW];
        row.copy_from_slice(&self.memory[at + 1..at + SLOT_LENGTH]);
        Ok((self.memory[at] == 1).then_some(row))
    }

    fn store(&mut self, number: u64, row: &Row) -> Result<(), Refusal> {
        let at = self.slot(number)?;
        self.memory[at] = 1;
        self.memory[at + 1..at + SLOT_LENGTH].copy_from_slice(row);
        Ok(())
    }

    fn clear(&mut self, number: u64) -> Result<(), Refusal> {
        let at = self.slot(number)?;
        self.memory[at..at + SLOT_LENGTH].fill(0);
        Ok(())
    }
}
