//! The journal board: entries of 131 bytes, the latest for a number decides.

use super::{Board, ENTRY, NoMemory, ROW, Row, zeros};
use crate::refusal::{Cause, Refusal};

const ENTRY_LENGTH: usize = ENTRY as usize;
/// The bytes of an entry before its row: the mark and the number.
const HEAD: usize = 3;

#[derive(Clone, Debug)]
pub struct Journal {
    capacity: u64,
    limit: u64,
    memory: Vec<u8>,
    /// How many entries are in use, the first ones.
    used: usize,
    /// The place of each number's latest entry.
    latest: Vec<Option<usize>>,
    /// How many rows stand.
    standing: u64,
    /// How often stale entries were dropped.
    droppings: u64,
}

impl Journal {
    pub(super) fn make(capacity: u64, limit: u64, length: u64) -> Result<Journal, NoMemory> {
        Ok(Journal {
            capacity,
            limit,
            memory: zeros(length)?,
            used: 0,
            latest: vec![None; capacity as usize],
            standing: 0,
            droppings: 0,
        })
    }

    pub fn memory(&self) -> &[u8] {
        &self.memory
    }

    /// E, how many entries the memory has.
    pub fn entries(&self) -> usize {
        self.memory.len() / ENTRY_LENGTH
    }

    pub fn used(&self) -> usize {
        self.used
    }

    pub fn droppings(&self) -> u64 {
        self.droppings
    }

    fn inside(&self, number: u64) -> Result<usize, Refusal> {
        if number < self.capacity {
            Ok(number as usize)
        } else {
            Err(Cause::Outside.at(number))
        }
    }

    /// The bytes of an entry.
    fn entry(&self, place: usize) -> &[u8] {
        &self.memory[place * ENTRY_LENGTH..(place + 1) * ENTRY_LENGTH]
    }

    /// The number of an entry, and its row unless it is a clearing.
    pub fn entry_at(&self, place: usize) -> (usize, Option<Row>) {
        let entry = self.entry(place);
        let number = usize::from(u16::from_be_bytes([entry[1], entry[2]]));
        let mut row = [0; ROW];
        row.copy_from_slice(&entry[HEAD..]);
        (number, (entry[0] == 1).then_some(row))
    }

    fn row_of(&self, number: usize) -> Option<Row> {
        self.latest[number].and_then(|place| self.entry_at(place).1)
    }

    /// Writes an entry behind the others; a clearing has no row.
    fn append(&mut self, number: usize, row: Option<&Row>) {
        if self.used == self.entries() {
            self.drop_stale();
        }
        let at = self.used * ENTRY_LENGTH;
        let entry = &mut self.memory[at..at + ENTRY_LENGTH];
        entry[0] = row.is_some().into();
        entry[1..HEAD].copy_from_slice(&(number as u16).to_be_bytes());
        entry[HEAD..].copy_from_slice(row.unwrap_or(&[0; ROW]));
        self.latest[number] = Some(self.used);
        self.used += 1;
    }

    /// Moves the entries that hold standing rows to the front, in their order.
    fn drop_stale(&mut self) {
        let mut kept = 0;
        let mut latest = vec![None; self.latest.len()];
        for place in 0..self.used {
            let (number, row) = self.entry_at(place);
            if row.is_some() && self.latest[number] == Some(place) {
                let from = place * ENTRY_LENGTH;
                self.memory
                    .copy_within(from..from + ENTRY_LENGTH, kept * ENTRY_LENGTH);
                latest[number] = Some(kept);
                kept += 1;
            }
        }
        self.latest = latest;
        self.used = kept;
        self.droppings += 1;
    }
}

impl Board for Journal {
    fn capacity(&self) -> u64 {
        self.capacity
    }

    fn limit(&self) -> u64 {
        self.limit
    }

    fn read(&self, number: u64) -> Result<Option<Row>, Refusal> {
        Ok(self.row_of(self.inside(number)?))
    }

    fn store(&mut self, number: u64, row: &Row) -> Result<(), Refusal> {
        let inside = self.inside(number)?;
        if self.row_of(inside).is_none() {
            if self.standing == self.limit {
                return Err(Cause::Full.at(number));
            }
            self.standing += 1;
        }
        self.append(inside, Some(row));
        Ok(())
    }

    fn clear(&mut self, number: u64) -> Result<(), Refusal> {
        let inside = self.inside(number)?;
        if self.row_of(inside).is_some() {
            self.standing -= 1;
            self.append(inside, None);
        }
        Ok(())
    }
}
