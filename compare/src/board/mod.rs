//! Boards: rows of 128 bytes under numbers, and how a board is made.

mod journal;
mod meaning;
mod table;
mod twin;

pub use journal::Journal;
pub use meaning::Meaning;
pub use table::Table;
pub use twin::{Device, Twin};

use crate::refusal::{Cause, Refusal};

pub const ROW: usize = 128;
pub type Row = [u8; ROW];

pub const LARGEST_CAPACITY: u64 = 4_096;
/// Bytes of a table board's slot and of a journal board's entry.
pub const SLOT: u64 = 129;
pub const ENTRY: u64 = 131;
pub const MOST_ENTRIES: u64 = 65_535;
/// The longest memory that is taken for a board, in bytes.
const LONGEST_MEMORY: u64 = 256 << 20;

pub trait Board {
    fn capacity(&self) -> u64;

    /// How many rows may stand at once.
    fn limit(&self) -> u64;

    fn read(&self, number: u64) -> Result<Option<Row>, Refusal>;

    fn store(&mut self, number: u64, row: &Row) -> Result<(), Refusal>;

    fn clear(&mut self, number: u64) -> Result<(), Refusal>;
}

/// The figures that a board shall be made of; the length is in bytes.
#[derive(Clone, Copy, Debug, PartialEq, Eq)]
pub enum Figures {
    Table {
        capacity: u64,
        length: u64,
    },
    Journal {
        capacity: u64,
        limit: u64,
        length: u64,
    },
}

/// The memory of a board was not to be had.
#[derive(Clone, Copy, Debug, PartialEq, Eq)]
pub struct NoMemory;

impl Figures {
    /// A table board with the least memory that it needs, cut to 64 bits.
    pub fn table(capacity: u64) -> Figures {
        Figures::Table {
            capacity,
            length: capacity.saturating_mul(SLOT),
        }
    }

    pub fn length(self) -> u64 {
        match self {
            Figures::Table { length, .. } | Figures::Journal { length, .. } => length,
        }
    }

    /// Whether a board can be made of these figures.
    fn are_possible(self) -> bool {
        match self {
            Figures::Table { capacity, length } => {
                (1..=LARGEST_CAPACITY).contains(&capacity) && length >= SLOT * capacity
            }
            Figures::Journal {
                capacity,
                limit,
                length,
            } => {
                (1..=LARGEST_CAPACITY).contains(&capacity)
                    && (1..=capacity).contains(&limit)
                    && (limit + 1..=MOST_ENTRIES).contains(&(length / ENTRY))
            }
        }
    }

    /// Refused by 22, naming the memory's length.
    pub fn check(self) -> Result<(), Refusal> {
        if self.are_possible() {
            Ok(())
        } else {
            Err(Cause::Making.at(self.length()))
        }
    }
}

/// So many bytes, all 0.
fn zeros(length: u64) -> Result<Vec<u8>, NoMemory> {
    if length > LONGEST_MEMORY {
        return Err(NoMemory);
    }
    let length = usize::try_from(length).map_err(|_| NoMemory)?;
    let mut memory = Vec::new();
    memory.try_reserve_exact(length).map_err(|_| NoMemory)?;
    memory.resize(length, 0);
    Ok(memory)
}
