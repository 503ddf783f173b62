//! A board beside its meaning: whatever the one answers, the other must.

use super::{Board, Figures, Journal, Meaning, NoMemory, Row, Table};
use crate::refusal::Refusal;

#[derive(Clone, Debug)]
pub enum Device {
    Table(Table),
    Journal(Journal),
}

impl Device {
    fn board(&self) -> &dyn Board {
        match self {
            Device::Table(table) => table,
            Device::Journal(journal) => journal,
        }
    }

    fn board_mut(&mut self) -> &mut dyn Board {
        match self {
            Device::Table(table) => table,
            Device::Journal(journal) => journal,
        }
    }
}

#[derive(Clone, Debug)]
pub struct Twin {
    device: Device,
    meaning: Meaning,
}

impl Twin {
    /// The board of figures that passed their check.
    pub fn make(figures: Figures) -> Result<Twin, NoMemory> {
        let device = match figures {
            Figures::Table { capacity, length } => Device::Table(Table::make(capacity, length)?),
            Figures::Journal {
                capacity,
                limit,
                length,
            } => Device::Journal(Journal::make(capacity, limit, length)?),
        };
        let meaning = Meaning::new(device.board().capacity(), device.board().limit());
        Ok(Twin { device, meaning })
    }

    pub fn device(&self) -> &Device {
        &self.device
    }

    pub fn meaning(&self) -> &Meaning {
        &self.meaning
    }
}

/// The answer of both.
fn same<T: PartialEq + std::fmt::Debug>(device: T, meaning: T) -> T {
    assert_eq!(device, meaning, "a board does not keep its meaning");
    device
}

impl Board for Twin {
    fn capacity(&self) -> u64 {
        self.meaning.capacity()
    }

    fn limit(&self) -> u64 {
        self.meaning.limit()
    }

    fn read(&self, number: u64) -> Result<Option<Row>, Refusal> {
        same(self.device.board().read(number), self.meaning.read(number))
    }

    fn store(&mut self, number: u64, row: &Row) -> Result<(), Refusal> {
        let device = self.device.board_mut().store(number, row);
        same(device, self.meaning.store(number, row))
    }

    fn clear(&mut self, number: u64) -> Result<(), Refusal> {
        let device = self.device.board_mut().clear(number);
        same(device, self.meaning.clear(number))
    }
}
