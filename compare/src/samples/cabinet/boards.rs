//! Lines that make boards, or are refused.

use crate::board::{ENTRY, LARGEST_CAPACITY, MOST_ENTRIES, SLOT};
use crate::samples::{BoardKind, Turn, Writer};

/// Figures of no table board, and of no journal board.
type Refused = fn(&mut Writer) -> Vec<u64>;

const NO_TABLES: [Refused; 13] = [
    |_| vec![0],
    |_| vec![LARGEST_CAPACITY + 1],
    |_| vec![u64::MAX],
    // The largest capacity whose length fits 64 bits, and the next.
    |_| vec![142_998_016_075_267_841],
    |_| vec![142_998_016_075_267_842],
    |writer| vec![writer.huge(0).max(LARGEST_CAPACITY + 1)],
    |writer| vec![0, writer.rng.pick(&[0, 129, 5_000_000, u64::MAX])],
    |_| vec![LARGEST_CAPACITY + 1, SLOT * (LARGEST_CAPACITY + 1)],
    |_| vec![u64::MAX, u64::MAX],
    |writer| {
        let capacity = writer.rng.range(1, LARGEST_CAPACITY);
        vec![capacity, SLOT * capacity - 1]
    },
    |_| vec![1, SLOT - 1],
    |writer| vec![writer.rng.range(1, LARGEST_CAPACITY), 0],
    |_| vec![LARGEST_CAPACITY, SLOT * LARGEST_CAPACITY - 1],
];

const NO_JOURNALS: [Refused; 14] = [
    |_| vec![0, 0, 1_000],
    |_| vec![0, 1, 1_000],
    |_| vec![LARGEST_CAPACITY + 1, 3, 1_000],
    |_| vec![u64::MAX, 3, 1_000],
    |writer| vec![writer.rng.range(1, LARGEST_CAPACITY), 0, 5_000],
    |writer| {
        let capacity = writer.rng.range(1, LARGEST_CAPACITY);
        vec![capacity, capacity + 1, ENTRY * (capacity + 2)]
    },
    |writer| vec![7, writer.huge(3).max(8), 5_000],
    |writer| {
        let limit = writer.rng.range(1, LARGEST_CAPACITY);
        vec![LARGEST_CAPACITY, limit, ENTRY * (limit + 1) - 1]
    },
    |_| vec![1, 1, ENTRY * 2 - 1],
    |writer| vec![4, writer.rng.range(1, 4), 0],
    |writer| vec![4, 2, ENTRY * (MOST_ENTRIES + 1) + writer.rng.range(0, 300)],
    |_| vec![4, 2, ENTRY * (MOST_ENTRIES + 1)],
    |writer| vec![4, 2, writer.huge(1_000).max(ENTRY * (MOST_ENTRIES + 1))],
    |_| vec![LARGEST_CAPACITY, LARGEST_CAPACITY, u64::MAX],
];

/// The figures of a board that can be made.
#[derive(Clone, Copy)]
pub struct Shape {
    pub capacity: u64,
    /// Of a journal; a table's is its capacity.
    pub limit: u64,
    /// Entries of a journal beyond its limit, at least one.
    pub spare: u64,
}

impl Writer {
    /// Makes a board, now and then twice; nobody lives there yet.
    pub fn say_board(&mut self, shape: Shape) {
        let Shape {
            capacity,
            limit,
            spare,
        } = shape;
        let numbers = match self.kind {
            BoardKind::Table if self.rng.once_in(2) => vec![capacity],
            BoardKind::Table => {
                let surplus = self.rng.pick(&[0, 0, 1, 128, 129, 100_000]);
                vec![capacity, SLOT * capacity + surplus]
            }
            BoardKind::Journal => {
                let idle = [0, 0, ENTRY - 1, 1, 65][self.turn(Turn::Idle, 5)];
                let entries = (limit + spare).min(MOST_ENTRIES);
                vec![capacity, limit, ENTRY * entries + idle]
            }
        };
        if self.rng.once_in(3) {
            self.say_figures(&numbers);
        }
        self.say_figures(&numbers);
        self.habits.clear();
    }

    fn say_figures(&mut self, numbers: &[u64]) {
        let mut line = vec!["board".to_string(), self.kind.word().to_string()];
        line.extend(numbers.iter().map(u64::to_string));
        self.say(line);
    }

    /// Figures of no board in turn; what stood stays.
    pub fn refused_board(&mut self) {
        let refused: &[Refused] = match self.kind {
            BoardKind::Table => &NO_TABLES,
            BoardKind::Journal => &NO_JOURNALS,
        };
        let numbers = refused[self.turn(Turn::Board, refused.len())](self);
        self.say_figures(&numbers);
        self.look();
    }
}
