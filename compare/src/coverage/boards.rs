//! What the lines that make boards reach.

use super::{Coverage, each};
use crate::board::{Board, Device, ENTRY, Figures, LARGEST_CAPACITY, MOST_ENTRIES, SLOT, Twin};
use crate::script::{Answer, Bench, Call};

/// Figures, and whether they belong to a category.
type Case = (&'static str, fn(Figures) -> bool);

const MADE: &[Case] = &[
    ("table of 1", |f| {
        matches!(f, Figures::Table { capacity: 1, .. })
    }),
    ("table of 4096", |f| {
        matches!(
            f,
            Figures::Table {
                capacity: LARGEST_CAPACITY,
                ..
            }
        )
    }),
    (
        "table with idle bytes",
        |f| matches!(f, Figures::Table { capacity, length } if length > SLOT * capacity),
    ),
    ("journal of 1", |f| {
        matches!(f, Figures::Journal { capacity: 1, .. })
    }),
    ("journal of 4096", |f| {
        matches!(
            f,
            Figures::Journal {
                capacity: LARGEST_CAPACITY,
                ..
            }
        )
    }),
    ("journal with limit 1 below its capacity", |f| {
        matches!(
            f,
            Figures::Journal {
                capacity: 2..,
                limit: 1,
                ..
            }
        )
    }),
    (
        "journal with its capacity as limit",
        |f| matches!(f, Figures::Journal { capacity, limit, .. } if capacity > 1 && limit == capacity),
    ),
    (
        "journal with a limit below its capacity",
        |f| matches!(f, Figures::Journal { capacity, limit, .. } if limit < capacity),
    ),
    ("journal with one entry to spare", |f| spare(f) == Some(1)),
    ("journal with more entries to spare", |f| spare(f) > Some(1)),
    (
        "journal of 65535 entries",
        |f| matches!(f, Figures::Journal { length, .. } if length / ENTRY == MOST_ENTRIES),
    ),
    (
        "journal with idle bytes",
        |f| matches!(f, Figures::Journal { length, .. } if length % ENTRY == ENTRY - 1),
    ),
];

const REFUSED: &[Case] = &[
    ("table of 0", |f| {
        matches!(f, Figures::Table { capacity: 0, .. })
    }),
    ("table of 4097", |f| {
        matches!(
            f,
            Figures::Table {
                capacity: 4_097,
                ..
            }
        )
    }),
    (
        "table whose length passes 64 bits",
        |f| matches!(f, Figures::Table { capacity, length: u64::MAX } if capacity < u64::MAX),
    ),
    ("table of 2^64 - 1", |f| {
        matches!(
            f,
            Figures::Table {
                capacity: u64::MAX,
                ..
            }
        )
    }),
    ("table one byte short", |f| {
        matches!(f, Figures::Table { capacity: 1..=LARGEST_CAPACITY, length }
            if length % SLOT == SLOT - 1)
    }),
    ("journal of 0", |f| {
        matches!(f, Figures::Journal { capacity: 0, .. })
    }),
    ("journal of 4097", |f| {
        matches!(
            f,
            Figures::Journal {
                capacity: 4_097,
                ..
            }
        )
    }),
    ("journal with limit 0", |f| {
        matches!(
            f,
            Figures::Journal {
                capacity: 1..,
                limit: 0,
                ..
            }
        )
    }),
    (
        "journal with a limit one above its capacity",
        |f| matches!(f, Figures::Journal { capacity, limit, .. } if limit.checked_sub(capacity) == Some(1)),
    ),
    ("journal one byte short", |f| {
        matches!(f, Figures::Journal { limit: 1.., length, .. } if length % ENTRY == ENTRY - 1)
            && spare(f) == Some(0)
    }),
    (
        "journal of 65536 entries",
        |f| matches!(f, Figures::Journal { length, .. } if length / ENTRY == MOST_ENTRIES + 1),
    ),
    ("journal of 2^64 - 1 bytes", |f| {
        matches!(
            f,
            Figures::Journal {
                length: u64::MAX,
                ..
            }
        )
    }),
];

const DROPPED: [&str; 3] = [
    "with one entry to spare",
    "with more entries to spare",
    "with as many rows as the limit",
];

/// Entries beyond the limit.
fn spare(figures: Figures) -> Option<u64> {
    match figures {
        Figures::Table { .. } => None,
        Figures::Journal { limit, length, .. } => (length / ENTRY).checked_sub(limit),
    }
}

pub fn word(device: &Device) -> &'static str {
    match device {
        Device::Table(_) => "table",
        Device::Journal(_) => "journal",
    }
}

pub fn names() -> Vec<String> {
    let stood = ["nothing", "a board", "a cabinet"];
    [
        each("made: ", MADE.iter().map(|case| case.0)),
        each("refused 22: ", REFUSED.iter().map(|case| case.0)),
        each("made where stood ", stood),
        each("refused 22 where stood ", stood),
        each("stale entries dropped by ", ["a store", "a clearing"]),
        each("stale entries dropped ", DROPPED),
        each(
            "stored where ",
            ["a row stood", "a row stood on a full board"],
        ),
        each("cleared where ", ["a row stood", "none stood"]),
    ]
    .concat()
}

/// What stood before a line on a board.
pub struct Outlook {
    stood: &'static str,
    row: bool,
    full: bool,
}

impl Outlook {
    pub fn before(call: &Call, bench: &Bench) -> Outlook {
        let number = match call {
            Call::Rows(call) => Some(call.number()),
            _ => None,
        };
        let board = bench.board();
        let row = number.zip(board).map(|(number, board)| board.read(number));
        Outlook {
            stood: match bench {
                Bench::Empty => "nothing",
                Bench::Board(_) => "a board",
                Bench::Cabinet(_) => "a cabinet",
            },
            row: matches!(row, Some(Ok(Some(_)))),
            full: board.is_some_and(|board| board.meaning().count() == board.limit()),
        }
    }
}

impl Coverage {
    pub(super) fn board_call(&mut self, call: &Call, outlook: &Outlook, answer: &Answer) {
        match (call, answer) {
            (Call::Board(figures), Answer::Made { .. }) => {
                self.count(&format!("made where stood {}", outlook.stood));
                for (name, holds) in MADE {
                    self.count_if(holds(*figures), &format!("made: {name}"));
                }
                self.new_lives();
            }
            (Call::Board(figures), Answer::Refused(_)) => {
                self.count(&format!("refused 22 where stood {}", outlook.stood));
                for (name, holds) in REFUSED {
                    self.count_if(holds(*figures), &format!("refused 22: {name}"));
                }
            }
            (Call::Rows(call), Answer::Done) => {
                let Outlook { row, full, .. } = *outlook;
                if call.stores() {
                    self.count_if(row, "stored where a row stood");
                    self.count_if(row && full, "stored where a row stood on a full board");
                } else {
                    let stood = if row { "a row" } else { "none" };
                    self.count(&format!("cleared where {stood} stood"));
                }
            }
            _ => {}
        }
    }
}

/// What holds of a journal that just dropped stale entries.
pub fn dropped(board: &Twin) -> Vec<String> {
    let Device::Journal(journal) = board.device() else {
        return Vec::new();
    };
    let spare = journal.entries() as u64 - journal.limit();
    let holds = [
        spare == 1,
        spare > 1,
        board.meaning().count() == board.limit(),
    ];
    let held = DROPPED.into_iter().zip(holds).filter(|(_, holds)| *holds);
    held.map(|(name, _)| format!("stale entries dropped {name}"))
        .collect()
}
