//! A line read exactly by its form.

use super::words::{bytes, exactly, number, numbers, sheet, words};
use crate::board::{Figures, Row};
use crate::cabinet::{Opening, REGISTERS, Registers};
use crate::rules::Entries;

#[derive(Clone, Copy, Debug, PartialEq, Eq)]
pub enum SheetName {
    Decree,
    House,
    ProtectedDecree,
    ProtectedHouse,
}

impl SheetName {
    pub const ALL: [SheetName; 4] = [
        SheetName::Decree,
        SheetName::House,
        SheetName::ProtectedDecree,
        SheetName::ProtectedHouse,
    ];

    pub fn word(self) -> &'static str {
        match self {
            SheetName::Decree => "decree",
            SheetName::House => "house",
            SheetName::ProtectedDecree => "protected-decree",
            SheetName::ProtectedHouse => "protected-house",
        }
    }
}

#[derive(Clone, Debug, PartialEq, Eq)]
pub enum Call {
    Rating {
        network: u64,
        ampere: u64,
    },
    House {
        bytes: Vec<u8>,
    },
    Price {
        sheet: SheetName,
        code: u64,
        entries: Entries,
    },
    Choose {
        sheet: SheetName,
        entries: Entries,
    },
    Board(Figures),
    /// A call on the board itself.
    Rows(RowCall),
    /// A call on the cabinet.
    Cabinet(CabinetCall),
}

#[derive(Clone, Debug, PartialEq, Eq)]
pub enum RowCall {
    Store { number: u64, row: Row },
    Clear { number: u64 },
    Row { number: u64 },
}

impl RowCall {
    pub fn number(&self) -> u64 {
        match self {
            RowCall::Store { number, .. } | RowCall::Clear { number } | RowCall::Row { number } => {
                *number
            }
        }
    }

    pub fn stores(&self) -> bool {
        matches!(self, RowCall::Store { .. })
    }
}

#[derive(Clone, Debug, PartialEq, Eq)]
pub enum CabinetCall {
    Post {
        s: u64,
        mx: u64,
        nc: u64,
    },
    Open {
        number: u64,
        opening: Opening,
    },
    Read {
        number: u64,
        indices: Registers,
    },
    Settle {
        number: u64,
        end: u64,
        sheet: SheetName,
    },
    Pay {
        number: u64,
        amount: u64,
    },
    Close {
        number: u64,
    },
    Show {
        number: u64,
    },
}

/// Why a line cannot be taken. All of them print `unreadable`.
#[derive(Clone, Copy, Debug, PartialEq, Eq, PartialOrd, Ord)]
pub enum Unreadable {
    UnknownCall,
    MissingWord,
    SurplusWord,
    UnknownSheet,
    NotDigits,
    TooManyDigits,
    DoesNotFit,
    OddHex,
    NotHex,
    UnknownBoard,
    NotARow,
    /// A line on a board or a cabinet before any board was made.
    NoBoard,
    /// An earlier user's line after the cabinet was made.
    CabinetStands,
}

/// Reads a line without its line end. Blank and comment lines are no call.
pub fn read(line: &[u8]) -> Result<Option<Call>, Unreadable> {
    let all: Vec<&[u8]> = words(line).collect();
    match all.split_first() {
        None => Ok(None),
        Some((name, _)) if name.starts_with(b"#") => Ok(None),
        Some((name, rest)) => call(name, rest).map(Some),
    }
}

fn call(name: &[u8], rest: &[&[u8]]) -> Result<Call, Unreadable> {
    match name {
        b"rating" => {
            let [network, ampere] = numbers(rest)?;
            Ok(Call::Rating { network, ampere })
        }
        b"house" => {
            let [hex] = exactly(rest)?;
            Ok(Call::House { bytes: bytes(hex)? })
        }
        b"price" => {
            let [name, code, entries @ ..] = exactly::<{ 2 + Entries::COUNT }>(rest)?;
            Ok(Call::Price {
                sheet: sheet(name)?,
                code: number(code)?,
                entries: Entries::from_numbers(&numbers(&entries)?),
            })
        }
        b"choose" => {
            let [name, entries @ ..] = exactly::<{ 1 + Entries::COUNT }>(rest)?;
            Ok(Call::Choose {
                sheet: sheet(name)?,
                entries: Entries::from_numbers(&numbers(&entries)?),
            })
        }
        b"board" => figures(rest).map(Call::Board),
        b"store" | b"clear" | b"row" => row_call(name, rest).map(Call::Rows),
        _ => cabinet_call(name, rest).map(Call::Cabinet),
    }
}

fn figures(rest: &[&[u8]]) -> Result<Figures, Unreadable> {
    let (kind, rest) = rest.split_first().ok_or(Unreadable::MissingWord)?;
    match (*kind, rest.len()) {
        (b"table", ..=1) => {
            let [capacity] = numbers(rest)?;
            Ok(Figures::table(capacity))
        }
        (b"table", _) => {
            let [capacity, length] = numbers(rest)?;
            Ok(Figures::Table { capacity, length })
        }
        (b"journal", _) => {
            let [capacity, limit, length] = numbers(rest)?;
            Ok(Figures::Journal {
                capacity,
                limit,
                length,
            })
        }
        _ => Err(Unreadable::UnknownBoard),
    }
}

fn row_call(name: &[u8], rest: &[&[u8]]) -> Result<RowCall, Unreadable> {
    if name == b"store" {
        let [account, hex] = exactly(rest)?;
        let number = number(account)?;
        let row = Row::try_from(bytes(hex)?).map_err(|_| Unreadable::NotARow)?;
        return Ok(RowCall::Store { number, row });
    }
    let [number] = numbers(rest)?;
    Ok(if name == b"clear" {
        RowCall::Clear { number }
    } else {
        RowCall::Row { number }
    })
}

fn cabinet_call(name: &[u8], rest: &[&[u8]]) -> Result<CabinetCall, Unreadable> {
    match name {
        b"post" => {
            let [s, mx, nc] = numbers(rest)?;
            Ok(CabinetCall::Post { s, mx, nc })
        }
        b"open" => opening(&numbers(rest)?),
        b"read" => {
            let [number, indices @ ..] = numbers::<{ 1 + REGISTERS }>(rest)?;
            Ok(CabinetCall::Read { number, indices })
        }
        b"settle" => {
            let [account, end, name] = exactly(rest)?;
            Ok(CabinetCall::Settle {
                number: number(account)?,
                end: number(end)?,
                sheet: sheet(name)?,
            })
        }
        b"pay" => {
            let [number, amount] = numbers(rest)?;
            Ok(CabinetCall::Pay { number, amount })
        }
        b"close" => {
            let [number] = numbers(rest)?;
            Ok(CabinetCall::Close { number })
        }
        b"show" => {
            let [number] = numbers(rest)?;
            Ok(CabinetCall::Show { number })
        }
        _ => Err(Unreadable::UnknownCall),
    }
}

/// The number, then class, marks, both powers, six kinds, the first month and
/// twelve indices.
fn opening(numbers: &[u64; 24]) -> Result<CabinetCall, Unreadable> {
    let [number, class, marks, power, exempt, rest @ ..] = *numbers;
    Ok(CabinetCall::Open {
        number,
        opening: Opening {
            class,
            marks,
            power,
            exempt,
            kinds: std::array::from_fn(|circuit| rest[circuit]),
            first: rest[6],
            indices: std::array::from_fn(|register| rest[7 + register]),
        },
    })
}
