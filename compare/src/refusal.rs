//! What a refusal says: a number, a layer and a place.

use std::fmt;

#[derive(Clone, Copy, Debug, PartialEq, Eq)]
pub enum Layer {
    Board,
    Ledger,
    Cabinet,
    Sheet,
    Rating,
}

impl fmt::Display for Layer {
    fn fmt(&self, f: &mut fmt::Formatter<'_>) -> fmt::Result {
        f.write_str(match self {
            Layer::Board => "board",
            Layer::Ledger => "ledger",
            Layer::Cabinet => "cabinet",
            Layer::Sheet => "sheet",
            Layer::Rating => "rating",
        })
    }
}

/// Why a call is refused, each with its number.
#[derive(Clone, Copy, Debug, PartialEq, Eq, PartialOrd, Ord)]
pub enum Cause {
    MonthsFull = 1,
    MonthFigure = 2,
    Outside = 3,
    Occupied = 4,
    OutsideLimits = 5,
    Full = 6,
    Vacant = 7,
    Index = 8,
    TooManyKwh = 9,
    NotReady = 10,
    Period = 11,
    NotPosted = 12,
    NoPlan = 13,
    Payment = 14,
    Balance = 15,
    NotSettled = 16,
    BrokenRow = 17,
    SheetField = 18,
    SheetValue = 19,
    SheetLines = 20,
    Rating = 21,
    Making = 22,
}

impl Cause {
    pub fn number(self) -> u64 {
        self as u64
    }

    pub fn layer(self) -> Layer {
        match self {
            Cause::Outside | Cause::Full | Cause::Making => Layer::Board,
            Cause::MonthsFull | Cause::MonthFigure | Cause::NotPosted | Cause::NoPlan => {
                Layer::Cabinet
            }
            Cause::SheetField | Cause::SheetValue | Cause::SheetLines => Layer::Sheet,
            Cause::Rating => Layer::Rating,
            Cause::Occupied | Cause::OutsideLimits | Cause::Vacant | Cause::BrokenRow => {
                Layer::Ledger
            }
            Cause::Index | Cause::TooManyKwh | Cause::NotReady | Cause::Period => Layer::Ledger,
            Cause::Payment | Cause::Balance | Cause::NotSettled => Layer::Ledger,
        }
    }

    /// The refusal by this cause, at a place.
    pub fn at(self, place: u64) -> Refusal {
        Refusal { cause: self, place }
    }
}

#[derive(Clone, Copy, Debug, PartialEq, Eq)]
pub struct Refusal {
    pub cause: Cause,
    pub place: u64,
}

impl fmt::Display for Refusal {
    fn fmt(&self, f: &mut fmt::Formatter<'_>) -> fmt::Result {
        let (number, layer) = (self.cause.number(), self.cause.layer());
        write!(f, "refused {number} {layer} {}", self.place)
    }
}
