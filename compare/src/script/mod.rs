//! Replay scripts: a line read exactly by its form, then answered.

mod answer;
mod call;
mod words;

pub use answer::Answer;
pub use call::{CabinetCall, Call, RowCall, SheetName, Unreadable, read};
pub use words::words;

use crate::board::{Board, Figures, Twin};
use crate::cabinet::Cabinet;
use crate::house;
use crate::refusal::Refusal;
use crate::rules::{
    DecreeSheet, Entries, Facts, HouseSheet, ProtectedLayer, Sheet, choose, rating,
};

/// What the lines on a board or a cabinet find.
#[derive(Clone, Debug, Default)]
pub enum Bench {
    #[default]
    Empty,
    /// A board that no line has called a cabinet on.
    Board(Twin),
    Cabinet(Cabinet<Twin>),
}

impl Bench {
    /// The board that stands, with a cabinet over it or without.
    pub fn board(&self) -> Option<&Twin> {
        match self {
            Bench::Empty => None,
            Bench::Board(board) => Some(board),
            Bench::Cabinet(cabinet) => Some(cabinet.board()),
        }
    }

    pub fn cabinet(&self) -> Option<&Cabinet<Twin>> {
        match self {
            Bench::Cabinet(cabinet) => Some(cabinet),
            Bench::Empty | Bench::Board(_) => None,
        }
    }

    /// The cabinet, made where only a board stands.
    fn cabinet_made(&mut self) -> Option<&mut Cabinet<Twin>> {
        *self = match std::mem::take(self) {
            Bench::Board(board) => Bench::Cabinet(Cabinet::new(board)),
            other => other,
        };
        match self {
            Bench::Cabinet(cabinet) => Some(cabinet),
            Bench::Empty | Bench::Board(_) => None,
        }
    }
}

/// What stands between the lines of a script.
#[derive(Clone, Debug, Default)]
pub struct Replay {
    pub house: HouseSheet,
    pub bench: Bench,
}

/// The sheet of that name.
pub fn sheet(house: &HouseSheet, name: SheetName) -> Box<dyn Sheet + '_> {
    match name {
        SheetName::Decree => Box::new(DecreeSheet),
        SheetName::House => Box::new(house),
        SheetName::ProtectedDecree => Box::new(ProtectedLayer(DecreeSheet)),
        SheetName::ProtectedHouse => Box::new(ProtectedLayer(house)),
    }
}

impl Replay {
    /// The answer to a line, none for a blank or a comment.
    pub fn line(&mut self, line: &[u8]) -> Option<Answer> {
        match read(line) {
            Ok(None) => None,
            Ok(Some(call)) => Some(self.answer(&call)),
            Err(reason) => Some(Answer::Unreadable(reason)),
        }
    }

    pub fn answer(&mut self, call: &Call) -> Answer {
        self.result(call).unwrap_or_else(Answer::Refused)
    }

    fn result(&mut self, call: &Call) -> Result<Answer, Refusal> {
        match call {
            Call::Rating { network, ampere } => Ok(Answer::Tenths(rating(*network, *ampere)?)),
            Call::House { bytes } => {
                let lines = house::read(bytes).map_err(house::refusal)?;
                self.house = HouseSheet { lines };
                Ok(Answer::Lines(self.house.lines.len()))
            }
            Call::Price {
                sheet,
                code,
                entries,
            } => self.price(*sheet, *code, entries),
            Call::Choose { sheet, entries } => self.choice(*sheet, entries),
            Call::Board(figures) => self.make(*figures),
            Call::Rows(call) => self.rows(call),
            Call::Cabinet(call) => self.cabinet(call),
        }
    }

    fn price(&self, name: SheetName, code: u64, entries: &Entries) -> Result<Answer, Refusal> {
        let facts = Facts::new(entries)?;
        let parts = sheet(&self.house, name).price(code, &facts);
        Ok(parts.map_or(Answer::NotPermitted, |parts| Answer::Parts {
            parts,
            cents: parts.cents(&facts),
        }))
    }

    fn choice(&self, name: SheetName, entries: &Entries) -> Result<Answer, Refusal> {
        let facts = Facts::new(entries)?;
        let plan = choose(&*sheet(&self.house, name), &facts);
        Ok(plan.map_or(Answer::NoPlan, |(code, parts)| Answer::Plan {
            code,
            parts,
            cents: parts.cents(&facts),
        }))
    }

    fn make(&mut self, figures: Figures) -> Result<Answer, Refusal> {
        figures.check()?;
        let Ok(board) = Twin::make(figures) else {
            return Ok(Answer::NoMemory);
        };
        let (capacity, limit) = (board.capacity(), board.limit());
        self.bench = Bench::Board(board);
        Ok(Answer::Made { capacity, limit })
    }

    fn rows(&mut self, call: &RowCall) -> Result<Answer, Refusal> {
        match (call, &mut self.bench) {
            (_, Bench::Empty) => Ok(Answer::Unreadable(Unreadable::NoBoard)),
            (RowCall::Row { number }, bench) => {
                let row = bench.board().map(|board| board.read(*number));
                Ok(row
                    .transpose()?
                    .flatten()
                    .map_or(Answer::Vacant, Answer::Row))
            }
            (_, Bench::Cabinet(_)) => Ok(Answer::Unreadable(Unreadable::CabinetStands)),
            (RowCall::Store { number, row }, Bench::Board(board)) => {
                board.store(*number, row)?;
                Ok(Answer::Done)
            }
            (RowCall::Clear { number }, Bench::Board(board)) => {
                board.clear(*number)?;
                Ok(Answer::Done)
            }
        }
    }

    fn cabinet(&mut self, call: &CabinetCall) -> Result<Answer, Refusal> {
        let Some(cabinet) = self.bench.cabinet_made() else {
            return Ok(Answer::Unreadable(Unreadable::NoBoard));
        };
        match call {
            CabinetCall::Post { s, mx, nc } => {
                let (month, ne) = cabinet.post(*s, *mx, *nc)?;
                return Ok(Answer::Posted { month, ne });
            }
            CabinetCall::Open { number, opening } => cabinet.open(*number, opening)?,
            CabinetCall::Read { number, indices } => cabinet.read(*number, indices)?,
            CabinetCall::Settle {
                number,
                end,
                sheet: name,
            } => {
                let bill = cabinet.settle(*number, *end, &*sheet(&self.house, *name))?;
                return Ok(Answer::Bill(bill));
            }
            CabinetCall::Pay { number, amount } => cabinet.pay(*number, *amount)?,
            CabinetCall::Close { number } => cabinet.close(*number)?,
            CabinetCall::Show { number } => {
                let account = cabinet.show(*number)?;
                return Ok(account.map_or(Answer::Vacant, Answer::Account));
            }
        }
        Ok(Answer::Done)
    }
}

#[cfg(test)]
mod tests {
    use super::*;

    #[test]
    fn lines_by_their_form() {
        let text = |line: &[u8]| {
            Replay::default()
                .line(line)
                .map(|answer| answer.to_string())
        };
        let said = |words: &str| Some(words.to_string());
        assert_eq!(text(b""), None);
        assert_eq!(text(b" \t "), None);
        assert_eq!(text(b"\t #rating 1 4"), None);
        assert_eq!(text(b"\trating \t 1   0004 "), said("tenths 9"));
        assert_eq!(text(b"rating 1 19"), said("refused 21 rating 19"));
        assert_eq!(text(b"rating 1"), said("unreadable"));
        assert_eq!(text(b"rating 1 4 #"), said("unreadable"));
        assert_eq!(text(b"Rating 1 4"), said("unreadable"));
        assert_eq!(text(b"rating 1 \xff"), said("unreadable"));
        assert_eq!(text(b"house -"), said("refused 18 sheet 0"));
        assert_eq!(text(b"house 7F0000"), said("refused 20 sheet 0"));
        assert_eq!(text(b"house 7f000"), said("unreadable"));
        assert_eq!(text(b"house 7g0000"), said("unreadable"));
        assert_eq!(text(b"house"), said("unreadable"));
    }

    #[test]
    fn a_refused_reading_leaves_the_lines() {
        let mut replay = Replay::default();
        let house = format!("house 010012{}7f0000", "00".repeat(18));
        assert_eq!(replay.line(house.as_bytes()), Some(Answer::Lines(1)));
        assert!(matches!(replay.line(b"house 01"), Some(Answer::Refused(_))));
        assert_eq!(replay.house.lines.len(), 1);
    }
}
