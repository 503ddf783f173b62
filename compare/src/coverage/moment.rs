//! A call on a cabinet, with what stood before it and after it.

use crate::board::{Board, Device, Twin};
use crate::cabinet::row::{RowFlaw, decode};
use crate::cabinet::{Account, Cabinet};
use crate::refusal::Cause;
use crate::rules::HouseSheet;
use crate::script::{Answer, Bench, CabinetCall};

/// What stands at a number.
#[derive(Clone, Debug)]
pub enum Standing {
    Outside,
    Vacant,
    Broken(RowFlaw),
    Account(Box<Account>),
}

impl Standing {
    pub fn at(board: &Twin, number: u64) -> Standing {
        match board.read(number) {
            Err(_) => Standing::Outside,
            Ok(None) => Standing::Vacant,
            Ok(Some(row)) => match decode(&row) {
                Ok(account) => Standing::Account(Box::new(account)),
                Err(flaw) => Standing::Broken(flaw),
            },
        }
    }

    pub fn account(&self) -> Option<&Account> {
        match self {
            Standing::Account(account) => Some(account),
            _ => None,
        }
    }
}

pub struct Moment<'a> {
    pub call: &'a CabinetCall,
    pub before: Standing,
    /// The month that was due before.
    pub due: u64,
    /// As many rows stood as the limit allows.
    pub full: bool,
    pub capacity: u64,
    pub house: &'a HouseSheet,
    /// Filled in when the call was answered.
    pub after: Option<Account>,
    pub refused: Option<Cause>,
}

impl<'a> Moment<'a> {
    /// None where there is no board.
    pub fn before(
        call: &'a CabinetCall,
        bench: &Bench,
        house: &'a HouseSheet,
    ) -> Option<Moment<'a>> {
        let board = bench.board()?;
        let number = number_of(call);
        Some(Moment {
            call,
            before: number.map_or(Standing::Vacant, |number| Standing::at(board, number)),
            due: bench.cabinet().map_or(0, |cabinet| cabinet.months().due()),
            full: board.meaning().count() == board.limit(),
            capacity: board.capacity(),
            house,
            after: None,
            refused: None,
        })
    }

    /// The moment with its answer and what it left.
    pub fn answered(self, answer: &Answer, cabinet: Option<&Cabinet<Twin>>) -> Moment<'a> {
        let number = number_of(self.call);
        let standing = number
            .zip(cabinet)
            .map(|(number, cabinet)| Standing::at(cabinet.board(), number));
        Moment {
            after: standing.and_then(|standing| standing.account().cloned()),
            refused: match answer {
                Answer::Refused(refusal) => Some(refusal.cause),
                _ => None,
            },
            ..self
        }
    }

    pub fn accepted(&self) -> bool {
        self.refused.is_none()
    }

    pub fn refused_by(&self, cause: Cause) -> bool {
        self.refused == Some(cause)
    }
}

/// The account's number that a call takes.
pub fn number_of(call: &CabinetCall) -> Option<u64> {
    match call {
        CabinetCall::Post { .. } => None,
        CabinetCall::Open { number, .. }
        | CabinetCall::Read { number, .. }
        | CabinetCall::Settle { number, .. }
        | CabinetCall::Pay { number, .. }
        | CabinetCall::Close { number }
        | CabinetCall::Show { number } => Some(*number),
    }
}

/// How often a journal dropped stale entries.
pub fn droppings(bench: &Bench) -> u64 {
    match bench.board().map(Twin::device) {
        Some(Device::Journal(journal)) => journal.droppings(),
        _ => 0,
    }
}
