//! A cabinet: the months posted to it, and accounts as rows of a board.

pub mod account;
mod books;
mod months;
pub mod row;

pub use account::{Account, Opening, REGISTERS, Registers, State};
pub use months::Months;

use crate::board::Board;
use crate::refusal::{Cause, Refusal};
use crate::rules::{Parts, Sheet, choose};
use books::Books;

#[derive(Clone, Copy, Debug, PartialEq, Eq)]
pub struct Bill {
    pub code: u64,
    pub months: u64,
    pub day: u64,
    pub night: u64,
    pub parts: Parts,
    pub cents: i128,
}

#[derive(Clone, Debug)]
pub struct Cabinet<B> {
    board: B,
    months: Months,
    books: Books,
}

impl<B: Board> Cabinet<B> {
    /// A cabinet over a board as it stands, without any month.
    pub fn new(board: B) -> Cabinet<B> {
        Cabinet {
            board,
            months: Months::default(),
            books: Books::default(),
        }
    }

    pub fn board(&self) -> &B {
        &self.board
    }

    pub fn months(&self) -> &Months {
        &self.months
    }

    pub fn post(&mut self, s: u64, mx: u64, nc: u64) -> Result<(u64, u64), Refusal> {
        self.months.post(s, mx, nc)
    }

    pub fn show(&self, number: u64) -> Result<Option<Account>, Refusal> {
        match self.board.read(number)? {
            None => Ok(None),
            Some(row) => match row::decode(&row) {
                Ok(account) => Ok(Some(account)),
                Err(_) => Err(Cause::BrokenRow.at(number)),
            },
        }
    }

    /// The account that must stand at a number.
    fn standing(&self, number: u64) -> Result<Account, Refusal> {
        self.show(number)?.ok_or(Cause::Vacant.at(number))
    }

    fn keep(&mut self, number: u64, account: &Account) -> Result<(), Refusal> {
        self.board.store(number, &row::encode(account))
    }

    pub fn open(&mut self, number: u64, opening: &Opening) -> Result<(), Refusal> {
        if self.show(number)?.is_some() {
            return Err(Cause::Occupied.at(number));
        }
        let account = Account::open(opening).map_err(|_| Cause::OutsideLimits.at(number))?;
        self.keep(number, &account)?;
        self.books.opened(number, &account);
        Ok(())
    }

    pub fn read(&mut self, number: u64, indices: &Registers) -> Result<(), Refusal> {
        let before = self.standing(number)?;
        let account = before.read(indices).map_err(|cause| cause.at(number))?;
        self.keep(number, &account)?;
        self.books.read(number, &before, indices);
        Ok(())
    }

    pub fn settle(&mut self, number: u64, end: u64, sheet: &dyn Sheet) -> Result<Bill, Refusal> {
        let before = self.standing(number)?;
        let (account, bill) = self
            .settled(&before, end, sheet)
            .map_err(|cause| cause.at(number))?;
        self.keep(number, &account)?;
        self.books.billed(number, &before, &bill);
        Ok(bill)
    }

    /// What settling an account would make of it, and its bill.
    pub fn settled(
        &self,
        account: &Account,
        end: u64,
        sheet: &dyn Sheet,
    ) -> Result<(Account, Bill), Cause> {
        let months = account.months_to(end)?;
        if !self.months.is_posted(end) {
            return Err(Cause::NotPosted);
        }
        let facts = account.facts(months, self.months.sums(account.next_month, end));
        let (code, parts) = choose(sheet, &facts).ok_or(Cause::NoPlan)?;
        let (day, night) = account::day_and_night(&account.waiting);
        let cents = parts.cents(&facts);
        let bill = Bill {
            code,
            months,
            day,
            night,
            parts,
            cents,
        };
        Ok((account.billed(end, cents)?, bill))
    }

    pub fn pay(&mut self, number: u64, amount: u64) -> Result<(), Refusal> {
        let before = self.standing(number)?;
        let account = before.pay(amount).map_err(|cause| cause.at(number))?;
        self.keep(number, &account)?;
        self.books.paid(number, &before, amount);
        Ok(())
    }

    pub fn close(&mut self, number: u64) -> Result<(), Refusal> {
        let before = self.standing(number)?;
        before.close().map_err(|cause| cause.at(number))?;
        self.board.clear(number)?;
        self.books.closed(number);
        Ok(())
    }

    /// For every account that was called on: its balance is its bills less its
    /// payments, and the kWh read are the kWh billed and waiting.
    pub fn books_agree(&self) -> bool {
        self.books.numbers().all(|number| {
            let account = self.show(number).ok().flatten();
            self.books.agree(number, account.as_ref())
        })
    }
}
