//! What stands at the moment, and lines that show it.

use crate::board::{Board, Meaning};
use crate::cabinet::row::decode;
use crate::cabinet::{Account, Cabinet, State};
use crate::samples::Writer;

impl Writer {
    fn board(&self) -> Option<&Meaning> {
        self.replay.bench.board().map(|board| board.meaning())
    }

    pub fn capacity(&self) -> u64 {
        self.board().map_or(1, |board| board.capacity())
    }

    /// As many rows stand as the limit allows.
    pub fn is_board_full(&self) -> bool {
        self.board()
            .is_some_and(|board| board.count() == board.limit())
    }

    pub fn has_cabinet(&self) -> bool {
        self.replay.bench.cabinet().is_some()
    }

    /// The month that is due.
    pub fn due(&self) -> u64 {
        let months = self.replay.bench.cabinet().map(Cabinet::months);
        months.map_or(0, |months| months.due())
    }

    /// The account at a number; none where the row is broken.
    pub fn account(&self, number: u64) -> Option<Account> {
        let row = self.board()?.read(number).ok()??;
        decode(&row).ok()
    }

    /// A number at which something stands that a look finds right.
    fn any_number(&mut self, is_right: impl Fn(&Writer, u64) -> bool) -> Option<u64> {
        let numbers: Vec<u64> = self.board()?.numbers().collect();
        if numbers.is_empty() {
            return None;
        }
        let first = self.rng.below(numbers.len());
        let in_turn = numbers[first..].iter().chain(&numbers[..first]).copied();
        in_turn.into_iter().find(|number| is_right(self, *number))
    }

    /// Some account of that kind.
    pub fn find(&mut self, is_right: impl Fn(&Account) -> bool) -> Option<(u64, Account)> {
        let number = self.any_number(|writer, number| {
            writer
                .account(number)
                .is_some_and(|account| is_right(&account))
        })?;
        Some((number, self.account(number)?))
    }

    pub fn any_account(&mut self) -> Option<(u64, Account)> {
        self.find(|_| true)
    }

    pub fn any_ready(&mut self) -> Option<(u64, Account)> {
        self.find(|account| account.state == State::Ready)
    }

    pub fn any_running(&mut self) -> Option<(u64, Account)> {
        self.find(|account| account.state == State::Running)
    }

    /// A number whose row is no account's.
    pub fn broken_number(&mut self) -> Option<u64> {
        self.any_number(|writer, number| writer.account(number).is_none())
    }

    pub fn is_vacant(&self, number: u64) -> bool {
        let row = self.board().map(|board| board.read(number));
        row == Some(Ok(None))
    }

    /// A number without a row.
    pub fn vacant_number(&mut self) -> Option<u64> {
        let capacity = self.capacity();
        let first = match self.rng.below(4) {
            0 => self.rng.pick(&[0, capacity - 1]),
            _ => self.rng.range(0, capacity - 1),
        };
        (0..capacity)
            .map(|step| (first + step) % capacity)
            .find(|number| self.is_vacant(*number))
    }

    /// A number that is the capacity or more.
    pub fn outside_number(&mut self) -> u64 {
        let capacity = self.capacity();
        let inside = self.rng.range(0, capacity - 1);
        match self.rng.below(8) {
            0..=2 => capacity,
            3 => capacity + self.rng.range(1, 300),
            4 => u64::MAX,
            _ => self.huge(inside).max(capacity),
        }
    }

    /// Now and then what stands at a number, as an account or as a row.
    pub fn look_at(&mut self, number: u64) {
        if self.rng.once_in(3) && self.has_cabinet() {
            self.say_numbers("show", &[number]);
        }
        if self.rng.once_in(4) {
            self.say_numbers("row", &[number]);
        }
    }

    /// What stands at any number.
    pub fn look(&mut self) {
        let number = match self.rng.below(4) {
            0 => self.vacant_number(),
            _ => self.any_number(|_, _| true),
        };
        let Some(number) = number else { return };
        let name = match self.rng.below(3) {
            0 => "row",
            _ if self.has_cabinet() => "show",
            _ => "row",
        };
        self.say_numbers(name, &[number]);
    }
}
