//! Rows of an earlier user of the board, right and broken.

use crate::board::{ROW, Row};
use crate::cabinet::account::{LARGEST_BALANCE, LARGEST_INDEX, LAST_MONTH, REGISTERS};
use crate::cabinet::row::{at, encode};
use crate::cabinet::{Account, State};
use crate::rules::Kind;
use crate::rules::facts::LARGEST_KWH;
use crate::samples::{Turn, Writer};

/// What is moved to a limit in an account.
const AT_LIMITS: [fn(&mut Writer, &mut Account); 16] = [
    |_, account| account.balance = LARGEST_BALANCE,
    |_, account| account.balance = -LARGEST_BALANCE,
    Writer::nearly_largest_balance,
    Writer::nearly_least_balance,
    |_, account| account.next_month = LAST_MONTH + 1,
    |_, account| account.next_month = LAST_MONTH,
    Writer::all_registers_full,
    |_, account| (account.state, account.waiting) = (State::Ready, [0; REGISTERS]),
    |_, account| account.balance = 0,
    Writer::nearly_largest_balance,
    |_, account| account.balance = 1,
    |_, account| account.balance = -1,
    Writer::nearly_least_balance,
    |_, account| account.profile.exempt = account.profile.power,
    |_, account| (account.profile.power, account.profile.exempt) = (2_500, 0),
    Writer::nearly_largest_balance,
];

/// The ways to break a row.
const FLAWS: [fn(&mut Writer, &mut Row); 34] = [
    |_, row| row[at::STATE] = 0,
    |_, row| (row[at::CLASS], row[at::MARKS]) = (2, 0),
    |_, row| row[at::MARKS] = 8,
    |_, row| (row[at::CLASS], row[at::MARKS]) = (1, 4),
    |_, row| put(row, at::POWER, &[0; 4]),
    |_, row| put(row, at::POWER, &[0, 7, 0, 8]),
    |writer, row| row[at::KINDS + writer.rng.below(6)] = 4,
    |_, row| put(row, at::NEXT_MONTH, &1_201u16.to_be_bytes()),
    |writer, row| writer.put_register(row, at::INDICES, 1_000_000),
    |writer, row| writer.put_unused(row, at::INDICES),
    |writer, row| writer.put_register(row, at::WAITING, 100_001),
    |writer, row| writer.put_unused(row, at::WAITING),
    Writer::waits_while_running,
    |_, row| put_balance(row, 1 + LARGEST_BALANCE as i64),
    |writer, row| row[at::ZEROS + writer.rng.below(9)] = 1,
    |_, row| put_balance(row, -1 - LARGEST_BALANCE as i64),
    |_, row| row[at::STATE] = 3,
    |_, row| put(row, at::POWER, &2_501u16.to_be_bytes()),
    |_, row| row[at::STATE] = 255,
    |writer, row| (row[at::CLASS], row[at::MARKS]) = (1, writer.rng.range(4, 7) as u8),
    |_, row| row[at::MARKS] |= 128,
    |_, row| put(row, at::EXEMPT, &[255, 255]),
    |writer, row| row[at::KINDS + writer.rng.below(6)] = 255,
    |_, row| put(row, at::NEXT_MONTH, &[255, 255]),
    |writer, row| writer.put_register(row, at::INDICES, u32::MAX),
    |writer, row| writer.put_register(row, at::WAITING, u32::MAX),
    |_, row| put_balance(row, i64::MIN),
    |_, row| put_balance(row, i64::MAX),
    |_, row| row[ROW - 1] = 128,
    |_, row| *row = [0; ROW],
    |_, row| *row = [255; ROW],
    |writer, row| {
        row.iter_mut()
            .for_each(|byte| *byte = writer.rng.next() as u8)
    },
    |_, row| row.rotate_left(1),
    |_, row| row[at::INDICES..at::WAITING].reverse(),
];

fn put_balance(row: &mut Row, balance: i64) {
    put(row, at::BALANCE, &balance.to_be_bytes());
}

fn put(row: &mut Row, place: usize, bytes: &[u8]) {
    row[place..place + bytes.len()].copy_from_slice(bytes);
}

impl Writer {
    /// An account as an earlier user might have left it.
    fn left_account(&mut self) -> Option<Account> {
        let habit = self.habit();
        let opening = self.opening(&habit);
        let mut account = Account::open(&opening).ok()?;
        if self.rng.once_in(2) {
            account.state = State::Ready;
            account.waiting = std::array::from_fn(|register| {
                let circuit = register / 2;
                let by_circuit = if register % 2 == 0 {
                    &habit.day
                } else {
                    &habit.night
                };
                by_circuit[circuit]
            });
        }
        account.balance = i128::from(self.rng.range(0, 90_000)) - 20_000;
        account.next_month = self.rng.range(0, 6);
        Some(account)
    }

    fn nearly_largest_balance(&mut self, account: &mut Account) {
        account.balance = LARGEST_BALANCE - i128::from(self.rng.range(0, 3_000));
        account.next_month = self.rng.range(0, 3);
    }

    fn nearly_least_balance(&mut self, account: &mut Account) {
        account.balance = i128::from(self.rng.range(0, 3_000)) - LARGEST_BALANCE;
    }

    /// The highest indices, and as many kWh as may wait.
    fn all_registers_full(&mut self, account: &mut Account) {
        account.state = State::Ready;
        for register in 0..REGISTERS {
            if account.profile.kinds[register / 2] != Kind::Unused {
                account.indices[register] = LARGEST_INDEX;
                account.waiting[register] = LARGEST_KWH;
            }
        }
    }

    fn put_register(&mut self, row: &mut Row, part: usize, figure: u32) {
        let register = self.rng.below(REGISTERS);
        row[at::STATE] = 2;
        row[at::KINDS + register / 2] = 1;
        put(row, part + 4 * register, &figure.to_be_bytes());
    }

    /// An unused circuit with a figure on one of its registers.
    fn put_unused(&mut self, row: &mut Row, part: usize) {
        let register = self.rng.below(REGISTERS);
        let circuit = register / 2;
        row[at::STATE] = 2;
        row[at::KINDS + circuit] = 0;
        put(row, at::INDICES + 8 * circuit, &[0; 8]);
        put(row, at::WAITING + 8 * circuit, &[0; 8]);
        row[part + 4 * register + 3] = 1;
    }

    fn waits_while_running(&mut self, row: &mut Row) {
        self.put_register(row, at::WAITING, 1);
        row[at::STATE] = 1;
    }

    fn say_store(&mut self, number: u64, row: &Row) {
        let hex = self.hex(row);
        self.say(vec!["store".to_string(), number.to_string(), hex]);
        self.habits.remove(&number);
    }

    /// A row with an account of which something is at a limit, in turn.
    pub fn store_account(&mut self) {
        let Some(number) = self.vacant_number() else {
            return self.store_again();
        };
        let Some(mut account) = self.left_account() else {
            return;
        };
        let limit = AT_LIMITS[self.turn(Turn::GoodRow, AT_LIMITS.len())];
        limit(self, &mut account);
        self.say_store(number, &encode(&account));
        if self.rng.once_in(4) {
            self.say_numbers("row", &[number]);
        }
    }

    /// The ways to break a row in turn.
    pub fn store_broken(&mut self) {
        let Some(number) = self.vacant_number() else {
            return self.store_again();
        };
        let Some(account) = self.left_account() else {
            return;
        };
        let mut row = encode(&account);
        let flaw = FLAWS[self.turn(Turn::RowFlaw, FLAWS.len())];
        flaw(self, &mut row);
        self.say_store(number, &row);
        if self.rng.once_in(4) {
            self.say_numbers("row", &[number]);
        }
    }

    /// A standing row stored again, with other bytes or the same.
    pub fn store_again(&mut self) {
        let Some((number, mut account)) = self.any_account() else {
            return;
        };
        if self.rng.once_in(2) {
            account.next_month = self.rng.range(0, 6);
        }
        self.say_store(number, &encode(&account));
        self.say_numbers("row", &[number]);
    }

    pub fn store_outside(&mut self) {
        let number = self.outside_number();
        let row: Row = std::array::from_fn(|_| self.rng.next() as u8);
        self.say_store(number, &row);
        let number = self.outside_number();
        self.say_numbers("clear", &[number]);
        let number = self.outside_number();
        self.say_numbers("row", &[number]);
    }

    /// One row more than the limit allows, unless numbers end before.
    pub fn store_beyond_the_limit(&mut self) {
        while !self.is_board_full() && !self.is_full() {
            self.store_account();
        }
        if let Some(number) = self.vacant_number() {
            let row: Row = std::array::from_fn(|_| self.rng.next() as u8);
            self.say_store(number, &row);
            self.say_numbers("row", &[number]);
            self.store_again();
        }
        self.clear_row();
        self.store_account();
    }

    /// A standing row cleared, or none.
    pub fn clear_row(&mut self) {
        let number = match self.rng.below(3) {
            0 => self.vacant_number(),
            1 => self.broken_number(),
            _ => self.any_account().map(|(number, _)| number),
        };
        if let Some(number) = number {
            self.say_numbers("clear", &[number]);
            self.look_at(number);
        }
    }
}
