//! Lines that bring a figure of an account to its limit, and beyond.

use crate::cabinet::State;
use crate::cabinet::account::{LARGEST_BALANCE, LARGEST_PAYMENT, LAST_MONTH, REGISTERS, is_unused};
use crate::rules::facts::LARGEST_KWH;
use crate::samples::Writer;
use crate::samples::calls::{open_words, settle_words};
use crate::script::SheetName;

const MOST: i128 = LARGEST_BALANCE;
/// How near a balance must be for a payment to reach its limit.
const NEAR: i128 = LARGEST_PAYMENT as i128;

impl Writer {
    /// A bill that would pass 10^12 by a cent, and one that reaches it.
    pub fn upper_balance(&mut self) {
        let due = self.due();
        let near = self.find(|account| account.balance > MOST - NEAR && account.next_month < due);
        let Some((number, account)) = near else {
            return self.post_months();
        };
        if account.state == State::Running {
            self.read_usual(number, 1);
        }
        let Some(next) = self.next_balance(number, 1, SheetName::Decree) else {
            return;
        };
        let beyond = next - MOST;
        if beyond > 1 {
            let amount = self.rng.pick(&[1, beyond - 1, beyond - 1]);
            self.say_numbers("pay", &[number, amount as u64]);
        }
        self.say_settlement(number, 1, SheetName::Decree);
        self.say_numbers("show", &[number]);
        if beyond > 1 {
            self.say_numbers("pay", &[number, 1]);
            self.say_settlement(number, 1, SheetName::Decree);
            self.look_at(number);
        }
    }

    /// A payment that would pass −10^12 by a cent, and one that reaches it.
    pub fn lower_balance(&mut self) {
        let Some((number, account)) = self.find(|account| account.balance < NEAR - MOST) else {
            return self.pay_account();
        };
        let room = (account.balance + MOST) as u64;
        self.say_numbers("pay", &[number, room + 1]);
        if self.rng.once_in(3) {
            let amount = self.rng.pick(&[LARGEST_PAYMENT, LARGEST_PAYMENT + 1]);
            self.say_numbers("pay", &[number, amount]);
        }
        if room > 0 {
            let amount = self.rng.pick(&[room, room, room.div_ceil(2)]);
            self.say_numbers("pay", &[number, amount]);
        }
        self.say_numbers("show", &[number]);
    }

    /// A register of an account that is in use.
    pub fn used_register(&mut self, number: u64) -> Option<usize> {
        let account = self.account(number)?;
        let first = self.rng.below(REGISTERS);
        (first..first + REGISTERS)
            .map(|register| register % REGISTERS)
            .find(|register| !is_unused(&account.profile, *register))
    }

    /// One register to exactly 100,000 waiting kWh, one beyond, and back.
    pub fn most_kwh(&mut self) {
        let Some((number, _)) = self.any_account() else {
            return self.open_account();
        };
        let Some(register) = self.used_register(number) else {
            return self.say_reading_without_kwh(number);
        };
        let Some(account) = self.account(number) else {
            return;
        };
        let room = LARGEST_KWH - account.waiting[register];
        let mut added = [0; REGISTERS];
        if self.rng.once_in(2) {
            added[register] = self.rng.range(0, room);
            self.say_reading(number, &added);
            added[register] = room + 1 - added[register];
            self.say_reading(number, &added);
        }
        let waiting = self
            .account(number)
            .map_or(0, |account| account.waiting[register]);
        added[register] = LARGEST_KWH - waiting;
        self.say_reading(number, &added);
        self.look_at(number);
    }

    /// A house sheet that permits a dwelling nothing, and one that does.
    pub fn no_plan(&mut self) {
        let due = self.due();
        let low = |power: i128| (1..2_500).contains(&power);
        let found = self.find(|account| account.next_month < due && low(account.profile.power));
        let Some((number, account)) = found else {
            return self.post_months();
        };
        let bytes = self.house_from(account.profile.power as u16 + 1);
        self.say_house(&bytes);
        if account.state == State::Running {
            self.say_settlement(number, 1, SheetName::House);
            self.read_usual(number, 1);
        }
        // Not posted, or more than twelve months: these are found before.
        let behind = due - account.next_month + 1;
        self.say_settlement(number, behind, SheetName::House);
        self.say_settlement(number, 13, SheetName::House);
        self.say_settlement(number, 1, SheetName::House);
        self.look_at(number);
        self.say_settlement(number, 1, SheetName::ProtectedHouse);
        let bytes = self.whole_house();
        self.say_house(&bytes);
        self.say_settlement(number, 1, SheetName::House);
        self.look_at(number);
    }

    /// An account whose next month is the last one, or behind it.
    pub fn last_period(&mut self) {
        let Some((number, account)) = self.find(|account| account.next_month >= LAST_MONTH) else {
            return self.read_account();
        };
        if account.state == State::Running {
            self.say_reading_without_kwh(number);
        }
        for end in [LAST_MONTH, LAST_MONTH + 1] {
            self.say(settle_words(number, end, SheetName::Decree));
        }
        self.look_at(number);
    }

    /// What no month follows any more.
    pub fn after_the_last_month(&mut self) {
        self.say_post();
        self.say_numbers("post", &[0, 0, u64::MAX]);
        let Some(number) = self.vacant_number() else {
            return self.last_period();
        };
        let habit = self.habit();
        let mut opening = self.opening(&habit);
        opening.first = self.rng.range(LAST_MONTH - 11, LAST_MONTH);
        self.say(open_words(number, &opening));
        self.habits.insert(number, habit);
        let months = LAST_MONTH + 1 - opening.first;
        self.read_usual(number, months);
        self.say_settlement(number, months, SheetName::Decree);
        self.look_at(number);
        self.read_usual(number, 1);
        self.last_period();
    }

    /// Another house sheet between two settlements of one account.
    pub fn replaced_house(&mut self) {
        let due = self.due();
        let Some((number, _)) = self.find(|account| account.next_month + 1 < due) else {
            return self.post_months();
        };
        for _ in 0..2 {
            let bytes = self.whole_house();
            self.say_house(&bytes);
            self.read_usual(number, 1);
            let sheet = self
                .rng
                .pick(&[SheetName::House, SheetName::ProtectedHouse]);
            self.say_settlement(number, 1, sheet);
        }
        self.look_at(number);
    }
}
