//! The lives of accounts: lines that are mostly accepted.

use crate::cabinet::account::{LARGEST_PAYMENT, LAST_MONTH, REGISTER_SIZE, is_unused};
use crate::cabinet::{Account, Opening, REGISTERS, Registers, State};
use crate::rules::Entries;
use crate::rules::facts::LARGEST_KWH;
use crate::samples::calls::{open_words, read_words, settle_words};
use crate::samples::pricing::Wanted;
use crate::samples::{Turn, Writer};
use crate::script::SheetName;

use SheetName::{Decree, House, ProtectedDecree, ProtectedHouse};

impl Writer {
    /// The agreement with a dwelling and what it uses in so many months: every
    /// base with every choice of meters in turn, protected customers, and any.
    pub fn habit(&mut self) -> Entries {
        match self.rng.below(8) {
            0 => self.any_facts(),
            1 => {
                let kwh = self.rng.range(0, 2_000);
                self.social_facts(kwh)
            }
            _ => {
                let all = Wanted::all();
                let wanted = all[self.turn(Turn::Plan, all.len())];
                self.facts_for(wanted, 4)
            }
        }
    }

    pub fn opening(&mut self, habit: &Entries) -> Opening {
        let due = self.due();
        let first = match self.rng.below(16) {
            0 => self.rng.range(0, LAST_MONTH),
            1 | 2 => due + self.rng.range(0, 2),
            _ => due.saturating_sub(self.rng.range(0, 14)),
        };
        Opening {
            class: habit.class,
            marks: habit.marks,
            power: habit.power,
            exempt: habit.exempt,
            kinds: habit.kinds,
            first: first.min(LAST_MONTH),
            indices: self.starting_indices(&habit.kinds),
        }
    }

    /// Often short of the turn of a register.
    pub fn starting_indices(&mut self, kinds: &[u64]) -> Registers {
        std::array::from_fn(|register| match (kinds[register / 2], self.rng.below(4)) {
            (0, _) | (_, 0) => 0,
            (_, 1) => self.rng.range(REGISTER_SIZE - 5_000, REGISTER_SIZE - 1),
            _ => self.rng.range(0, REGISTER_SIZE - 1),
        })
    }

    pub fn open_account(&mut self) {
        if self.is_board_full() {
            return self.close_account();
        }
        if let Some(number) = self.vacant_number() {
            self.open_at(number);
        }
    }

    pub fn open_at(&mut self, number: u64) {
        let habit = self.habit();
        let opening = self.opening(&habit);
        self.say(open_words(number, &opening));
        self.habits.insert(number, habit);
        self.look_at(number);
    }

    /// What an account would use in so many months, by its habit.
    fn usual_kwh(&mut self, number: u64, account: &Account, months: u64) -> Registers {
        let habit = self.habits.get(&number).cloned();
        std::array::from_fn(|register| {
            if is_unused(&account.profile, register) {
                return 0;
            }
            let kwh = match &habit {
                Some(habit) => {
                    let (day, night) = (habit.day[register / 2], habit.night[register / 2]);
                    let kwh = if register % 2 == 0 { day } else { night };
                    kwh * months / habit.months
                }
                None => self.rng.range(0, 400 * months),
            };
            (kwh * self.rng.range(90, 110) / 100).min(LARGEST_KWH)
        })
    }

    /// The reading by which so many kWh are added.
    pub fn say_reading(&mut self, number: u64, added: &Registers) {
        let Some(account) = self.account(number) else {
            return;
        };
        let indices = std::array::from_fn(|register| {
            (account.indices[register] + added[register]) % REGISTER_SIZE
        });
        self.say(read_words(number, &indices));
    }

    /// Readings after which the usual kWh of so many months wait.
    pub fn read_usual(&mut self, number: u64, months: u64) {
        let Some(account) = self.account(number) else {
            return;
        };
        let usual = self.usual_kwh(number, &account, months);
        let readings = self.rng.pick(&[1, 1, 1, 2, 3]);
        for reading in 1..=readings {
            let Some(account) = self.account(number) else {
                return;
            };
            let added = std::array::from_fn(|register| {
                (usual[register] * reading / readings).saturating_sub(account.waiting[register])
            });
            self.say_reading(number, &added);
        }
    }

    /// A reading of any account, without kWh or with a few.
    pub fn read_account(&mut self) {
        let Some((number, account)) = self.any_account() else {
            return self.open_account();
        };
        let most = self.rng.pick(&[0, 1, 60, 300, 300]);
        let added = std::array::from_fn(|register| {
            if is_unused(&account.profile, register) {
                return 0;
            }
            let room = LARGEST_KWH - account.waiting[register];
            self.rng.range(0, most).min(room)
        });
        self.say_reading(number, &added);
        self.look_at(number);
    }

    pub fn any_sheet(&mut self) -> SheetName {
        let protected = self.rng.pick(&[ProtectedDecree, ProtectedHouse]);
        match self.rng.below(10) {
            0..=5 => Decree,
            6 | 7 if !self.replay.house.lines.is_empty() => House,
            _ => protected,
        }
    }

    /// A settlement of so many months.
    pub fn say_settlement(&mut self, number: u64, months: u64, sheet: SheetName) {
        if let Some(account) = self.account(number) {
            self.say(settle_words(number, account.next_month + months - 1, sheet));
        }
    }

    /// Readings and the bill over some months that are posted.
    pub fn bill_account(&mut self) {
        let due = self.due();
        let Some((number, account)) = self.find(|account| account.next_month < due) else {
            return self.post_months();
        };
        let most = (due - account.next_month).min(12);
        let usual = self.habits.get(&number).map_or(12, |habit| habit.months);
        let months = match self.rng.below(5) {
            0 => self.rng.range(1, most),
            1 => most,
            _ => usual.min(most),
        };
        if account.state == State::Running || !self.rng.once_in(3) {
            self.read_usual(number, months);
        }
        let sheet = self.any_sheet();
        self.say_settlement(number, months, sheet);
        self.look_at(number);
    }

    pub fn pay_account(&mut self) {
        let Some((number, account)) = self.any_account() else {
            return self.open_account();
        };
        let owed = account.balance.clamp(1, LARGEST_PAYMENT.into()) as u64;
        let amount = match self.rng.below(6) {
            0 => self.rng.range(1, owed),
            1 => owed / 2 + 1,
            2 => self.rng.range(1, 60_000),
            _ => owed,
        };
        self.say_numbers("pay", &[number, amount]);
        self.look_at(number);
    }

    /// Pays what is owed, closes, and now and then opens the number again.
    pub fn close_account(&mut self) {
        let owes_little = |account: &Account| (0..=1_000_000_000).contains(&account.balance);
        let closable =
            move |account: &Account| account.state == State::Running && owes_little(account);
        let Some((number, account)) = self.find(closable) else {
            return self.bill_account();
        };
        if account.balance > 0 {
            self.say_numbers("pay", &[number, account.balance as u64]);
        }
        self.say_numbers("close", &[number]);
        self.look_at(number);
        if self.rng.once_in(2) {
            self.open_at(number);
        }
    }

    /// A new account that is read, and not to be closed before its bill.
    pub fn close_unsettled(&mut self) {
        if self.is_board_full() {
            return self.close_account();
        }
        let Some(number) = self.vacant_number() else {
            return;
        };
        self.open_at(number);
        self.say_reading_without_kwh(number);
        self.say_numbers("close", &[number]);
        self.look_at(number);
    }

    /// A payment ahead that the next bill uses up to the cent; then a closing.
    pub fn close_after_credit(&mut self) {
        let due = self.due();
        let Some((number, _)) = self.find(|account| account.next_month < due) else {
            return self.post_months();
        };
        self.read_usual(number, 1);
        let Some(ahead) = self.next_balance(number, 1, Decree) else {
            return;
        };
        if !(1..=i128::from(LARGEST_PAYMENT)).contains(&ahead) {
            return;
        }
        self.say_numbers("pay", &[number, ahead as u64]);
        self.say_numbers("close", &[number]);
        self.say_settlement(number, 1, Decree);
        self.say_numbers("show", &[number]);
        self.say_numbers("close", &[number]);
        self.look_at(number);
    }

    /// The balance that a settlement of so many months would leave, were there
    /// no limit.
    pub fn next_balance(&self, number: u64, months: u64, name: SheetName) -> Option<i128> {
        let cabinet = self.replay.bench.cabinet()?;
        let account = self.account(number)?;
        let unburdened = Account {
            balance: 0,
            ..account.clone()
        };
        let end = account.next_month + months - 1;
        let sheet = crate::script::sheet(&self.replay.house, name);
        let (_, bill) = cabinet.settled(&unburdened, end, &*sheet).ok()?;
        Some(account.balance + bill.cents)
    }

    /// No kWh on any register.
    pub fn say_reading_without_kwh(&mut self, number: u64) {
        self.say_reading(number, &[0; REGISTERS]);
    }
}
