//! Lines that are refused, by every number, and by one of several that hold.

use super::edges::BEYOND_LIMITS;
use crate::cabinet::account::{LARGEST_INDEX, LARGEST_PAYMENT, REGISTER_SIZE, is_unused};
use crate::cabinet::{Account, Opening, REGISTERS, Registers, State};
use crate::rules::facts::LARGEST_KWH;
use crate::samples::calls::{open_words, read_words, settle_words, words};
use crate::samples::{Turn, Writer};
use crate::script::SheetName;

/// The words of a line that is refused, where what stands allows one.
type Refused = fn(&mut Writer) -> Option<Vec<String>>;

const REFUSED: [Refused; 44] = [
    |w| Some(open_words(w.outside_number(), &w.good_opening())),
    |w| Some(open_words(w.outside_number(), &w.bad_opening())),
    |w| Some(read_words(w.outside_number(), &[0; REGISTERS])),
    |w| Some(read_words(w.outside_number(), &[u64::MAX; REGISTERS])),
    |w| Some(settle_words(w.outside_number(), 0, SheetName::Decree)),
    |w| Some(settle_words(w.outside_number(), u64::MAX, SheetName::House)),
    |w| Some(words("pay", &[w.outside_number(), 5])),
    |w| Some(words("pay", &[w.outside_number(), 0])),
    |w| Some(words("close", &[w.outside_number()])),
    |w| Some(words("show", &[w.outside_number()])),
    |w| Some(words("row", &[w.outside_number()])),
    |w| Some(open_words(w.any_account()?.0, &w.good_opening())),
    |w| Some(open_words(w.any_account()?.0, &w.bad_opening())),
    Writer::bad_opening_at_vacant,
    Writer::bad_opening_at_vacant,
    Writer::bad_opening_at_vacant,
    Writer::bad_opening_at_vacant,
    |w| Some(read_words(w.vacant_number()?, &[0; REGISTERS])),
    |w| Some(read_words(w.vacant_number()?, &[u64::MAX; REGISTERS])),
    |w| Some(settle_words(w.vacant_number()?, w.due(), SheetName::Decree)),
    |w| Some(settle_words(w.vacant_number()?, 0, SheetName::House)),
    |w| Some(words("pay", &[w.vacant_number()?, 5])),
    |w| Some(words("pay", &[w.vacant_number()?, 0])),
    |w| Some(words("close", &[w.vacant_number()?])),
    Writer::index_too_high,
    Writer::index_too_high,
    Writer::index_on_unused,
    Writer::index_and_kwh,
    Writer::too_many_counted,
    Writer::one_lower,
    Writer::settle_running,
    Writer::settle_running,
    Writer::settle_wrong_period,
    Writer::settle_wrong_period,
    Writer::settle_wrong_period,
    Writer::settle_not_posted,
    Writer::settle_not_posted,
    Writer::bad_payment,
    Writer::bad_payment,
    |w| Some(words("close", &[w.any_ready()?.0])),
    |w| Some(words("close", &[w.find(is_ready_without_balance)?.0])),
    |w| Some(words("close", &[w.find(is_in_debt)?.0])),
    |w| Some(words("close", &[w.find(is_in_credit)?.0])),
    |w| Some(words("close", &[w.find(|account| account.balance != 0)?.0])),
];

/// Calls on a broken row.
const BROKEN: [fn(&mut Writer, u64) -> Vec<String>; 12] = [
    |w, number| open_words(number, &w.good_opening()),
    |w, number| open_words(number, &w.bad_opening()),
    |_, number| read_words(number, &[0; REGISTERS]),
    |_, number| read_words(number, &[u64::MAX; REGISTERS]),
    |_, number| settle_words(number, 0, SheetName::Decree),
    |w, number| settle_words(number, w.due(), SheetName::House),
    |_, number| words("pay", &[number, 1]),
    |_, number| words("pay", &[number, 0]),
    |_, number| words("close", &[number]),
    |_, number| words("show", &[number]),
    |_, number| words("row", &[number]),
    |_, number| words("show", &[number]),
];

fn is_ready_without_balance(account: &Account) -> bool {
    account.state == State::Ready && account.balance == 0
}

fn is_in_debt(account: &Account) -> bool {
    account.state == State::Running && account.balance > 0
}

fn is_in_credit(account: &Account) -> bool {
    account.state == State::Running && account.balance < 0
}

impl Writer {
    /// The lines in turn, and now and then a look that nothing moved.
    pub fn refused_line(&mut self) {
        for _ in 0..REFUSED.len() {
            let refused = REFUSED[self.turn(Turn::Refusal, REFUSED.len())];
            if let Some(line) = refused(self) {
                let number = line.get(1).and_then(|word| word.parse().ok());
                self.say(line);
                return self.look_at(number.unwrap_or(0));
            }
        }
    }

    /// Calls on broken rows in turn.
    pub fn broken_row(&mut self) {
        if let Some(number) = self.broken_number() {
            self.call_broken(number);
        }
    }

    /// A call on each broken row.
    pub fn every_broken_row(&mut self) {
        for number in 0..self.capacity() {
            let stands = self.account(number).is_some();
            if !stands && !self.is_vacant(number) {
                self.call_broken(number);
            }
        }
    }

    fn call_broken(&mut self, number: u64) {
        let line = BROKEN[self.turn(Turn::Broken, BROKEN.len())](self, number);
        self.say(line);
    }

    /// Openings on a board that has no room: 5 comes before 6.
    pub fn open_beyond_the_limit(&mut self) {
        for _ in 0..40 {
            if self.is_board_full() || self.is_full() {
                break;
            }
            self.open_account();
        }
        if let Some(number) = self.vacant_number() {
            let opening = self.good_opening();
            self.say(open_words(number, &opening));
            let opening = self.bad_opening();
            self.say(open_words(number, &opening));
            self.look_at(number);
        }
    }

    fn good_opening(&mut self) -> Opening {
        let habit = self.habit();
        self.opening(&habit)
    }

    /// Beyond a limit, in turn.
    fn bad_opening(&mut self) -> Opening {
        let push = BEYOND_LIMITS[self.turn(Turn::BadOpening, BEYOND_LIMITS.len())];
        self.pushed_opening(push)
    }

    /// The same where nothing else is wrong.
    fn bad_opening_at_vacant(&mut self) -> Option<Vec<String>> {
        let number = self.vacant_number()?;
        let push = BEYOND_LIMITS[self.turn(Turn::BadVacant, BEYOND_LIMITS.len())];
        Some(open_words(number, &self.pushed_opening(push)))
    }

    /// An account with a register in use, and its indices.
    fn register_in_use(&mut self) -> Option<(u64, usize, Account)> {
        let in_use = |account: &Account| (0..REGISTERS).any(|r| !is_unused(&account.profile, r));
        let (number, account) = self.find(in_use)?;
        Some((number, self.used_register(number)?, account))
    }

    fn index_too_high(&mut self) -> Option<Vec<String>> {
        let (number, register, account) = self.register_in_use()?;
        let mut indices = account.indices;
        indices[register] = match self.rng.below(3) {
            0 => self.huge(indices[register]).max(REGISTER_SIZE),
            _ => LARGEST_INDEX + 1,
        };
        Some(read_words(number, &indices))
    }

    fn index_on_unused(&mut self) -> Option<Vec<String>> {
        let unused = |account: &Account| (0..REGISTERS).find(|&r| is_unused(&account.profile, r));
        let (number, account) = self.find(|account| unused(account).is_some())?;
        let register = unused(&account)? + self.rng.below(2);
        let mut indices = account.indices;
        indices[register] = self
            .rng
            .pick(&[1, 1, 1, 1, LARGEST_INDEX, LARGEST_INDEX + 1]);
        Some(read_words(number, &indices))
    }

    /// Too many kWh on the registers, and one that cannot show its index.
    fn index_and_kwh(&mut self) -> Option<Vec<String>> {
        let (number, register, account) = self.register_in_use()?;
        let mut indices: Registers = std::array::from_fn(|r| {
            let lower = (account.indices[r] + LARGEST_INDEX) % REGISTER_SIZE;
            if is_unused(&account.profile, r) {
                0
            } else {
                lower
            }
        });
        let last = if register == 11 { 0 } else { 11 };
        indices[last] = LARGEST_INDEX + 1;
        Some(read_words(number, &indices))
    }

    fn too_many_counted(&mut self) -> Option<Vec<String>> {
        let (number, register, account) = self.register_in_use()?;
        let mut indices = account.indices;
        let more = self.rng.pick(&[1, 1, 1, 50_000, 800_000]);
        indices[register] = (indices[register] + LARGEST_KWH + more) % REGISTER_SIZE;
        Some(read_words(number, &indices))
    }

    fn one_lower(&mut self) -> Option<Vec<String>> {
        let (number, register, account) = self.register_in_use()?;
        let mut indices = account.indices;
        indices[register] = (indices[register] + LARGEST_INDEX) % REGISTER_SIZE;
        Some(read_words(number, &indices))
    }

    fn settle_running(&mut self) -> Option<Vec<String>> {
        let (number, account) = self.any_running()?;
        let next = account.next_month;
        let due = self.due();
        let ends = [next, next.saturating_sub(1), next + 12, due, u64::MAX];
        let (end, sheet) = (self.rng.pick(&ends), self.rng.pick(&SheetName::ALL));
        Some(settle_words(number, end, sheet))
    }

    fn settle_wrong_period(&mut self) -> Option<Vec<String>> {
        let (number, account) = self.any_ready()?;
        let next = account.next_month;
        let end = match self.turn(Turn::Period, 5) {
            0 => u64::MAX,
            1 | 2 if next > 0 => next - 1,
            3 => self.huge(next).max(next + 12),
            _ => next + 12,
        };
        let sheet = self.rng.pick(&SheetName::ALL);
        Some(settle_words(number, end, sheet))
    }

    fn settle_not_posted(&mut self) -> Option<Vec<String>> {
        let due = self.due();
        let soon =
            |account: &Account| account.state == State::Ready && account.next_month + 11 >= due;
        let (number, account) = self.find(soon)?;
        let last = account.next_month + 11;
        let end = match self.rng.below(3) {
            0 => self.rng.range(due.max(account.next_month), last),
            _ => due.max(account.next_month),
        };
        let sheet = self.rng.pick(&SheetName::ALL);
        Some(settle_words(number, end, sheet))
    }

    fn bad_payment(&mut self) -> Option<Vec<String>> {
        let (number, _) = self.any_account()?;
        let amount = match self.rng.below(5) {
            0 => self.huge(1).max(LARGEST_PAYMENT + 1),
            1 => u64::MAX,
            2 | 3 => 0,
            _ => LARGEST_PAYMENT + 1,
        };
        Some(words("pay", &[number, amount]))
    }
}
