//! What the accepted calls on each account add up to, kept beside the rows:
//! a second account of money and kWh that the rows must agree with.

use std::collections::BTreeMap;

use super::Bill;
use super::account::{Account, Registers, counted, day_and_night};

/// kWh by day and by night.
type Kwh = (u64, u64);

fn plus(a: Kwh, b: Kwh) -> Kwh {
    (a.0 + b.0, a.1 + b.1)
}

/// The sums of one account since its opening, or since it was found on the board.
#[derive(Clone, Debug)]
struct Tally {
    /// What an account that was found on the board brought with it.
    brought: i128,
    brought_kwh: Kwh,
    bills: i128,
    payments: i128,
    read: Kwh,
    billed: Kwh,
    /// The indices of the last reading.
    indices: Registers,
}

impl Tally {
    fn found(account: &Account) -> Tally {
        Tally {
            brought: account.balance,
            brought_kwh: day_and_night(&account.waiting),
            bills: 0,
            payments: 0,
            read: (0, 0),
            billed: (0, 0),
            indices: account.indices,
        }
    }

    fn agrees(&self, account: &Account) -> bool {
        account.balance == self.brought + self.bills - self.payments
            && plus(self.brought_kwh, self.read)
                == plus(self.billed, day_and_night(&account.waiting))
            && account.indices == self.indices
    }
}

#[derive(Clone, Debug, Default)]
pub struct Books(BTreeMap<u64, Tally>);

impl Books {
    pub fn opened(&mut self, number: u64, account: &Account) {
        self.0.insert(number, Tally::found(account));
    }

    pub fn closed(&mut self, number: u64) {
        self.0.remove(&number);
    }

    /// `before` is the account as it was found where these books begin with it.
    fn tally(&mut self, number: u64, before: &Account) -> &mut Tally {
        self.0.entry(number).or_insert_with(|| Tally::found(before))
    }

    pub fn read(&mut self, number: u64, before: &Account, indices: &Registers) {
        let tally = self.tally(number, before);
        let pairs = tally.indices.iter().zip(indices);
        let mut counts = Registers::default();
        for (count, (old, new)) in counts.iter_mut().zip(pairs) {
            *count = counted(*old, *new);
        }
        tally.read = plus(tally.read, day_and_night(&counts));
        tally.indices = *indices;
    }

    pub fn billed(&mut self, number: u64, before: &Account, bill: &Bill) {
        let tally = self.tally(number, before);
        tally.bills += bill.cents;
        tally.billed = plus(tally.billed, (bill.day, bill.night));
    }

    pub fn paid(&mut self, number: u64, before: &Account, amount: u64) {
        self.tally(number, before).payments += i128::from(amount);
    }

    /// The numbers that these books know.
    pub fn numbers(&self) -> impl Iterator<Item = u64> {
        self.0.keys().copied()
    }

    /// An account that these books know agrees with them.
    pub fn agree(&self, number: u64, account: Option<&Account>) -> bool {
        match (self.0.get(&number), account) {
            (Some(tally), Some(account)) => tally.agrees(account),
            (Some(_), None) => false,
            (None, _) => true,
        }
    }
}
