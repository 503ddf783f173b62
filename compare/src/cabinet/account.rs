//! An account and what each event makes of it.

use crate::refusal::Cause;
use crate::rules::facts::LARGEST_KWH;
use crate::rules::{CIRCUITS, Facts, Kind, Profile, ProfileFlaw};

/// Two registers a circuit, by day and by night.
pub const REGISTERS: usize = 2 * CIRCUITS;
/// A register shows six digits and then begins again at 0.
pub const REGISTER_SIZE: u64 = 1_000_000;
pub const LARGEST_INDEX: u64 = REGISTER_SIZE - 1;
pub const LAST_MONTH: u64 = 1_199;
pub const LARGEST_BALANCE: i128 = 1_000_000_000_000;
pub const LARGEST_PAYMENT: u64 = 1_000_000_000;
pub const MOST_MONTHS: u64 = 12;

#[derive(Clone, Copy, Debug, PartialEq, Eq)]
pub enum State {
    /// All kWh are settled.
    Running,
    /// A reading waits to be settled.
    Ready,
}

/// One figure a register: 2c is circuit c by day, 2c + 1 by night.
pub type Registers = [u64; REGISTERS];

#[derive(Clone, Debug, PartialEq, Eq)]
pub struct Account {
    pub state: State,
    pub profile: Profile,
    pub next_month: u64,
    pub indices: Registers,
    pub waiting: Registers,
    pub balance: i128,
}

/// The numbers of an opening as they are handed in, not yet checked.
#[derive(Clone, Debug, Default, PartialEq, Eq)]
pub struct Opening {
    pub class: u64,
    pub marks: u64,
    pub power: u64,
    pub exempt: u64,
    pub kinds: [u64; CIRCUITS],
    pub first: u64,
    pub indices: Registers,
}

/// Why an opening's numbers are outside their rules.
#[derive(Clone, Copy, Debug, PartialEq, Eq, PartialOrd, Ord)]
pub enum OpeningFlaw {
    Profile(ProfileFlaw),
    FirstMonth,
    Index(IndexFlaw),
}

/// Why an index cannot be shown by its register.
#[derive(Clone, Copy, Debug, PartialEq, Eq, PartialOrd, Ord)]
pub enum IndexFlaw {
    TooHigh,
    OnUnused,
}

/// Looks at all twelve indices.
pub fn check_indices(profile: &Profile, indices: &Registers) -> Result<(), IndexFlaw> {
    for (register, &index) in indices.iter().enumerate() {
        if index > LARGEST_INDEX {
            return Err(IndexFlaw::TooHigh);
        }
        if index > 0 && is_unused(profile, register) {
            return Err(IndexFlaw::OnUnused);
        }
    }
    Ok(())
}

pub fn is_unused(profile: &Profile, register: usize) -> bool {
    profile.kinds[register / 2] == Kind::Unused
}

/// What a register counted from one index to the next.
pub fn counted(before: u64, after: u64) -> u64 {
    (after + REGISTER_SIZE - before) % REGISTER_SIZE
}

/// The sums over all circuits by day and by night.
pub fn day_and_night(registers: &Registers) -> (u64, u64) {
    let from = |first: usize| registers.iter().skip(first).step_by(2).sum();
    (from(0), from(1))
}

impl Account {
    pub fn open(opening: &Opening) -> Result<Account, OpeningFlaw> {
        let o = opening;
        let profile = Profile::new(o.class, o.marks, o.power, o.exempt, &o.kinds)
            .map_err(OpeningFlaw::Profile)?;
        if o.first > LAST_MONTH {
            return Err(OpeningFlaw::FirstMonth);
        }
        check_indices(&profile, &o.indices).map_err(OpeningFlaw::Index)?;
        Ok(Account {
            state: State::Running,
            profile,
            next_month: o.first,
            indices: o.indices,
            waiting: [0; REGISTERS],
            balance: 0,
        })
    }

    pub fn read(&self, indices: &Registers) -> Result<Account, Cause> {
        check_indices(&self.profile, indices).map_err(|_| Cause::Index)?;
        let mut waiting = self.waiting;
        for (register, kwh) in waiting.iter_mut().enumerate() {
            let difference = counted(self.indices[register], indices[register]);
            *kwh += difference;
            if difference > LARGEST_KWH || *kwh > LARGEST_KWH {
                return Err(Cause::TooManyKwh);
            }
        }
        Ok(Account {
            state: State::Ready,
            indices: *indices,
            waiting,
            ..self.clone()
        })
    }

    /// How many months the period up to an end month has.
    pub fn months_to(&self, end: u64) -> Result<u64, Cause> {
        if self.state != State::Ready {
            return Err(Cause::NotReady);
        }
        match end.checked_sub(self.next_month) {
            Some(beyond) if beyond < MOST_MONTHS => Ok(beyond + 1),
            _ => Err(Cause::Period),
        }
    }

    /// The facts of the period of so many months, with their sums.
    pub fn facts(&self, months: u64, (se, sc): (u64, u64)) -> Facts {
        Facts {
            profile: self.profile.clone(),
            day: std::array::from_fn(|circuit| self.waiting[2 * circuit].into()),
            night: std::array::from_fn(|circuit| self.waiting[2 * circuit + 1].into()),
            months: months.into(),
            se: se.into(),
            sc: sc.into(),
        }
    }

    /// The account after a bill of these cents up to an end month.
    pub fn billed(&self, end: u64, cents: i128) -> Result<Account, Cause> {
        Ok(Account {
            state: State::Running,
            next_month: end + 1,
            waiting: [0; REGISTERS],
            balance: within(self.balance + cents)?,
            ..self.clone()
        })
    }

    pub fn pay(&self, amount: u64) -> Result<Account, Cause> {
        if !(1..=LARGEST_PAYMENT).contains(&amount) {
            return Err(Cause::Payment);
        }
        Ok(Account {
            balance: within(self.balance - i128::from(amount))?,
            ..self.clone()
        })
    }

    pub fn close(&self) -> Result<(), Cause> {
        if self.state == State::Running && self.balance == 0 {
            Ok(())
        } else {
            Err(Cause::NotSettled)
        }
    }
}

fn within(balance: i128) -> Result<i128, Cause> {
    if balance.abs() <= LARGEST_BALANCE {
        Ok(balance)
    } else {
        Err(Cause::Balance)
    }
}
