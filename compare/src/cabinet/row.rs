//! The row of an account: 128 bytes, the high byte of each number first.

use super::account::{
    Account, IndexFlaw, LARGEST_BALANCE, LAST_MONTH, Registers, State, check_indices, is_unused,
};
use crate::board::{ROW, Row};
use crate::rules::facts::LARGEST_KWH;
use crate::rules::{Profile, ProfileFlaw};

/// Where the parts of a row begin.
pub mod at {
    pub const STATE: usize = 0;
    pub const CLASS: usize = 1;
    pub const MARKS: usize = 2;
    pub const POWER: usize = 3;
    pub const EXEMPT: usize = 5;
    pub const KINDS: usize = 7;
    pub const NEXT_MONTH: usize = 13;
    pub const INDICES: usize = 15;
    pub const WAITING: usize = 63;
    pub const BALANCE: usize = 111;
    pub const ZEROS: usize = 119;
}

/// Why a row is not the writing of an account.
#[derive(Clone, Copy, Debug, PartialEq, Eq, PartialOrd, Ord)]
pub enum RowFlaw {
    State,
    Profile(ProfileFlaw),
    NextMonth,
    Index(IndexFlaw),
    Waiting,
    WaitingOnUnused,
    WaitingWhileRunning,
    Balance,
    Zeros,
}

pub fn encode(account: &Account) -> Row {
    let profile = &account.profile;
    let mut row = [0; ROW];
    let mut put = |place: usize, bytes: &[u8]| {
        row[place..place + bytes.len()].copy_from_slice(bytes);
    };
    let state = match account.state {
        State::Running => 1,
        State::Ready => 2,
    };
    put(at::STATE, &[state]);
    put(at::CLASS, &[profile.class as u8]);
    put(at::MARKS, &[profile.marks as u8]);
    put(at::POWER, &(profile.power as u16).to_be_bytes());
    put(at::EXEMPT, &(profile.exempt as u16).to_be_bytes());
    put(at::KINDS, &profile.kinds.map(|kind| kind.number() as u8));
    put(at::NEXT_MONTH, &(account.next_month as u16).to_be_bytes());
    for (register, index) in account.indices.iter().enumerate() {
        put(at::INDICES + 4 * register, &(*index as u32).to_be_bytes());
    }
    for (register, kwh) in account.waiting.iter().enumerate() {
        put(at::WAITING + 4 * register, &(*kwh as u32).to_be_bytes());
    }
    put(at::BALANCE, &(account.balance as i64).to_be_bytes());
    row
}

/// A number of so many bytes, the high byte first.
fn number(row: &Row, place: usize, width: usize) -> u64 {
    row[place..place + width]
        .iter()
        .fold(0, |value, byte| value << 8 | u64::from(*byte))
}

fn registers(row: &Row, place: usize) -> Registers {
    std::array::from_fn(|register| number(row, place + 4 * register, 4))
}

pub fn decode(row: &Row) -> Result<Account, RowFlaw> {
    let state = match row[at::STATE] {
        1 => State::Running,
        2 => State::Ready,
        _ => return Err(RowFlaw::State),
    };
    let account = Account {
        state,
        profile: profile(row).map_err(RowFlaw::Profile)?,
        next_month: number(row, at::NEXT_MONTH, 2),
        indices: registers(row, at::INDICES),
        waiting: registers(row, at::WAITING),
        balance: (number(row, at::BALANCE, 8) as i64).into(),
    };
    if account.next_month > LAST_MONTH + 1 {
        return Err(RowFlaw::NextMonth);
    }
    check_indices(&account.profile, &account.indices).map_err(RowFlaw::Index)?;
    check_waiting(&account)?;
    if account.balance.abs() > LARGEST_BALANCE {
        return Err(RowFlaw::Balance);
    }
    if row[at::ZEROS..].iter().any(|byte| *byte != 0) {
        return Err(RowFlaw::Zeros);
    }
    Ok(account)
}

fn profile(row: &Row) -> Result<Profile, ProfileFlaw> {
    Profile::new(
        row[at::CLASS].into(),
        row[at::MARKS].into(),
        number(row, at::POWER, 2),
        number(row, at::EXEMPT, 2),
        &std::array::from_fn(|circuit| row[at::KINDS + circuit].into()),
    )
}

fn check_waiting(account: &Account) -> Result<(), RowFlaw> {
    for (register, &kwh) in account.waiting.iter().enumerate() {
        if kwh > LARGEST_KWH {
            return Err(RowFlaw::Waiting);
        }
        if kwh > 0 && is_unused(&account.profile, register) {
            return Err(RowFlaw::WaitingOnUnused);
        }
        if kwh > 0 && account.state == State::Running {
            return Err(RowFlaw::WaitingWhileRunning);
        }
    }
    Ok(())
}
