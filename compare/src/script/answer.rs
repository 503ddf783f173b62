//! How an answer is written.

use std::fmt;

use super::Unreadable;
use crate::board::Row;
use crate::cabinet::{Account, Bill, State};
use crate::refusal::Refusal;
use crate::rules::Parts;

#[derive(Clone, Debug, PartialEq, Eq)]
pub enum Answer {
    Tenths(u64),
    Lines(usize),
    Parts {
        parts: Parts,
        cents: i128,
    },
    NotPermitted,
    Plan {
        code: u64,
        parts: Parts,
        cents: i128,
    },
    NoPlan,
    Made {
        capacity: u64,
        limit: u64,
    },
    NoMemory,
    Done,
    Row(Row),
    Vacant,
    Posted {
        month: u64,
        ne: u64,
    },
    Bill(Bill),
    Account(Account),
    Refused(Refusal),
    Unreadable(Unreadable),
}

impl fmt::Display for Answer {
    fn fmt(&self, f: &mut fmt::Formatter<'_>) -> fmt::Result {
        match self {
            Answer::Tenths(tenths) => write!(f, "tenths {tenths}"),
            Answer::Lines(count) => write!(f, "lines {count}"),
            Answer::Parts { parts, cents } => {
                write!(f, "parts {} {} {cents}", parts.fixed, parts.energy)
            }
            Answer::NotPermitted => write!(f, "not-permitted"),
            Answer::Plan { code, parts, cents } => {
                write!(f, "plan {code} {} {} {cents}", parts.fixed, parts.energy)
            }
            Answer::NoPlan => write!(f, "none"),
            Answer::Made { capacity, limit } => write!(f, "made {capacity} {limit}"),
            Answer::NoMemory => write!(f, "no-memory"),
            Answer::Done => write!(f, "done"),
            Answer::Row(row) => write_row(f, row),
            Answer::Vacant => write!(f, "vacant"),
            Answer::Posted { month, ne } => write!(f, "posted {month} {ne}"),
            Answer::Bill(bill) => write_bill(f, bill),
            Answer::Account(account) => write_account(f, account),
            Answer::Refused(refusal) => write!(f, "{refusal}"),
            Answer::Unreadable(_) => write!(f, "unreadable"),
        }
    }
}

fn write_row(f: &mut fmt::Formatter<'_>, row: &Row) -> fmt::Result {
    write!(f, "row ")?;
    row.iter().try_for_each(|byte| write!(f, "{byte:02x}"))
}

fn write_bill(f: &mut fmt::Formatter<'_>, bill: &Bill) -> fmt::Result {
    let Bill {
        code,
        months,
        day,
        night,
        parts,
        cents,
    } = bill;
    write!(
        f,
        "bill {code} {months} {day} {night} {} {} {cents}",
        parts.fixed, parts.energy
    )
}

fn write_account(f: &mut fmt::Formatter<'_>, account: &Account) -> fmt::Result {
    let profile = &account.profile;
    let state = match account.state {
        State::Running => "running",
        State::Ready => "ready",
    };
    write!(f, "account {state} {} {}", profile.class, profile.marks)?;
    write!(f, " {} {}", profile.power, profile.exempt)?;
    for kind in profile.kinds {
        write!(f, " {}", kind.number())?;
    }
    write!(f, " {}", account.next_month)?;
    for figure in account.indices.iter().chain(&account.waiting) {
        write!(f, " {figure}")?;
    }
    write!(f, " {}", account.balance)
}
