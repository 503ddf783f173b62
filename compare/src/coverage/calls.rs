//! What calls on a cabinet reach: limits, one beyond them, and what follows.

use super::moment::Moment;
use crate::cabinet::account::{
    LARGEST_BALANCE, LARGEST_INDEX, LARGEST_PAYMENT, LAST_MONTH, counted, is_unused,
};
use crate::cabinet::{Account, Opening, REGISTERS, Registers, State};
use crate::refusal::Cause;
use crate::rules::facts::{LARGEST_FIGURE, LARGEST_KWH, LARGEST_POWER};
use crate::rules::month::{LARGEST_INDEX as LARGEST_MONTH_INDEX, worked_out};
use crate::script::CabinetCall;

/// A category, and what says whether a call belongs to it.
type Case<F> = (&'static str, F);
type PostCase = Case<fn([u64; 3], &Moment) -> bool>;
type OpenCase = Case<fn(&Opening, &Moment) -> bool>;
type ReadCase = Case<fn(Reading, &Moment) -> bool>;
type SettleCase = Case<fn(Settlement, &Moment) -> bool>;
type PayCase = Case<fn(Payment, &Moment) -> bool>;
type CloseCase = Case<fn(&Account, &Moment) -> bool>;

/// The account before a reading, and the reading.
type Reading<'a> = (&'a Account, &'a Registers);
/// The account before a settlement, and the end month.
type Settlement<'a> = (&'a Account, u64);
/// The account before a payment, and the amount.
type Payment<'a> = (&'a Account, u64);

const POSTINGS: &[PostCase] = &[
    ("s 1", |[s, ..], m| m.accepted() && s == 1),
    ("s largest", |[s, ..], m| {
        m.accepted() && s == LARGEST_MONTH_INDEX
    }),
    ("Mx 1", |[_, mx, _], m| m.accepted() && mx == 1),
    ("N_C 0", |[.., nc], m| m.accepted() && nc == 0),
    ("N_C largest", |[.., nc], m| {
        m.accepted() && nc == LARGEST_FIGURE
    }),
    ("N_E largest", |[s, mx, _], m| {
        m.accepted() && worked_out(s, mx) == LARGEST_FIGURE
    }),
    ("the last month", |_, m| m.accepted() && m.due == LAST_MONTH),
    ("refused s 0", |[s, ..], m| {
        m.refused_by(Cause::MonthFigure) && s == 0
    }),
    ("refused s one above", |[s, ..], m| {
        m.refused_by(Cause::MonthFigure) && s == LARGEST_MONTH_INDEX + 1
    }),
    ("refused Mx 0", |[_, mx, _], m| {
        m.refused_by(Cause::MonthFigure) && mx == 0
    }),
    ("refused Mx one above", |[_, mx, _], m| {
        m.refused_by(Cause::MonthFigure) && mx == LARGEST_MONTH_INDEX + 1
    }),
    ("refused N_C one above", |[.., nc], m| {
        m.refused_by(Cause::MonthFigure) && nc == LARGEST_FIGURE + 1
    }),
    ("refused N_E one above", |[s, mx, _], m| {
        let in_range = |index: u64| (1..=LARGEST_MONTH_INDEX).contains(&index);
        m.refused_by(Cause::MonthFigure)
            && in_range(s)
            && in_range(mx)
            && worked_out(s, mx) == LARGEST_FIGURE + 1
    }),
];

const OPENINGS: &[OpenCase] = &[
    ("class 1", |o, m| m.accepted() && o.class == 1),
    ("marks 7", |o, m| m.accepted() && o.marks == 7),
    ("power 1", |o, m| m.accepted() && o.power == 1),
    ("power largest", |o, m| {
        m.accepted() && o.power == LARGEST_POWER
    }),
    ("X = P", |o, m| m.accepted() && o.exempt == o.power),
    ("first month 0", |o, m| m.accepted() && o.first == 0),
    ("first month 1199", |o, m| {
        m.accepted() && o.first == LAST_MONTH
    }),
    ("first month not posted", |o, m| {
        m.accepted() && o.first >= m.due
    }),
    ("index 999999", |o, m| {
        m.accepted() && o.indices.contains(&LARGEST_INDEX)
    }),
    ("six unused circuits", |o, m| {
        m.accepted() && o.kinds == [0; 6]
    }),
    ("number 0", |_, m| m.accepted() && number(m) == Some(0)),
    ("last number", |_, m| {
        m.accepted() && number(m) == Some(m.capacity - 1)
    }),
    ("refused class 2", |o, m| beyond(m) && o.class == 2),
    ("refused marks 8", |o, m| beyond(m) && o.marks == 8),
    ("refused class 1 with mark 4", |o, m| {
        beyond(m) && o.class == 1 && (4..8).contains(&o.marks)
    }),
    ("refused power 0", |o, m| beyond(m) && o.power == 0),
    ("refused power one above", |o, m| {
        beyond(m) && o.power == LARGEST_POWER + 1
    }),
    ("refused X = P + 1", |o, m| {
        beyond(m) && o.exempt.checked_sub(o.power) == Some(1)
    }),
    ("refused kind 4", |o, m| beyond(m) && o.kinds.contains(&4)),
    ("refused first month 1200", |o, m| {
        beyond(m) && o.first == LAST_MONTH + 1
    }),
    ("refused index 1000000", |o, m| {
        beyond(m) && o.indices.contains(&(LARGEST_INDEX + 1))
    }),
    ("refused index on an unused circuit", |o, m| {
        beyond(m) && (0..REGISTERS).any(|r| o.kinds[r / 2] == 0 && o.indices[r] == 1)
    }),
];

fn beyond(moment: &Moment) -> bool {
    moment.refused_by(Cause::OutsideLimits)
}

fn number(moment: &Moment) -> Option<u64> {
    super::moment::number_of(moment.call)
}

/// What a register counted, where it can show its index.
fn kwh((account, indices): Reading, register: usize) -> u64 {
    match indices[register] {
        0..=LARGEST_INDEX => counted(account.indices[register], indices[register]),
        _ => 0,
    }
}

const READINGS: &[ReadCase] = &[
    ("index 999999", |(_, indices), m| {
        m.accepted() && indices.contains(&LARGEST_INDEX)
    }),
    ("a register turned over", |(account, indices), m| {
        m.accepted() && (0..REGISTERS).any(|r| indices[r] < account.indices[r])
    }),
    ("no kWh", |(account, indices), m| {
        m.accepted() && account.indices == *indices
    }),
    ("difference 100000", |r, m| {
        m.accepted() && counts(r, LARGEST_KWH)
    }),
    ("100000 waiting after several", |(account, indices), m| {
        m.accepted()
            && (0..REGISTERS).any(|r| {
                account.waiting[r] > 0
                    && kwh((account, indices), r) > 0
                    && account.waiting[r] + kwh((account, indices), r) == LARGEST_KWH
            })
    }),
    ("running", |(account, _), m| {
        m.accepted() && account.state == State::Running
    }),
    ("ready", |(account, _), m| {
        m.accepted() && account.state == State::Ready
    }),
    ("next month 1200", |(account, _), m| {
        m.accepted() && account.next_month == LAST_MONTH + 1
    }),
    ("refused index 1000000", |(_, indices), m| {
        m.refused_by(Cause::Index) && indices.contains(&(LARGEST_INDEX + 1))
    }),
    (
        "refused index on an unused circuit",
        |(account, indices), m| {
            m.refused_by(Cause::Index)
                && (0..REGISTERS).any(|r| is_unused(&account.profile, r) && indices[r] == 1)
        },
    ),
    ("refused difference 100001", |r, m| {
        too_many(m) && counts(r, LARGEST_KWH + 1)
    }),
    ("refused index one lower", |r, m| {
        too_many(m) && counts(r, LARGEST_INDEX)
    }),
    (
        "refused 100001 waiting after several",
        |(account, indices), m| {
            too_many(m)
                && (0..REGISTERS).all(|r| kwh((account, indices), r) <= LARGEST_KWH)
                && (0..REGISTERS)
                    .any(|r| account.waiting[r] + kwh((account, indices), r) == LARGEST_KWH + 1)
        },
    ),
];

fn too_many(moment: &Moment) -> bool {
    moment.refused_by(Cause::TooManyKwh)
}

fn counts(reading: Reading, wanted: u64) -> bool {
    (0..REGISTERS).any(|register| kwh(reading, register) == wanted)
}

const SETTLEMENTS: &[SettleCase] = &[
    ("up to the last posted month", |(_, end), m| {
        m.accepted() && end + 1 == m.due
    }),
    ("up to month 1199", |(_, end), m| {
        m.accepted() && end == LAST_MONTH
    }),
    ("no kWh", |(account, _), m| {
        m.accepted() && account.waiting == [0; REGISTERS]
    }),
    ("100000 kWh on a register", |(account, _), m| {
        m.accepted() && account.waiting.contains(&LARGEST_KWH)
    }),
    ("balance to 10^12", |_, m| {
        m.accepted() && after(m) == Some(LARGEST_BALANCE)
    }),
    ("balance from below 0 to 0", |(account, _), m| {
        m.accepted() && account.balance < 0 && after(m) == Some(0)
    }),
    ("refused before the next month", |(account, end), m| {
        m.refused_by(Cause::Period) && account.next_month.checked_sub(1) == Some(end)
    }),
    ("refused 13 months", |(account, end), m| {
        m.refused_by(Cause::Period) && account.next_month + 12 == end
    }),
    ("refused end month 2^64 - 1", |(_, end), m| {
        m.refused_by(Cause::Period) && end == u64::MAX
    }),
    ("refused the month due", |(_, end), m| {
        m.refused_by(Cause::NotPosted) && end == m.due
    }),
    ("refused next month 1200, 12", |(account, _), m| {
        m.refused_by(Cause::NotPosted) && account.next_month == LAST_MONTH + 1
    }),
    ("refused next month 1200, 11", |(account, _), m| {
        m.refused_by(Cause::Period) && account.next_month == LAST_MONTH + 1
    }),
    ("refused by the least power of all lines", |_, m| {
        m.refused_by(Cause::NoPlan) && !m.house.lines.is_empty()
    }),
    ("refused by the balance", |_, m| {
        m.refused_by(Cause::Balance)
    }),
];

/// The balance that a call left.
fn after(moment: &Moment) -> Option<i128> {
    moment.after.as_ref().map(|account| account.balance)
}

const PAYMENTS: &[PayCase] = &[
    ("1", |(_, amount), m| m.accepted() && amount == 1),
    ("10^9", |(_, amount), m| {
        m.accepted() && amount == LARGEST_PAYMENT
    }),
    ("of a running account", |(account, _), m| {
        m.accepted() && account.state == State::Running
    }),
    ("of a ready account", |(account, _), m| {
        m.accepted() && account.state == State::Ready
    }),
    ("balance to 0", |_, m| m.accepted() && after(m) == Some(0)),
    ("balance below 0", |_, m| {
        m.accepted() && after(m).is_some_and(|balance| balance < 0)
    }),
    ("balance from 10^12", |(account, _), m| {
        m.accepted() && account.balance == LARGEST_BALANCE
    }),
    ("balance to -10^12", |_, m| {
        m.accepted() && after(m) == Some(-LARGEST_BALANCE)
    }),
    ("refused 0", |(_, amount), m| {
        m.refused_by(Cause::Payment) && amount == 0
    }),
    ("refused 10^9 + 1", |(_, amount), m| {
        m.refused_by(Cause::Payment) && amount == LARGEST_PAYMENT + 1
    }),
    ("refused one cent beyond -10^12", |(account, amount), m| {
        m.refused_by(Cause::Balance) && account.balance - i128::from(amount) == -LARGEST_BALANCE - 1
    }),
];

const CLOSINGS: &[CloseCase] = &[
    ("closed", |_, m| m.accepted()),
    ("refused ready without balance", |account, m| {
        m.refused_by(Cause::NotSettled) && account.state == State::Ready && account.balance == 0
    }),
    ("refused running with debt", |account, m| {
        m.refused_by(Cause::NotSettled) && account.state == State::Running && account.balance > 0
    }),
    ("refused running with credit", |account, m| {
        m.refused_by(Cause::NotSettled) && account.state == State::Running && account.balance < 0
    }),
];

/// The names of the cases that are chosen.
fn chosen<F>(call: &str, cases: &[Case<F>], holds: impl Fn(&F) -> bool) -> Vec<String> {
    let held = cases.iter().filter(|case| holds(&case.1));
    held.map(|case| format!("{call}: {}", case.0)).collect()
}

/// The names of all cases.
pub fn names() -> Vec<String> {
    [
        chosen("post", POSTINGS, |_| true),
        chosen("open", OPENINGS, |_| true),
        chosen("read", READINGS, |_| true),
        chosen("settle", SETTLEMENTS, |_| true),
        chosen("pay", PAYMENTS, |_| true),
        chosen("close", CLOSINGS, |_| true),
    ]
    .concat()
}

/// The names of the cases that a call belongs to.
pub fn reached(moment: &Moment) -> Vec<String> {
    match (moment.call, moment.before.account()) {
        (CabinetCall::Post { s, mx, nc }, _) => {
            chosen("post", POSTINGS, |case| case([*s, *mx, *nc], moment))
        }
        (CabinetCall::Open { opening, .. }, _) => {
            chosen("open", OPENINGS, |case| case(opening, moment))
        }
        (CabinetCall::Read { indices, .. }, Some(account)) => {
            chosen("read", READINGS, |case| case((account, indices), moment))
        }
        (CabinetCall::Settle { end, .. }, Some(account)) => {
            chosen("settle", SETTLEMENTS, |case| case((account, *end), moment))
        }
        (CabinetCall::Pay { amount, .. }, Some(account)) => {
            chosen("pay", PAYMENTS, |case| case((account, *amount), moment))
        }
        (CabinetCall::Close { .. }, Some(account)) => {
            chosen("close", CLOSINGS, |case| case(account, moment))
        }
        _ => Vec::new(),
    }
}
