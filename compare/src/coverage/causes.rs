//! All causes that stand against a call, each looked at by itself: what is
//! answered must be the first of them in the order of checks.

use super::moment::{Moment, Standing};
use crate::cabinet::account::{LARGEST_BALANCE, LARGEST_INDEX, LARGEST_PAYMENT, is_unused};
use crate::cabinet::{Account, Opening, REGISTERS, Registers, State};
use crate::refusal::Cause;
use crate::rules::facts::LARGEST_KWH;
use crate::rules::{Month, choose};
use crate::script::{CabinetCall, SheetName, sheet};

/// In the order of checks. Whether a settlement passes the balance's limit is
/// not looked at.
pub fn causes(moment: &Moment) -> Vec<Cause> {
    let mut causes = Vec::new();
    match moment.call {
        CabinetCall::Post { s, mx, nc } => {
            if moment.due == 1_200 {
                causes.push(Cause::MonthsFull);
            }
            if Month::new(*s, *mx, *nc).is_err() {
                causes.push(Cause::MonthFigure);
            }
            return causes;
        }
        CabinetCall::Open { opening, .. } => causes.extend(of_opening(moment, opening)),
        CabinetCall::Read { indices, .. } => causes.extend(of_reading(moment, indices)),
        CabinetCall::Settle { end, sheet, .. } => {
            causes.extend(of_settlement(moment, *end, *sheet));
        }
        CabinetCall::Pay { amount, .. } => causes.extend(of_payment(moment, *amount)),
        CabinetCall::Close { .. } => causes.extend(of_closing(moment)),
        CabinetCall::Show { .. } => {}
    }
    let takes_vacant = matches!(
        moment.call,
        CabinetCall::Open { .. } | CabinetCall::Show { .. }
    );
    match moment.before {
        Standing::Outside => causes.insert(0, Cause::Outside),
        Standing::Broken(_) => causes.insert(0, Cause::BrokenRow),
        Standing::Vacant if !takes_vacant => causes.insert(0, Cause::Vacant),
        Standing::Vacant | Standing::Account(_) => {}
    }
    causes
}

/// Those of the causes that hold.
fn holding<const N: usize>(causes: [(Cause, bool); N]) -> Vec<Cause> {
    let held = causes.into_iter().filter(|(_, holds)| *holds);
    held.map(|(cause, _)| cause).collect()
}

fn of_opening(moment: &Moment, opening: &Opening) -> Vec<Cause> {
    let vacant = matches!(moment.before, Standing::Vacant);
    holding([
        (Cause::Occupied, moment.before.account().is_some()),
        (Cause::OutsideLimits, Account::open(opening).is_err()),
        (Cause::Full, vacant && moment.full),
    ])
}

fn of_reading(moment: &Moment, indices: &Registers) -> Vec<Cause> {
    let account = moment.before.account();
    let unused =
        |register: usize| account.is_some_and(|account| is_unused(&account.profile, register));
    let high = (0..REGISTERS).any(|register| {
        indices[register] > LARGEST_INDEX || indices[register] > 0 && unused(register)
    });
    let many = account.is_some_and(|account| {
        (0..REGISTERS).any(|register| {
            let (old, new) = (account.indices[register], indices[register]);
            // Indices that no register shows count nothing.
            let counted = match new {
                _ if new > LARGEST_INDEX => 0,
                _ if new < old => new + 1_000_000 - old,
                _ => new - old,
            };
            counted > LARGEST_KWH || account.waiting[register] + counted > LARGEST_KWH
        })
    });
    holding([(Cause::Index, high), (Cause::TooManyKwh, many)])
}

fn of_settlement(moment: &Moment, end: u64, name: SheetName) -> Vec<Cause> {
    let account = moment.before.account();
    let running = account.is_some_and(|account| account.state == State::Running);
    let period = account.is_some_and(|account| {
        let next = account.next_month;
        end < next || end - next >= 12
    });
    // Which plans are permitted does not hang on the months.
    let no_plan = account.is_some_and(|account| {
        let facts = account.facts(1, (0, 0));
        choose(&*sheet(moment.house, name), &facts).is_none()
    });
    holding([
        (Cause::NotReady, running),
        (Cause::Period, period),
        (Cause::NotPosted, end >= moment.due),
        (Cause::NoPlan, no_plan),
    ])
}

fn of_payment(moment: &Moment, amount: u64) -> Vec<Cause> {
    let amount_is_wrong = amount == 0 || amount > LARGEST_PAYMENT;
    let passes = moment
        .before
        .account()
        .is_some_and(|account| account.balance - i128::from(amount) < -LARGEST_BALANCE);
    holding([(Cause::Payment, amount_is_wrong), (Cause::Balance, passes)])
}

fn of_closing(moment: &Moment) -> Vec<Cause> {
    let open = moment
        .before
        .account()
        .is_some_and(|account| account.state == State::Ready || account.balance != 0);
    holding([(Cause::NotSettled, open)])
}
