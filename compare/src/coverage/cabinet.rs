//! What the lines about boards and cabinets reach.

use std::collections::{BTreeMap, BTreeSet};

use super::causes::causes;
use super::moment::{Moment, Standing, droppings};
use super::pricing::{base_name, base_names};
use super::{Coverage, boards, calls, each};
use crate::cabinet::Bill;
use crate::cabinet::account::IndexFlaw;
use crate::cabinet::row::RowFlaw;
use crate::refusal::Cause;
use crate::rules::decree::{self, Plan};
use crate::rules::{ProfileFlaw, Sheet};
use crate::script::{Answer, Bench, CabinetCall, Call, RowCall, SheetName, Unreadable, words};

/// The words that a board or a cabinet must stand for, with the numbers that
/// refuse them, in the order of checks.
const CALLS: [(&str, &[u64]); 10] = [
    ("store", &[3, 6]),
    ("clear", &[3]),
    ("row", &[3]),
    ("post", &[1, 2]),
    ("open", &[3, 17, 4, 5, 6]),
    ("read", &[3, 17, 7, 8, 9]),
    ("settle", &[3, 17, 7, 10, 11, 12, 13, 15]),
    ("pay", &[3, 17, 7, 14, 15]),
    ("close", &[3, 17, 7, 16]),
    ("show", &[3, 17]),
];

/// A call, the number that it was refused by, and another that held too.
const ORDERS: [(&str, u64, u64); 22] = [
    ("post", 1, 2),
    ("open", 3, 5),
    ("open", 17, 5),
    ("open", 4, 5),
    ("open", 5, 6),
    ("read", 3, 8),
    ("read", 17, 8),
    ("read", 7, 8),
    ("read", 8, 9),
    ("settle", 3, 12),
    ("settle", 17, 12),
    ("settle", 7, 12),
    ("settle", 10, 11),
    ("settle", 10, 12),
    ("settle", 10, 13),
    ("settle", 11, 12),
    ("settle", 11, 13),
    ("settle", 12, 13),
    ("pay", 3, 14),
    ("pay", 17, 14),
    ("pay", 7, 14),
    ("pay", 14, 15),
];

const ANSWERS: [&str; 7] = ["made", "done", "row", "vacant", "posted", "bill", "account"];

/// Why lines about boards and cabinets have no form.
const UNREADABLE: [Unreadable; 8] = [
    Unreadable::NotDigits,
    Unreadable::TooManyDigits,
    Unreadable::DoesNotFit,
    Unreadable::UnknownSheet,
    Unreadable::UnknownBoard,
    Unreadable::OddHex,
    Unreadable::NotHex,
    Unreadable::NotARow,
];

fn row_flaws() -> Vec<RowFlaw> {
    let mut flaws = vec![
        RowFlaw::State,
        RowFlaw::NextMonth,
        RowFlaw::Index(IndexFlaw::TooHigh),
        RowFlaw::Index(IndexFlaw::OnUnused),
        RowFlaw::Waiting,
        RowFlaw::WaitingOnUnused,
        RowFlaw::WaitingWhileRunning,
        RowFlaw::Balance,
        RowFlaw::Zeros,
    ];
    flaws.extend(ProfileFlaw::ALL.map(RowFlaw::Profile));
    flaws
}

/// What is known of the accounts of the board that stands.
#[derive(Default)]
pub struct Lives {
    /// Settled periods since the opening.
    periods: BTreeMap<u64, u64>,
    closed: BTreeSet<u64>,
    /// How often the house sheet was replaced before an account's last
    /// settlement on it.
    settled_on: BTreeMap<u64, u64>,
}

/// All categories.
pub fn names() -> Vec<String> {
    let mut names = each("answer ", ANSWERS);
    let numbers = (1..=22).filter(|number| *number != 5 && !(18..=21).contains(number));
    names.extend(each("refused ", numbers));
    names.extend(boards::names());
    for board in ["table", "journal"] {
        for (call, refusals) in CALLS {
            names.push(format!("{board}: {call} answered"));
            let possible = refusals.iter().filter(|n| **n != 6 || board == "journal");
            names.extend(possible.map(|n| format!("{board}: {call} refused {n}")));
        }
        names.extend(each(&format!("{board}: "), ["show vacant", "row vacant"]));
        let sheets = SheetName::ALL.map(SheetName::word);
        names.extend(each(&format!("{board}: settled on "), sheets));
    }
    names.extend(calls::names());
    names.extend(settled_names());
    names.extend(ORDERS.map(order_name));
    names.extend(
        row_flaws()
            .iter()
            .map(|flaw| format!("refused 17: {flaw:?}")),
    );
    names.extend(unreadable_names());
    names
}

fn order_name((call, first, second): (&str, u64, u64)) -> String {
    format!("{call} refused {first}, {second} holding too")
}

fn settled_names() -> Vec<String> {
    let protected = ["protected-decree", "protected-house"];
    let others = [
        "after the house sheet was replaced",
        "the tenth period of an account",
    ];
    [
        each("settled by ", base_names()),
        each("settled by house line ", 0..8),
        each("settled by the protected plan of ", protected),
        each("settled months ", 1..=12),
        each("settled ", others),
        vec!["opened a number again".to_string()],
        each("shown ", ["running", "ready", "a balance below 0"]),
    ]
    .concat()
}

fn unreadable_names() -> Vec<String> {
    let words = CALLS.map(|(call, _)| call);
    let reasons = UNREADABLE.map(|reason| format!("{reason:?}"));
    let others = ["UnknownBoard", "NotARow", "NoBoard", "CabinetStands"];
    [
        each("unreadable ", others),
        each("without a board: ", words),
        each("after the cabinet was made: ", ["store", "clear"]),
        each("a word too few: ", words),
        each("a word too many: ", words),
        each("a word too few: ", ["board"]),
        each("a word too many: ", ["board"]),
        each("cabinet line unreadable ", reasons),
        each("a number of 2^32 or more: ", words),
        each("a number of 2^32 or more: ", ["board"]),
    ]
    .concat()
}

/// The kind of board that stands.
fn board_word(bench: &Bench) -> Option<&'static str> {
    bench.board().map(|board| boards::word(board.device()))
}

impl Coverage {
    /// A line about boards and cabinets that has no form.
    pub(super) fn unreadable_cabinet_line(&mut self, line: &[u8], reason: Unreadable) {
        let Some(word) = cabinet_word(line) else {
            return;
        };
        match reason {
            Unreadable::MissingWord => self.count(&format!("a word too few: {word}")),
            Unreadable::SurplusWord => self.count(&format!("a word too many: {word}")),
            Unreadable::UnknownCall => {}
            _ => self.count(&format!("cabinet line unreadable {reason:?}")),
        }
    }

    /// Takes and answers a call about boards and cabinets.
    pub(super) fn cabinet_line(&mut self, line: &[u8], call: &Call) -> Answer {
        let house = self.replay.house.clone();
        let bench = &self.replay.bench;
        let dropped = droppings(bench);
        let moment = match call {
            Call::Cabinet(call) => Moment::before(call, bench, &house),
            _ => None,
        };
        let outlook = boards::Outlook::before(call, bench);
        let answer = self.replay.answer(call);
        if let Some(word) = cabinet_word(line) {
            self.answered_line(line, word, &answer);
        }
        if let Some(moment) = moment {
            let moment = moment.answered(&answer, self.replay.bench.cabinet());
            self.moment(&moment, &answer);
        }
        self.board_call(call, &outlook, &answer);
        if droppings(&self.replay.bench) > dropped {
            self.dropped(call);
        }
        answer
    }

    fn answered_line(&mut self, line: &[u8], word: &str, answer: &Answer) {
        let outcome = match answer {
            Answer::Unreadable(Unreadable::NoBoard) => {
                return self.count(&format!("without a board: {word}"));
            }
            Answer::Unreadable(_) => {
                return self.count(&format!("after the cabinet was made: {word}"));
            }
            Answer::Refused(refusal) => format!("refused {}", refusal.cause.number()),
            Answer::Vacant => "vacant".to_string(),
            _ => "answered".to_string(),
        };
        let is_huge = |word: &[u8]| {
            let text = std::str::from_utf8(word).unwrap_or_default();
            text.parse::<u64>().is_ok_and(|number| number >> 32 > 0)
        };
        let huge = words(line).skip(1).any(is_huge);
        self.count_if(huge, &format!("a number of 2^32 or more: {word}"));
        if let (Some(board), true) = (board_word(&self.replay.bench), word != "board") {
            self.count(&format!("{board}: {word} {outcome}"));
        }
    }

    /// A call on the cabinet.
    fn moment(&mut self, moment: &Moment, answer: &Answer) {
        for name in calls::reached(moment) {
            self.count(&name);
        }
        self.order(moment);
        if let (Standing::Broken(flaw), Some(Cause::BrokenRow)) = (&moment.before, moment.refused) {
            self.count(&format!("refused 17: {flaw:?}"));
        }
        match (moment.call, answer) {
            (CabinetCall::Settle { number, sheet, .. }, Answer::Bill(bill)) => {
                self.settled(*number, *sheet, bill);
            }
            (CabinetCall::Open { number, .. }, Answer::Done) => {
                let again = self.lives.closed.contains(number);
                self.count_if(again, "opened a number again");
                self.lives.periods.insert(*number, 0);
                self.lives.settled_on.remove(number);
            }
            (CabinetCall::Close { number }, Answer::Done) => {
                self.lives.closed.insert(*number);
            }
            (CabinetCall::Show { .. }, Answer::Account(account)) => {
                let state = format!("{:?}", account.state).to_lowercase();
                self.count(&format!("shown {state}"));
                self.count_if(account.balance < 0, "shown a balance below 0");
            }
            _ => {}
        }
    }

    /// What was answered is the first cause that holds.
    fn order(&mut self, moment: &Moment) {
        let causes = causes(moment);
        let only_by_bill = moment.refused_by(Cause::Balance) && causes.is_empty();
        assert!(
            moment.refused == causes.first().copied() || only_by_bill,
            "{:?} was refused by {:?}, but {causes:?} hold",
            moment.call,
            moment.refused
        );
        let word = word_of(moment.call);
        let Some((first, others)) = causes.split_first() else {
            return;
        };
        for second in others {
            let order = (word, first.number(), second.number());
            self.count_if(ORDERS.contains(&order), &order_name(order));
        }
    }

    fn settled(&mut self, number: u64, sheet: SheetName, bill: &Bill) {
        if let Some(board) = board_word(&self.replay.bench) {
            self.count(&format!("{board}: settled on {}", sheet.word()));
        }
        self.count(&format!("settled months {}", bill.months));
        let lines = self.replay.house.count();
        match sheet {
            SheetName::ProtectedDecree if bill.code == decree::CODES => {
                self.count("settled by the protected plan of protected-decree");
            }
            SheetName::ProtectedHouse if bill.code == lines => {
                self.count("settled by the protected plan of protected-house");
            }
            SheetName::Decree | SheetName::ProtectedDecree => {
                if let Some(plan) = Plan::of(bill.code) {
                    self.count(&format!("settled by {}", base_name(&plan)));
                }
            }
            SheetName::House | SheetName::ProtectedHouse => {
                self.count(&format!("settled by house line {}", bill.code));
                let before = self.lives.settled_on.insert(number, self.house_readings);
                let replaced = before.is_some_and(|before| before != self.house_readings);
                self.count_if(replaced, "settled after the house sheet was replaced");
            }
        }
        let periods = self.lives.periods.entry(number).or_default();
        *periods += 1;
        let tenth = *periods == 10;
        self.count_if(tenth, "settled the tenth period of an account");
    }

    /// A new board: nobody lives there yet.
    pub(super) fn new_lives(&mut self) {
        self.lives = Lives::default();
    }

    fn dropped(&mut self, call: &Call) {
        let clearing = matches!(
            call,
            Call::Rows(RowCall::Clear { .. }) | Call::Cabinet(CabinetCall::Close { .. })
        );
        let by = if clearing { "a clearing" } else { "a store" };
        self.count(&format!("stale entries dropped by {by}"));
        let names = self.replay.bench.board().map(boards::dropped);
        for name in names.unwrap_or_default() {
            self.count(&name);
        }
    }
}

fn word_of(call: &CabinetCall) -> &'static str {
    match call {
        CabinetCall::Post { .. } => "post",
        CabinetCall::Open { .. } => "open",
        CabinetCall::Read { .. } => "read",
        CabinetCall::Settle { .. } => "settle",
        CabinetCall::Pay { .. } => "pay",
        CabinetCall::Close { .. } => "close",
        CabinetCall::Show { .. } => "show",
    }
}

/// The first word, where it is one of a line about boards and cabinets.
fn cabinet_word(line: &[u8]) -> Option<&'static str> {
    let first = words(line).next()?;
    let all = CALLS.iter().map(|(call, _)| *call).chain(["board"]);
    all.into_iter().find(|word| word.as_bytes() == first)
}
