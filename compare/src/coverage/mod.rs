//! What a script reaches, and how often.

mod boards;
mod cabinet;
mod calls;
mod causes;
mod moment;
mod pricing;

use std::collections::HashMap;
use std::fmt;

use crate::rules::Entries;
use crate::script::{self, Answer, Call, Replay, SheetName};
use cabinet::Lives;

/// Counts by name, in the order in which they are printed.
pub struct Coverage {
    names: Vec<String>,
    counts: HashMap<String, u64>,
    replay: Replay,
    /// The last reading of a house sheet was refused, and lines stand.
    after_refused_house: bool,
    /// The last chosen plan with its question.
    before: Option<(SheetName, Entries, u64)>,
    /// How often a house sheet was read.
    house_readings: u64,
    lives: Lives,
}

/// The same words before each of these.
fn each<T: ToString>(before: &str, all: impl IntoIterator<Item = T>) -> Vec<String> {
    all.into_iter()
        .map(|one| format!("{before}{}", one.to_string()))
        .collect()
}

impl Coverage {
    /// For scripts about prices.
    pub fn of_pricing() -> Coverage {
        Coverage::of(pricing::names())
    }

    /// For scripts about prices, both boards and cabinets.
    pub fn of_everything() -> Coverage {
        Coverage::of([pricing::names(), cabinet::names()].concat())
    }

    fn of(names: Vec<String>) -> Coverage {
        Coverage {
            counts: names.iter().map(|name| (name.clone(), 0)).collect(),
            names,
            replay: Replay::default(),
            after_refused_house: false,
            before: None,
            house_readings: 0,
            lives: Lives::default(),
        }
    }

    /// The categories that were never reached.
    pub fn missing(&self) -> Vec<&str> {
        let never = |name: &&String| self.counts.get(*name) == Some(&0);
        self.names
            .iter()
            .filter(never)
            .map(String::as_str)
            .collect()
    }

    fn count(&mut self, name: &str) {
        match self.counts.get_mut(name) {
            Some(count) => *count += 1,
            None => panic!("no category {name}"),
        }
    }

    fn count_if(&mut self, holds: bool, name: &str) {
        if holds {
            self.count(name);
        }
    }

    /// Takes the next line of the script.
    pub fn line(&mut self, line: &[u8]) {
        match script::read(line) {
            Ok(None) => {
                let blank = script::words(line).next().is_none();
                self.count(if blank { "line blank" } else { "line comment" });
            }
            Err(reason) => {
                self.count("answer unreadable");
                self.count(&format!("unreadable {reason:?}"));
                self.unreadable_cabinet_line(line, reason);
            }
            Ok(Some(call)) => {
                self.spelling(line);
                let answer = match call {
                    Call::Board(_) | Call::Rows(_) | Call::Cabinet(_) => {
                        self.cabinet_line(line, &call)
                    }
                    _ => self.price_line(line, &call),
                };
                self.answer(&answer);
            }
        }
    }

    fn price_line(&mut self, line: &[u8], call: &Call) -> Answer {
        let before = self.replay.house.lines.len();
        let answer = self.replay.answer(call);
        self.price_call(line, call, &answer, before);
        self.house_readings += u64::from(matches!(answer, Answer::Lines(_)));
        answer
    }

    fn spelling(&mut self, line: &[u8]) {
        self.count_if(line.contains(&b'\t'), "spelling with a tab");
        self.count_if(
            line.windows(2).any(|pair| pair == b"  "),
            "spelling with repeated blanks",
        );
        let number = |word: &[u8]| word.len() <= 20 && word.iter().all(u8::is_ascii_digit);
        if !line.starts_with(b"house") {
            let zero = |word: &[u8]| number(word) && word.len() > 1 && word[0] == b'0';
            self.count_if(
                script::words(line).any(zero),
                "spelling with a leading zero",
            );
            let long = |word: &[u8]| number(word) && word.len() == 20;
            self.count_if(script::words(line).any(long), "spelling with 20 digits");
        }
    }

    fn answer(&mut self, answer: &Answer) {
        let text = answer.to_string();
        let word = text.split(' ').next().unwrap_or_default();
        self.count(&format!("answer {word}"));
        match answer {
            Answer::Refused(refusal) => {
                self.count(&format!("refused {}", refusal.cause.number()));
            }
            Answer::Unreadable(reason) => self.count(&format!("unreadable {reason:?}")),
            _ => {}
        }
    }
}

impl fmt::Display for Coverage {
    fn fmt(&self, f: &mut fmt::Formatter<'_>) -> fmt::Result {
        for name in &self.names {
            writeln!(f, "{:7} {name}", self.counts[name])?;
        }
        Ok(())
    }
}
