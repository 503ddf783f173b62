//! Calls as words.

use super::Writer;
use crate::cabinet::{Opening, Registers};
use crate::rules::Entries;
use crate::script::SheetName;

/// A name and numbers behind it.
pub fn words(name: &str, numbers: &[u64]) -> Vec<String> {
    let mut words = vec![name.to_string()];
    words.extend(numbers.iter().map(u64::to_string));
    words
}

pub fn rating_words(network: u64, ampere: u64) -> Vec<String> {
    words("rating", &[network, ampere])
}

pub fn price_words(sheet: SheetName, code: u64, entries: &Entries) -> Vec<String> {
    let mut line = words("price", &[code]);
    line.insert(1, sheet.word().to_string());
    line.extend(entries.to_numbers().iter().map(u64::to_string));
    line
}

pub fn choose_words(sheet: SheetName, entries: &Entries) -> Vec<String> {
    let mut line = words("choose", &entries.to_numbers());
    line.insert(1, sheet.word().to_string());
    line
}

pub fn open_words(number: u64, opening: &Opening) -> Vec<String> {
    let mut numbers = vec![
        number,
        opening.class,
        opening.marks,
        opening.power,
        opening.exempt,
    ];
    numbers.extend(opening.kinds);
    numbers.push(opening.first);
    numbers.extend(opening.indices);
    words("open", &numbers)
}

pub fn read_words(number: u64, indices: &Registers) -> Vec<String> {
    let mut line = words("read", &[number]);
    line.extend(indices.iter().map(u64::to_string));
    line
}

pub fn settle_words(number: u64, end: u64, sheet: SheetName) -> Vec<String> {
    let mut line = words("settle", &[number, end]);
    line.push(sheet.word().to_string());
    line
}

impl Writer {
    pub fn say_price(&mut self, sheet: SheetName, code: u64, entries: &Entries) {
        self.say(price_words(sheet, code, entries));
    }

    pub fn say_choose(&mut self, sheet: SheetName, entries: &Entries) {
        self.say(choose_words(sheet, entries));
    }

    pub fn say_house(&mut self, bytes: &[u8]) {
        let hex = self.hex(bytes);
        self.say(vec!["house".to_string(), hex]);
    }

    /// A name and numbers behind it.
    pub fn say_numbers(&mut self, name: &str, numbers: &[u64]) {
        self.say(words(name, numbers));
    }
}
