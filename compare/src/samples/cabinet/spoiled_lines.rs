//! Lines about boards and cabinets that are unreadable.

use crate::cabinet::REGISTERS;
use crate::samples::calls::{open_words, read_words, settle_words, words};
use crate::samples::{Turn, Writer};

/// Lines of no form.
const FORMS: [&str; 30] = [
    "settle 0 0 Decree",
    "settle 0 0 protected",
    "board",
    "board table",
    "board journal",
    "board Table 5",
    "board TABLE 5 645",
    "board tables 5",
    "board 5",
    "board table 5 645 1",
    "board table 5,",
    "board table -1",
    "board journal 5",
    "board journal 5 5",
    "board journal 5 5 1000 1",
    "board journal 5 5 1e3",
    "board journal 5 000000000000000000005 1000",
    "board journal 5 5 18446744073709551616",
    "boards table 5",
    "Board table 5",
    "posts 888131 141151 10000",
    "POST 888131 141151 10000",
    "opened 0",
    "Show 0",
    "shows 0",
    "settle 0 decree 5",
    "settle decree 0 5",
    "row",
    "rows 0",
    "closed 0",
];

/// Lines that need a board or a cabinet, all of good form but the stored row.
const CALLS: [&str; 10] = [
    "store 0 ROW",
    "clear 0",
    "row 0",
    "post 888131 141151 10000",
    "open 0 0 0 100 0 1 0 0 0 0 0 0 0 0 0 0 0 0 0 0 0 0 0 0",
    "read 0 0 0 0 0 0 0 0 0 0 0 0 0",
    "settle 0 0 decree",
    "pay 0 1",
    "close 0",
    "show 0",
];

impl Writer {
    /// Every line on a board or a cabinet, before any board is made.
    pub fn without_a_board(&mut self) {
        for line in CALLS {
            let line = line.replace("ROW", &"01".repeat(128));
            self.push(line.into_bytes());
        }
    }

    /// The lines of no form in turn, two at once.
    pub fn bad_form(&mut self) {
        for _ in 0..2 {
            let line = FORMS[self.turn(Turn::Form, FORMS.len())];
            self.push(line.as_bytes().to_vec());
        }
    }

    /// The lines with a word too few and with a word too many, in turn.
    pub fn bad_count(&mut self) {
        let line = CALLS[self.turn(Turn::Count, CALLS.len())];
        let line = line.replace("ROW", &"01".repeat(128));
        let mut line: Vec<String> = line.split(' ').map(str::to_string).collect();
        line.push("0".to_string());
        self.say(line.clone());
        line.truncate(line.len() - 2);
        self.say(line);
    }

    /// Rows of too many or too few digits, or with other signs, two at once.
    pub fn bad_row(&mut self) {
        for _ in 0..2 {
            self.next_bad_row();
        }
    }

    fn next_bad_row(&mut self) {
        let mut digits = "01".repeat(128);
        match self.turn(Turn::BadRow, 8) {
            0 => digits.truncate(254),
            1 => digits.push_str("00"),
            2 => digits.truncate(255),
            3 => digits.push('0'),
            4 => digits = "-".to_string(),
            5 => digits = "00".to_string(),
            6 => self.spoil_digit(&mut digits),
            _ => digits.insert(128, ' '),
        }
        let number = self.rng.range(0, self.capacity());
        self.say(vec!["store".to_string(), number.to_string(), digits]);
    }

    /// An earlier user's lines after the cabinet was made.
    pub fn too_late(&mut self) {
        if !self.has_cabinet() {
            return;
        }
        let number = self.rng.range(0, self.capacity());
        if self.turn(Turn::Late, 2) == 0 {
            self.say_numbers("clear", &[number]);
        } else {
            let digits = "01".repeat(128);
            self.say(vec!["store".to_string(), number.to_string(), digits]);
        }
        self.look_at(number);
    }

    /// The words of some line of good form on the cabinet.
    fn cabinet_line(&mut self) -> Vec<String> {
        let number = self.rng.range(0, self.capacity() - 1);
        match self.rng.below(8) {
            0 => words("show", &[number]),
            1 => words("pay", &[number, self.rng.range(1, 100)]),
            2 => words("close", &[number]),
            3 => words("post", &[888_131, 141_151, 10_000]),
            4 => settle_words(number, self.due(), self.any_sheet()),
            5 => words("row", &[number]),
            6 => {
                let indices = self.account(number).map(|account| account.indices);
                read_words(number, &indices.unwrap_or([0; REGISTERS]))
            }
            _ => {
                let habit = self.habit();
                open_words(number, &self.opening(&habit))
            }
        }
    }

    pub fn spoiled_cabinet_line(&mut self) {
        self.spoiled_line(Writer::cabinet_line);
    }

    pub fn unusual_cabinet_line(&mut self) {
        let line = self.cabinet_line();
        self.say_unusually(line);
    }

    /// A number of a good line far too large, or such that its low bits alone would do.
    pub fn huge_cabinet_number(&mut self) {
        let line = self.numbered_line(Writer::cabinet_line);
        self.with_huge_number(line);
    }
}
