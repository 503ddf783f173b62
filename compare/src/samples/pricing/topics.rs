//! What a script of prices is about: each topic writes a few lines.

use super::Wanted;
use crate::rules::decree::CODES;
use crate::rules::facts::LARGEST_POWER;
use crate::samples::calls::{choose_words, price_words, rating_words};
use crate::samples::{Topic, Turn, Writer};
use crate::script::SheetName;

use SheetName::{Decree, House, ProtectedDecree, ProtectedHouse};

const TOPICS: &[Topic] = &[
    (10, Writer::winning_plans),
    (8, Writer::decree_prices),
    (4, Writer::breaking_even),
    (8, Writer::protected_plans),
    (3, Writer::first_free_kwh),
    (4, Writer::extended_night),
    (8, Writer::whole_houses),
    (10, Writer::damaged_houses),
    (7, Writer::cut_houses),
    (9, Writer::limits),
    (1, Writer::largest_numbers),
    (4, Writer::huge_numbers),
    (3, Writer::zeros),
    (4, Writer::codes),
    (3, Writer::hindrances),
    (9, Writer::ratings),
    (14, Writer::bad_price_lines),
    (4, Writer::unusual_spelling),
    (3, Writer::no_calls),
];

impl Writer {
    pub fn any_pricing_topic(&mut self) {
        self.any_topic(TOPICS);
    }

    /// Before any house sheet is read: nothing is permitted but the protected plan.
    pub fn empty_house(&mut self) {
        for code in [0, 1] {
            let entries = self.any_facts();
            self.say_price(House, code, &entries);
            let entries = self.social_facts(700);
            self.say_price(ProtectedHouse, code, &entries);
        }
        for entries in [self.any_facts(), self.social_facts(501)] {
            self.say_choose(House, &entries);
            self.say_choose(ProtectedHouse, &entries);
        }
        self.say_house(&[]);
        let entries = self.any_facts();
        self.say_choose(House, &entries);
    }

    /// Every base with every choice of meters in turn.
    fn winning_plans(&mut self) {
        let all = Wanted::all();
        let wanted = all[self.turn(Turn::Plan, all.len())];
        let entries = self.facts_for(wanted, 60);
        self.say_choose(Decree, &entries);
        if self.rng.once_in(3) {
            self.say_choose(ProtectedDecree, &entries);
        }
        if self.rng.once_in(3) {
            let code = self.suitable_code(&entries);
            self.say_price(Decree, code, &entries);
        }
    }

    fn decree_prices(&mut self) {
        let entries = self.any_facts();
        let sheet = self.rng.pick(&[Decree, Decree, ProtectedDecree]);
        for _ in 0..2 {
            let code = match self.rng.below(4) {
                0 => self.rng.range(0, CODES - 1),
                _ => self.suitable_code(&entries),
            };
            self.say_price(sheet, code, &entries);
        }
        self.say_choose(sheet, &entries);
    }

    /// The protected plan, winning or losing, permitted or not.
    fn protected_plans(&mut self) {
        let sheet = self.rng.pick(&[ProtectedDecree, ProtectedHouse]);
        let kwh = self.rng.pick(&[0, 300, 900, 2_500, 8_000, 30_000, 90_000]);
        let kwh = self.rng.range(kwh, kwh + kwh / 2);
        let mut entries = self.social_facts(kwh);
        if self.rng.once_in(5) {
            entries.marks -= 4;
            entries.class = self.rng.range(0, 1);
        }
        self.say_choose(sheet, &entries);
        if self.rng.once_in(2) {
            let own = if sheet == ProtectedDecree {
                CODES
            } else {
                self.house_count()
            };
            let code = self.rng.pick(&[own, own, own + 1, own.saturating_sub(1)]);
            self.say_price(sheet, code, &entries);
        }
    }

    /// 499 to 501 kWh and no more: what the protected plan gives free.
    fn first_free_kwh(&mut self) {
        let kwh = self.rng.pick(&[499, 500, 500, 501, 501, 502]);
        let entries = self.social_facts(kwh);
        self.say_choose(ProtectedDecree, &entries);
        self.say_price(ProtectedDecree, CODES, &entries);
        let code = self.house_count();
        self.say_price(ProtectedHouse, code, &entries);
    }

    /// 2,999 to 3,001 night kWh on the main meter: where the extended bases bend.
    fn extended_night(&mut self) {
        let night = self.rng.pick(&[2_999, 3_000, 3_001]);
        let entries = self.extended_facts(night);
        for base in self.rng.pick(&[[1, 4], [3, 5], [4, 5]]) {
            self.say_price(Decree, 729 * base, &entries);
        }
        self.say_choose(Decree, &entries);
    }

    /// How many lines the house sheet has.
    fn house_count(&self) -> u64 {
        self.replay.house.lines.len() as u64
    }

    fn house_questions(&mut self, count: usize) {
        for _ in 0..count {
            self.house_question();
        }
    }

    fn house_question(&mut self) {
        let mut entries = self.any_facts();
        let sheet = self.rng.pick(&[House, House, ProtectedHouse]);
        if self.rng.once_in(2) {
            return self.say_choose(sheet, &entries);
        }
        let count = self.replay.house.lines.len();
        let mut code = self.rng.below(count + 2);
        if count > 0 && !self.rng.once_in(4) {
            code = self.rng.below(count);
            // Around the least power of the line.
            let least = u64::from(self.replay.house.lines[code].least_power);
            if least > 1 && self.rng.once_in(2) {
                entries.power = self.rng.pick(&[least - 1, least, least + 1]);
                entries.power = entries.power.min(LARGEST_POWER);
                entries.exempt = self.exempt(entries.power);
            }
        }
        self.say_price(sheet, code as u64, &entries);
    }

    fn whole_houses(&mut self) {
        let bytes = if self.rng.once_in(5) {
            self.house_at_limits()
        } else {
            self.whole_house()
        };
        self.say_house(&bytes);
        self.house_questions(3);
    }

    fn damaged_houses(&mut self) {
        let bytes = self.damaged_house();
        self.say_house(&bytes);
        if self.rng.once_in(2) {
            self.house_questions(1);
        }
    }

    fn cut_houses(&mut self) {
        for _ in 0..3 {
            let bytes = self.cut_house();
            self.say_house(&bytes);
        }
        self.house_questions(1);
    }

    /// Networks 0 to 4 with 0 to 20 A in turn, and huge ones.
    fn ratings(&mut self) {
        for _ in 0..2 {
            let place = self.turn(Turn::Rating, 5 * 21) as u64;
            self.say(rating_words(place / 21, place % 21));
        }
        if self.rng.once_in(4) {
            let huge = [
                4,
                18,
                19,
                256 + 4,
                (1 << 32) + 5,
                (1 << 63) + 6,
                u64::MAX - 1,
                u64::MAX,
            ];
            let network = self.rng.pick(&[1, 2, 3, 257, (1 << 32) + 1, u64::MAX]);
            let ampere = self.rng.pick(&huge);
            self.say(rating_words(network, ampere));
        }
    }

    /// The words of some call of good form.
    pub fn price_line(&mut self) -> Vec<String> {
        let sheet = self.rng.pick(&SheetName::ALL);
        match self.rng.below(6) {
            0 => rating_words(self.rng.range(1, 3), self.rng.range(4, 18)),
            1 => {
                let bytes = self.whole_house();
                vec!["house".to_string(), self.hex(&bytes)]
            }
            2 | 3 => choose_words(sheet, &self.any_facts()),
            _ => {
                let entries = self.any_facts();
                let code = self.suitable_code(&entries);
                price_words(sheet, code, &entries)
            }
        }
    }

    /// Lines of no form, the ways in turn.
    fn bad_price_lines(&mut self) {
        self.spoiled_line(Writer::price_line);
    }

    fn unusual_spelling(&mut self) {
        let words = self.numbered_line(Writer::price_line);
        self.say_unusually(words);
    }
}
