//! Lines of no form, made of good ones.

use super::{Turn, Writer};

/// What writes the words of a line of good form.
pub type Source = fn(&mut Writer) -> Vec<String>;

const WAYS: [fn(&mut Writer, Source); 16] = [
    Writer::without_its_last_word,
    Writer::without_a_word,
    Writer::with_a_surplus_word,
    |writer, good| {
        writer.with_bad_number(good, &["18446744073709551616", "99999999999999999999"]);
    },
    |writer, good| {
        writer.with_bad_number(good, &["000000000000000000000", "000000000000000000001"]);
    },
    |writer, good| {
        writer.with_bad_number(good, &["123456789012345678901", "18446744073709551616000"]);
    },
    Writer::with_no_number,
    Writer::with_no_number,
    |writer, good| {
        let bad = ["\u{0661}", "1\r", "1\u{b}", "1\u{a0}", "1,000", "a", "1;"];
        writer.with_bad_number(good, &bad);
    },
    Writer::with_an_unknown_name,
    Writer::with_an_unknown_sheet,
    Writer::house_of_odd_digits,
    Writer::house_of_no_digits,
    Writer::house_of_no_form,
    Writer::twice_bad,
    Writer::with_bytes_that_are_no_text,
];

/// The places of a line's words that are numbers.
pub fn number_places(words: &[String]) -> Vec<usize> {
    let is_number = |word: &str| word.len() <= 20 && word.bytes().all(|b| b.is_ascii_digit());
    (1..words.len())
        .filter(|&place| is_number(&words[place]))
        .collect()
}

impl Writer {
    /// The ways in turn.
    pub fn spoiled_line(&mut self, good: Source) {
        let way = WAYS[self.turn(Turn::Bad, WAYS.len())];
        way(self, good);
    }

    /// A good line that has a number.
    pub fn numbered_line(&mut self, good: Source) -> Vec<String> {
        loop {
            let words = good(self);
            if !number_places(&words).is_empty() {
                return words;
            }
        }
    }

    fn any_number_place(&mut self, words: &[String]) -> usize {
        self.rng.pick(&number_places(words))
    }

    /// A number far too large, or such that its low bits alone would do.
    pub fn with_huge_number(&mut self, mut words: Vec<String>) {
        let at = self.any_number_place(&words);
        let value: u64 = words[at].parse().unwrap_or(0);
        words[at] = self.huge(value).to_string();
        self.say(words);
    }

    /// Far from a number, or equal to it in its low bits.
    pub fn huge(&mut self, value: u64) -> u64 {
        match self.rng.below(8) {
            0 => u64::MAX,
            1 => 1 << 63,
            2 => value.wrapping_add(1 << 63),
            3 => value.wrapping_add(1 << 32),
            4 => value.wrapping_add(1 << 16),
            5 => value.wrapping_add(1 << 8),
            6 => value.wrapping_add(1 << 31),
            _ => u64::MAX - value,
        }
    }

    fn without_its_last_word(&mut self, good: Source) {
        let mut words = good(self);
        words.pop();
        self.say(words);
    }

    fn without_a_word(&mut self, good: Source) {
        let mut words = good(self);
        let at = self.rng.below(words.len());
        words.remove(at);
        self.say(words);
    }

    fn with_a_surplus_word(&mut self, good: Source) {
        let mut words = good(self);
        words.push(self.rng.pick(&["0", "1", "#", "-", "end"]).to_string());
        self.say(words);
    }

    /// A good line with one of these in the place of a number.
    fn with_bad_number(&mut self, good: Source, bad: &[&str]) {
        let mut words = self.numbered_line(good);
        let at = self.any_number_place(&words);
        words[at] = self.rng.pick(bad).to_string();
        self.say(words);
    }

    fn with_no_number(&mut self, good: Source) {
        let bad = ["-1", "+1", "1.0", "0x1", "1_0", "1e3", "one", "-", "''"];
        self.with_bad_number(good, &bad);
    }

    fn with_an_unknown_name(&mut self, good: Source) {
        let mut words = good(self);
        let names = [
            "prices", "PRICE", "Choose", "rate", "ratings", "houses", "-", "7", "x#",
        ];
        words[0] = self.rng.pick(&names).to_string();
        self.say(words);
    }

    fn with_an_unknown_sheet(&mut self, good: Source) {
        let mut words = self.numbered_line(good);
        let sheet = words[1..]
            .iter()
            .position(|word| word.starts_with(|first: char| first.is_ascii_alphabetic()));
        match sheet {
            Some(place) => {
                let names = [
                    "Decree",
                    "HOUSE",
                    "protected",
                    "protected-",
                    "decree,",
                    "0",
                    "-",
                ];
                words[1 + place] = self.rng.pick(&names).to_string();
            }
            None => words = vec!["choose".to_string(), "protected_decree".to_string()],
        }
        self.say(words);
    }

    fn house_of_odd_digits(&mut self, _: Source) {
        let bytes = self.whole_house();
        let mut hex = self.hex(&bytes);
        if self.rng.once_in(2) {
            hex.pop();
        } else {
            hex.push('0');
        }
        self.say(vec!["house".to_string(), hex]);
    }

    fn house_of_no_digits(&mut self, _: Source) {
        let bytes = self.whole_house();
        let mut hex = self.hex(&bytes);
        self.spoil_digit(&mut hex);
        self.say(vec!["house".to_string(), hex]);
    }

    /// Puts something that is no hexadecimal digit in the place of one.
    pub fn spoil_digit(&mut self, hex: &mut String) {
        let at = self.rng.below(hex.len());
        let digit = self.rng.pick(&["g", "G", "-", "x", "/", ":", "@", "`"]);
        hex.replace_range(at..=at, digit);
    }

    fn house_of_no_form(&mut self, _: Source) {
        let rest = self.rng.pick(&[
            "",
            "--",
            "0x7f0000",
            "0",
            "- -",
            "7f0000 7f0000",
            "7f 00 00",
        ]);
        let mut words = vec!["house".to_string()];
        words.extend(rest.split_whitespace().map(str::to_string));
        self.say(words);
    }

    /// Out of its limits and unreadable: the form comes first.
    fn twice_bad(&mut self, good: Source) {
        let mut words = self.numbered_line(good);
        let places = number_places(&words);
        let at = self.any_number_place(&words);
        words[at] = u64::MAX.to_string();
        let (first, last) = (places[0], places[places.len() - 1]);
        let at = if at == last { first } else { last };
        words[at] = "1x".to_string();
        self.say(words);
    }

    fn with_bytes_that_are_no_text(&mut self, good: Source) {
        let words = self.numbered_line(good);
        let mut line = words.join(" ").into_bytes();
        let at = line.len() - self.rng.below(3).min(line.len());
        line.insert(at, self.rng.pick(&[0xff, 0x80, 0xc3, 0x00, 0x0b]));
        self.push(line);
    }

    /// Blank lines and comments.
    pub fn no_calls(&mut self) {
        let line = self.rng.pick(&[
            "",
            " ",
            "\t",
            "  \t ",
            "#",
            "# a comment",
            "#rating 1 4",
            "  # house -",
            "\t#\tprice",
            "##",
        ]);
        self.push(line.as_bytes().to_vec());
    }
}
