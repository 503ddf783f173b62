//! How the words of a line are written down.

use super::Writer;

impl Writer {
    /// A line of these words, now and then in an unusual spelling.
    pub fn say(&mut self, words: Vec<String>) {
        if self.rng.once_in(16) {
            self.say_unusually(words);
        } else {
            self.push(words.join(" ").into_bytes());
        }
    }

    /// Tabs, repeated blanks, leading zeros.
    pub fn say_unusually(&mut self, words: Vec<String>) {
        let zeros = self.rng.once_in(2);
        let mut line = String::new();
        if self.rng.once_in(3) {
            line += self.blank();
        }
        for (i, word) in words.iter().enumerate() {
            if i > 0 {
                line += self.blank();
            }
            let is_number = words[0] != "house" && word.bytes().all(|byte| byte.is_ascii_digit());
            if zeros && is_number && self.rng.once_in(3) {
                let spare = 20usize.saturating_sub(word.len());
                let count = self.rng.pick(&[1, 2, spare]).min(spare);
                line += &"0".repeat(count);
            }
            line += word;
        }
        if self.rng.once_in(3) {
            line += self.blank();
        }
        self.push(line.into_bytes());
    }

    fn blank(&mut self) -> &'static str {
        self.rng.pick(&[" ", "\t", "  ", " \t", "\t\t ", "     "])
    }

    /// Hexadecimal digits: all lower, all upper, or mixed.
    pub fn hex(&mut self, bytes: &[u8]) -> String {
        if bytes.is_empty() {
            return "-".to_string();
        }
        let lower: String = bytes.iter().map(|byte| format!("{byte:02x}")).collect();
        match self.rng.below(4) {
            0 => lower.to_ascii_uppercase(),
            1 => {
                let mixed = |digit: char| {
                    if self.rng.once_in(2) {
                        digit.to_ascii_uppercase()
                    } else {
                        digit
                    }
                };
                lower.chars().map(mixed).collect()
            }
            _ => lower,
        }
    }
}
