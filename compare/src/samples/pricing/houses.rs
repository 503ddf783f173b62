//! Random house sheets, whole and damaged.

use crate::house::{
    self, END_TAG, HEAD, LARGEST_CHARGE, LARGEST_MILLS, LARGEST_PRICE, LARGEST_TENTHS, LINE_LENGTH,
    LINE_TAG, MOST_LINES,
};
use crate::rules::HouseLine;
use crate::samples::{Turn, Writer};

/// The ways in which a sheet is damaged.
type Damage = fn(&mut Writer) -> Vec<u8>;

const DAMAGES: &[Damage] = &[
    Writer::no_bytes,
    Writer::unknown_tag,
    Writer::value_above,
    Writer::wrong_length,
    Writer::bytes_behind,
    Writer::no_line,
    Writer::missing_end,
    Writer::nine_lines,
    Writer::value_above,
    Writer::eight_and_a_damaged_ninth,
    Writer::two_flaws,
    Writer::one_byte_changed,
    Writer::wrong_end,
    Writer::value_above,
    Writer::random_bytes,
    Writer::long_field,
];

impl Writer {
    pub fn house_line(&mut self) -> HouseLine {
        // A low charge with high prices or the other way round, so that any line may win.
        let dear = self.rng.range(0, 8);
        let price = |writer: &mut Writer| {
            let ne = writer.rng.range(500, 9_500 - 1_000 * dear) as u16;
            (ne, writer.rng.range(0, 2_000) as u16)
        };
        HouseLine {
            charge: self.rng.range(0, 5_000 + 40_000 * dear) as u32,
            mills: self.rng.range(0, 600) as u16,
            without_charge: self.rng.pick(&[0, 30, 100, 100, 300]),
            least_power: self.rng.pick(&[0, 0, 0, 0, 1, 60, 100, 300]),
            day: price(self),
            night: price(self),
        }
    }

    /// A line with every value at its limit or at 0.
    fn edge_line(&mut self) -> HouseLine {
        let low = self.rng.once_in(2);
        let mut either = |largest: u16| {
            if low && self.rng.once_in(2) {
                0
            } else {
                largest
            }
        };
        HouseLine {
            mills: either(LARGEST_MILLS),
            without_charge: either(LARGEST_TENTHS),
            least_power: either(LARGEST_TENTHS),
            day: (either(LARGEST_PRICE), either(LARGEST_PRICE)),
            night: (either(LARGEST_PRICE), either(LARGEST_PRICE)),
            charge: if low { 0 } else { LARGEST_CHARGE },
        }
    }

    fn house_lines(&mut self, count: usize) -> Vec<HouseLine> {
        let mut lines: Vec<HouseLine> = (0..count).map(|_| self.house_line()).collect();
        // One line made cheaper, so that late lines win too.
        let cheap = if self.rng.once_in(2) {
            count - 1
        } else {
            self.rng.below(count)
        };
        let line = &mut lines[cheap];
        line.charge /= 4;
        line.mills /= 4;
        line.least_power /= 2;
        (line.day.0, line.night.0) = (line.day.0 / 3, line.night.0 / 3);
        // Equal lines, so that plans tie.
        if count > 1 && self.rng.once_in(3) {
            lines[count - 1] = lines[self.rng.below(count - 1)];
        }
        if self.rng.once_in(6) {
            let place = self.rng.below(count);
            lines[place] = self.edge_line();
        }
        lines
    }

    fn some_lines(&mut self) -> Vec<HouseLine> {
        let count = 1 + self.rng.below(MOST_LINES);
        self.house_lines(count)
    }

    /// A whole sheet, of 1 to 8 lines in turn.
    pub fn whole_house(&mut self) -> Vec<u8> {
        let count = 1 + self.turn(Turn::HouseSize, MOST_LINES);
        house::write(&self.house_lines(count))
    }

    /// A sheet that permits nothing below a power.
    pub fn house_from(&mut self, least: u16) -> Vec<u8> {
        let mut lines = self.some_lines();
        for line in &mut lines {
            line.least_power = line.least_power.max(least);
        }
        house::write(&lines)
    }

    /// One to three lines with every value at its limit or at 0.
    pub fn house_at_limits(&mut self) -> Vec<u8> {
        let count = 1 + self.rng.below(3);
        let lines: Vec<HouseLine> = (0..count).map(|_| self.edge_line()).collect();
        house::write(&lines)
    }

    /// Sheets of 1, 2 and 8 lines, cut at every position in turn.
    pub fn cut_house(&mut self) -> Vec<u8> {
        let field = HEAD + LINE_LENGTH;
        let lengths = [1, 2, MOST_LINES].map(|count| field * count + HEAD);
        let mut cut = self.turn(Turn::Cut, lengths.iter().sum());
        for (count, length) in [1, 2, MOST_LINES].into_iter().zip(lengths) {
            if cut < length {
                let mut bytes = house::write(&self.house_lines(count));
                bytes.truncate(cut);
                return bytes;
            }
            cut -= length;
        }
        Vec::new()
    }

    /// A damaged sheet, the ways of damage in turn.
    pub fn damaged_house(&mut self) -> Vec<u8> {
        let way = self.turn(Turn::Flaw, DAMAGES.len());
        DAMAGES[way](self)
    }

    fn no_bytes(&mut self) -> Vec<u8> {
        Vec::new()
    }

    fn any_field(&mut self, lines: &[HouseLine]) -> usize {
        self.rng.below(lines.len()) * (HEAD + LINE_LENGTH)
    }

    fn unknown_tag(&mut self) -> Vec<u8> {
        let lines = self.some_lines();
        let mut bytes = house::write(&lines);
        let at = if self.rng.once_in(4) {
            bytes.len() - HEAD
        } else {
            self.any_field(&lines)
        };
        bytes[at] = self.rng.pick(&[0, 2, 3, 126, 128, 129, 255]);
        bytes
    }

    /// The length of a line too small or too large, with and without such a content.
    fn wrong_length(&mut self) -> Vec<u8> {
        let lines = self.some_lines();
        let mut bytes = house::write(&lines);
        let at = self.any_field(&lines);
        let length: u16 = self
            .rng
            .pick(&[0, 1, 17, 19, 18 + 256, 18 * 256, 21, 65_535]);
        bytes[at + 1..at + HEAD].copy_from_slice(&length.to_be_bytes());
        let (is, shall) = (LINE_LENGTH, usize::from(length));
        if self.rng.once_in(2) && shall < 300 {
            if shall < is {
                bytes.drain(at + HEAD + shall..at + HEAD + is);
            } else {
                let more = vec![0; shall - is];
                bytes.splice(at + HEAD + is..at + HEAD + is, more);
            }
        }
        bytes
    }

    /// An end that has a content, or says so.
    fn wrong_end(&mut self) -> Vec<u8> {
        let mut bytes = house::write(&self.some_lines());
        let length = bytes.len();
        let said: u16 = self.rng.pick(&[1, 2, 18, 256]);
        bytes[length - 2..].copy_from_slice(&said.to_be_bytes());
        if self.rng.once_in(2) {
            bytes.extend(vec![0; usize::from(said)]);
        }
        bytes
    }

    /// One value above its limit, by one or by as much as fits.
    fn value_above(&mut self) -> Vec<u8> {
        let mut lines = self.some_lines();
        let place = self.rng.below(lines.len());
        lines[place] = self.raised_line();
        house::write(&lines)
    }

    fn raised_line(&mut self) -> HouseLine {
        let mut line = if self.rng.once_in(2) {
            self.house_line()
        } else {
            self.edge_line()
        };
        let most = self.rng.once_in(8);
        let short = |limit: u16| if most { u16::MAX } else { limit + 1 };
        match self.turn(Turn::Value, 8) {
            0 => line.charge = if most { u32::MAX } else { LARGEST_CHARGE + 1 },
            1 => line.mills = short(LARGEST_MILLS),
            2 => line.without_charge = short(LARGEST_TENTHS),
            3 => line.least_power = short(LARGEST_TENTHS),
            4 => line.day.0 = short(LARGEST_PRICE),
            5 => line.day.1 = short(LARGEST_PRICE),
            6 => line.night.0 = short(LARGEST_PRICE),
            _ => line.night.1 = short(LARGEST_PRICE),
        }
        line
    }

    fn bytes_behind(&mut self) -> Vec<u8> {
        let mut bytes = house::write(&self.some_lines());
        match self.rng.below(3) {
            0 => bytes.extend([END_TAG, 0, 0]),
            1 => bytes.extend(house::line_field(&self.house_line())),
            _ => bytes.extend((0..1 + self.rng.below(5)).map(|_| self.rng.next() as u8)),
        }
        bytes
    }

    fn no_line(&mut self) -> Vec<u8> {
        let mut bytes = house::write(&[]);
        if self.rng.once_in(3) {
            bytes.push(self.rng.next() as u8);
        }
        bytes
    }

    fn missing_end(&mut self) -> Vec<u8> {
        let mut bytes = house::write(&self.some_lines());
        bytes.truncate(bytes.len() - HEAD);
        bytes
    }

    fn nine_lines(&mut self) -> Vec<u8> {
        let count = MOST_LINES + 1 + self.rng.below(3);
        house::write(&self.house_lines(count))
    }

    fn eight_and_a_damaged_ninth(&mut self) -> Vec<u8> {
        let mut bytes = house::write(&self.house_lines(MOST_LINES));
        bytes.truncate(bytes.len() - HEAD);
        match self.rng.below(5) {
            0 => bytes.push(LINE_TAG),
            1 => bytes.extend([LINE_TAG, 0, 17]),
            2 => bytes.extend(house::line_field(&self.raised_line())),
            3 => bytes.push(2),
            _ => bytes.extend([2, 0, 0, END_TAG, 0, 0]),
        }
        bytes
    }

    /// The first flaw counts: one in an early field, one in a later field.
    fn two_flaws(&mut self) -> Vec<u8> {
        let mut bytes = house::line_field(&self.house_line());
        bytes.extend(house::line_field(&self.raised_line()));
        match self.rng.below(4) {
            0 => bytes.extend([LINE_TAG, 0]),
            1 => bytes.extend([9, 0, 0, END_TAG, 0, 0]),
            2 => bytes.extend([END_TAG, 0, 0, 5]),
            _ => bytes.truncate(40),
        }
        bytes
    }

    fn one_byte_changed(&mut self) -> Vec<u8> {
        let mut bytes = house::write(&self.some_lines());
        let at = self.rng.below(bytes.len());
        bytes[at] ^= 1 << self.rng.below(8);
        bytes
    }

    fn random_bytes(&mut self) -> Vec<u8> {
        let count = self.rng.below(30);
        let mut bytes: Vec<u8> = (0..count).map(|_| self.rng.next() as u8).collect();
        if let Some(tag) = bytes.first_mut() {
            *tag = self.rng.pick(&[LINE_TAG, END_TAG, *tag]);
        }
        bytes
    }

    /// A field far longer than any that is known.
    fn long_field(&mut self) -> Vec<u8> {
        let length: u16 = self.rng.pick(&[1_000, 4_095, 65_535]);
        let mut bytes = vec![LINE_TAG];
        bytes.extend(length.to_be_bytes());
        bytes.extend(vec![0; usize::from(length)]);
        bytes.extend([END_TAG, 0, 0]);
        bytes
    }
}
