//! Random scripts by a seed.

mod cabinet;
mod calls;
mod pricing;
mod rng;
mod spelling;
mod spoiled;

use std::collections::BTreeMap;
use std::str::FromStr;

use crate::rules::Entries;
use crate::script::Replay;
use rng::Rng;

/// What a stretch of a script is about.
#[derive(Clone, Copy, Debug, PartialEq, Eq)]
pub enum Part {
    /// Ratings, house sheets, prices and choices.
    Pricing,
    /// Table boards and cabinets on them.
    Table,
    /// Journal boards and cabinets on them.
    Journal,
    /// Boards of either kind.
    Both,
}

/// The scripts that the program `samples` is held against.
#[derive(Clone, Copy, Debug, PartialEq, Eq)]
pub enum Set {
    /// Prices alone.
    Prices,
    /// Prices and cabinets on both boards.
    Everything,
}

impl Set {
    /// The script, always the same.
    pub fn script(self) -> Vec<u8> {
        match self {
            Set::Prices => script(1, &[(Part::Pricing, 4_000)]),
            Set::Everything => script(
                1,
                &[
                    (Part::Pricing, 2_500),
                    (Part::Table, 4_000),
                    (Part::Journal, 4_000),
                ],
            ),
        }
    }
}

impl FromStr for Set {
    type Err = ();

    fn from_str(word: &str) -> Result<Set, ()> {
        match word {
            "prices" => Ok(Set::Prices),
            "everything" => Ok(Set::Everything),
            _ => Err(()),
        }
    }
}

impl FromStr for Part {
    type Err = ();

    fn from_str(word: &str) -> Result<Part, ()> {
        match word {
            "pricing" => Ok(Part::Pricing),
            "table" => Ok(Part::Table),
            "journal" => Ok(Part::Journal),
            "both" => Ok(Part::Both),
            _ => Err(()),
        }
    }
}

/// A kind of board.
#[derive(Clone, Copy, Debug, PartialEq, Eq)]
enum BoardKind {
    Table,
    Journal,
}

impl BoardKind {
    fn word(self) -> &'static str {
        match self {
            BoardKind::Table => "table",
            BoardKind::Journal => "journal",
        }
    }
}

/// A script being written.
struct Writer {
    rng: Rng,
    lines: Vec<Vec<u8>>,
    /// How many lines the part that is being written ends with.
    end: usize,
    /// What stands after the lines so far.
    replay: Replay,
    /// The kind of board that lines are about.
    kind: BoardKind,
    /// What the dwelling at a number is known to use.
    habits: BTreeMap<u64, Entries>,
    /// How often each topic that goes through a list has had its turn.
    turns: [usize; Turn::COUNT],
}

/// The lists that are gone through in their order.
#[derive(Clone, Copy)]
enum Turn {
    Rating,
    Plan,
    Limit,
    Code,
    Hindrance,
    Cut,
    Flaw,
    HouseSize,
    Value,
    Bad,
    Step,
    Era,
    Single,
    Crowd,
    Spare,
    Idle,
    Brimful,
    Count,
    Late,
    Board,
    Form,
    BadRow,
    GoodRow,
    RowFlaw,
    Month,
    EdgeOpening,
    BadOpening,
    BadVacant,
    Period,
    Refusal,
    Broken,
}

/// A weight, and what writes the lines.
type Topic = (u64, fn(&mut Writer));

impl Turn {
    const COUNT: usize = Turn::Broken as usize + 1;
}

impl Writer {
    fn new(seed: u64) -> Writer {
        Writer {
            rng: Rng::new(seed),
            lines: Vec::new(),
            end: 0,
            replay: Replay::default(),
            kind: BoardKind::Table,
            habits: BTreeMap::new(),
            turns: [0; Turn::COUNT],
        }
    }

    /// The next place in a list of that length.
    fn turn(&mut self, turn: Turn, length: usize) -> usize {
        let count = &mut self.turns[turn as usize];
        let place = *count % length;
        *count += 1;
        place
    }

    /// One of the topics, the more likely the more it weighs.
    fn any_topic(&mut self, topics: &[Topic]) {
        let all: u64 = topics.iter().map(|(weight, _)| weight).sum();
        let mut left = self.rng.range(0, all - 1);
        for (weight, topic) in topics {
            if left < *weight {
                return topic(self);
            }
            left -= weight;
        }
    }

    /// Takes a line, and plays it, unless the part is full.
    fn push(&mut self, line: Vec<u8>) {
        if !self.is_full() {
            self.replay.line(&line);
            self.lines.push(line);
        }
    }

    fn is_full(&self) -> bool {
        self.lines.len() >= self.end
    }

    /// Every part goes through its lists from their beginning.
    fn part(&mut self, part: Part) {
        self.turns = [0; Turn::COUNT];
        match part {
            Part::Pricing => self.pricing(),
            Part::Table => self.cabinets(&[BoardKind::Table]),
            Part::Journal => self.cabinets(&[BoardKind::Journal]),
            Part::Both => self.cabinets(&[BoardKind::Table, BoardKind::Journal]),
        }
    }
}

/// A script of these parts, each of exactly so many lines; the same for the
/// same seed. Its first line names the seed.
pub fn script(seed: u64, parts: &[(Part, usize)]) -> Vec<u8> {
    let mut writer = Writer::new(seed);
    for (i, (part, lines)) in parts.iter().enumerate() {
        writer.end += lines;
        if i == 0 {
            writer.push(format!("# samples, seed {seed}").into_bytes());
        }
        writer.part(*part);
    }
    let mut text = Vec::new();
    for line in writer.lines {
        text.extend(line);
        text.push(b'\n');
    }
    text
}
