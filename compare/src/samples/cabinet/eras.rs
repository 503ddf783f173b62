//! Eras: each makes a board, and then lines about it by weight.

use super::boards::Shape;
use crate::board::LARGEST_CAPACITY;
use crate::cabinet::account::LAST_MONTH;
use crate::samples::{BoardKind, Topic, Turn, Writer};

/// How a stretch of lines on one board begins and goes on.
struct Era {
    /// Makes the board and what an earlier user left on it.
    begin: fn(&mut Writer),
    topics: &'static [Topic],
    /// About how many lines it has.
    lines: usize,
    /// It goes on until no month can be posted any more.
    to_the_last_month: bool,
}

/// The eras in turn.
const ERAS: [&Era; 12] = [
    &VILLAGE, &INHERITED, &SINGLE, &CROWDED, &LARGE, &SINGLE, &DECADES, &INHERITED, &CROWDED,
    &VILLAGE, &INHERITED, &VILLAGE,
];

/// An ordinary estate.
const VILLAGE: Era = Era {
    begin: |writer| {
        let capacity = writer.rng.range(5, 40);
        let limit = writer.rng.pick(&[capacity, capacity, capacity - 2]);
        let spare = writer.rng.pick(&[1, 1, 2, 7, limit, 3 * limit]);
        writer.say_board(Shape {
            capacity,
            limit,
            spare,
        });
    },
    topics: LIVES,
    lines: 320,
    to_the_last_month: false,
};

/// A board for one account.
const SINGLE: Era = Era {
    begin: |writer| {
        let capacity = match (writer.kind, writer.turn(Turn::Single, 2)) {
            (BoardKind::Journal, 1) => writer.rng.range(2, 9),
            _ => 1,
        };
        let spare = writer.rng.pick(&[1, 1, 2, 40]);
        writer.say_board(Shape {
            capacity,
            limit: 1,
            spare,
        });
    },
    topics: LIVES,
    lines: 90,
    to_the_last_month: false,
};

/// A board that is soon full, with many closings.
const CROWDED: Era = Era {
    begin: |writer| {
        let limit = writer.rng.range(2, 6);
        let capacity = [limit + 1, limit, limit + 4, 300][writer.turn(Turn::Crowd, 4)];
        writer.say_board(Shape {
            capacity,
            limit,
            spare: 1,
        });
    },
    topics: TURNOVER,
    lines: 180,
    to_the_last_month: false,
};

/// The largest boards.
const LARGE: Era = Era {
    begin: |writer| {
        let limit = writer.rng.pick(&[1, 12, 100, LARGEST_CAPACITY]);
        let spare = [65_535, 1, 100, limit][writer.turn(Turn::Spare, 4)];
        writer.say_board(Shape {
            capacity: LARGEST_CAPACITY,
            limit,
            spare,
        });
    },
    topics: LIVES,
    lines: 120,
    to_the_last_month: false,
};

/// Rows of an earlier user, right and broken.
const INHERITED: Era = Era {
    begin: |writer| {
        let capacity = writer.rng.range(24, 60);
        let limit = writer.rng.range(20, capacity - 2);
        let spare = writer.rng.pick(&[1, 1, 3, limit]);
        writer.say_board(Shape {
            capacity,
            limit,
            spare,
        });
        writer.earlier_user();
    },
    topics: HERITAGE,
    lines: 240,
    to_the_last_month: false,
};

/// All 1,200 months.
const DECADES: Era = Era {
    begin: |writer| {
        let capacity = writer.rng.range(24, 40);
        writer.say_board(Shape {
            capacity,
            limit: capacity,
            spare: 1,
        });
    },
    topics: YEARS,
    lines: 500,
    to_the_last_month: true,
};

/// Long lives of accounts.
const LIVES: &[Topic] = &[
    (14, Writer::post_months),
    (2, Writer::post_edges),
    (9, Writer::open_account),
    (4, Writer::edge_opening),
    (1, Writer::close_unsettled),
    (8, Writer::read_account),
    (30, Writer::bill_account),
    (8, Writer::pay_account),
    (2, Writer::edge_payment),
    (3, Writer::close_account),
    (2, Writer::close_after_credit),
    (2, Writer::most_kwh),
    (2, Writer::no_plan),
    (5, Writer::replaced_house),
    (6, Writer::look),
    (22, Writer::refused_line),
    (12, Writer::asides),
];

/// Openings and closings.
const TURNOVER: &[Topic] = &[
    (10, Writer::post_months),
    (10, Writer::open_account),
    (8, Writer::open_beyond_the_limit),
    (3, Writer::edge_opening),
    (3, Writer::close_unsettled),
    (5, Writer::read_account),
    (14, Writer::bill_account),
    (14, Writer::close_account),
    (4, Writer::close_after_credit),
    (4, Writer::look),
    (8, Writer::refused_line),
    (8, Writer::asides),
];

/// What an earlier user left.
const HERITAGE: &[Topic] = &[
    (10, Writer::post_months),
    (2, Writer::post_edges),
    (4, Writer::open_account),
    (5, Writer::read_account),
    (14, Writer::bill_account),
    (5, Writer::pay_account),
    (3, Writer::close_account),
    (24, Writer::broken_row),
    (7, Writer::upper_balance),
    (4, Writer::lower_balance),
    (3, Writer::last_period),
    (6, Writer::look),
    (14, Writer::refused_line),
    (5, Writer::asides),
];

/// Many months, and bills over long periods.
const YEARS: &[Topic] = &[
    (22, Writer::post_years),
    (2, Writer::post_edges),
    (6, Writer::open_account),
    (2, Writer::edge_opening),
    (4, Writer::read_account),
    (36, Writer::bill_account),
    (5, Writer::pay_account),
    (4, Writer::close_account),
    (3, Writer::look),
    (18, Writer::refused_line),
    (4, Writer::asides),
];

/// Lines that are no calls on an account.
const ASIDES: &[Topic] = &[
    (12, Writer::refused_board),
    (4, Writer::too_late),
    (5, Writer::bad_form),
    (9, Writer::bad_count),
    (4, Writer::bad_row),
    (10, Writer::spoiled_cabinet_line),
    (4, Writer::huge_cabinet_number),
    (3, Writer::unusual_cabinet_line),
    (3, Writer::no_calls),
    (2, Writer::any_price_line),
    (4, Writer::any_house),
];

/// Before the cabinet is made.
const EARLIER: &[Topic] = &[
    (12, Writer::store_account),
    (16, Writer::store_broken),
    (3, Writer::store_again),
    (4, Writer::clear_row),
    (4, Writer::store_outside),
    (1, Writer::bad_row),
    (1, Writer::refused_board),
    (1, Writer::look),
];

impl Writer {
    /// Eras in turn until the part is full.
    pub fn cabinets(&mut self, kinds: &[BoardKind]) {
        if self.replay.bench.board().is_none() {
            self.without_a_board();
            self.kind = kinds[0];
            self.refused_board();
            self.without_a_board();
        }
        while !self.is_full() {
            self.kind = self.rng.pick(kinds);
            let era = ERAS[self.turn(Turn::Era, ERAS.len())];
            self.era(era);
        }
    }

    fn era(&mut self, era: &Era) {
        self.refused_board();
        (era.begin)(self);
        // In a long script some boards live long.
        let times = match self.end - self.lines.len() {
            20_000.. => self.rng.pick(&[1, 1, 2, 8]),
            _ => 1,
        };
        let end = self.lines.len() + era.lines * times;
        let has_month = |writer: &Writer| era.to_the_last_month && writer.due() <= LAST_MONTH;
        while !self.is_full() && (self.lines.len() < end || has_month(self)) {
            self.any_topic(era.topics);
        }
        if era.to_the_last_month {
            self.after_the_last_month();
        }
    }

    /// Rows on the board before the cabinet is made.
    fn earlier_user(&mut self) {
        for _ in 0..self.rng.range(20, 40) {
            self.any_topic(EARLIER);
        }
        if self.turn(Turn::Brimful, 2) == 0 {
            self.store_beyond_the_limit();
        }
        self.every_broken_row();
    }

    fn asides(&mut self) {
        self.any_topic(ASIDES);
    }

    /// A line about prices in between.
    fn any_price_line(&mut self) {
        let line = self.price_line();
        self.say(line);
    }

    /// A house sheet, whole or damaged.
    fn any_house(&mut self) {
        let bytes = if self.rng.once_in(3) {
            self.cut_house()
        } else {
            self.whole_house()
        };
        self.say_house(&bytes);
    }
}
