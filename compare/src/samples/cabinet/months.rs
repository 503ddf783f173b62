//! Lines that post months.

use crate::cabinet::account::LAST_MONTH;
use crate::rules::facts::LARGEST_FIGURE;
use crate::rules::month::{LARGEST_INDEX, worked_out};
use crate::samples::{Turn, Writer};

/// The figures of a month: s, Mx and N_C.
type Figures = [u64; 3];

/// Figures at their limits and one beyond them.
const EDGES: [fn(&mut Writer) -> Figures; 20] = [
    |writer| [1, writer.any_mx(), writer.any_nc()],
    |writer| [0, writer.any_mx(), writer.any_nc()],
    |writer| [LARGEST_INDEX, writer.any_mx(), writer.any_nc()],
    |writer| [LARGEST_INDEX + 1, writer.any_mx(), writer.any_nc()],
    |writer| [writer.any_s(), 1, writer.any_nc()],
    |writer| [writer.any_s(), 0, writer.any_nc()],
    |writer| [writer.any_s(), LARGEST_INDEX, writer.any_nc()],
    |writer| [writer.any_s(), LARGEST_INDEX + 1, writer.any_nc()],
    |writer| [writer.any_s(), writer.any_mx(), 0],
    |writer| [writer.any_s(), writer.any_mx(), LARGEST_FIGURE],
    |writer| [writer.any_s(), writer.any_mx(), LARGEST_FIGURE + 1],
    |writer| writer.with_ne(LARGEST_FIGURE),
    |writer| writer.with_ne(LARGEST_FIGURE + 1),
    |writer| [writer.huge(888_131), writer.any_mx(), writer.any_nc()],
    |writer| [writer.any_s(), writer.huge(141_151), writer.any_nc()],
    |writer| [writer.any_s(), writer.any_mx(), writer.huge(10_000)],
    |_| [1, 1, 0],
    |_| [u64::MAX, u64::MAX, u64::MAX],
    |_| [0, 0, LARGEST_FIGURE + 1],
    |writer| [writer.rng.range(1, LARGEST_INDEX), 141_151, 10_000],
];

impl Writer {
    fn any_s(&mut self) -> u64 {
        self.rng.range(850_000, 1_050_000)
    }

    fn any_mx(&mut self) -> u64 {
        self.rng.range(110_000, 210_000)
    }

    fn any_nc(&mut self) -> u64 {
        self.rng.range(6_000, 15_000)
    }

    /// Figures of which exactly this N_E is worked out.
    fn with_ne(&mut self, ne: u64) -> Figures {
        let s = self.rng.range(1, LARGEST_INDEX);
        let (mut low, mut high) = (0, LARGEST_INDEX);
        while high - low > 1 {
            let middle = (low + high) / 2;
            if worked_out(s, middle) < ne {
                low = middle
            } else {
                high = middle
            }
        }
        [s, high, self.any_nc()]
    }

    fn month_figures(&mut self) -> Figures {
        match self.rng.below(6) {
            0 => [888_131, 141_151, 10_000],
            1 => [self.any_s(), 141_151, self.any_nc()],
            _ => [self.any_s(), self.any_mx(), self.any_nc()],
        }
    }

    pub fn say_post(&mut self) {
        let figures = self.month_figures();
        self.say_numbers("post", &figures);
    }

    pub fn post_months(&mut self) {
        for _ in 0..self.rng.range(1, 4) {
            self.say_post();
        }
    }

    /// Several years at once.
    pub fn post_years(&mut self) {
        let most = (LAST_MONTH + 3).saturating_sub(self.due());
        for _ in 0..self.rng.range(10, 60).min(most) {
            self.say_post();
        }
    }

    /// Figures at their limits and beyond, in turn.
    pub fn post_edges(&mut self) {
        let figures = EDGES[self.turn(Turn::Month, EDGES.len())](self);
        self.say_numbers("post", &figures);
    }
}
