//! Random facts: any, and such that a wanted plan wins.

use crate::rules::decree::{Place, Plan};
use crate::rules::facts::{LARGEST_FIGURE, LARGEST_KWH, LARGEST_POWER};
use crate::rules::{CIRCUITS, DecreeSheet, Entries, Facts, choose};
use crate::samples::Writer;

/// A decree plan that shall win: its base, and whether its special meters stand.
#[derive(Clone, Copy, Debug, PartialEq, Eq)]
pub struct Wanted {
    pub base: u64,
    pub night: bool,
    pub shed: bool,
}

impl Wanted {
    /// Every base with every choice of meters that it allows.
    pub fn all() -> Vec<Wanted> {
        let mut all = Vec::new();
        for base in 0..6 {
            for (night, shed) in [(false, false), (true, false), (false, true), (true, true)] {
                if base < 4 || !night {
                    all.push(Wanted { base, night, shed });
                }
            }
        }
        all
    }

    fn is(self, code: u64) -> bool {
        Plan::of(code).is_some_and(|plan| {
            plan.base == self.base
                && plan.uses(Place::ExclusiveNight) == self.night
                && plan.uses(Place::PeakShed) == self.shed
        })
    }

    fn is_30_kva(self) -> bool {
        matches!(self.base, 2 | 3 | 5)
    }
}

/// The largest sum of figures over so many months.
pub fn largest_sum(months: u64) -> u64 {
    LARGEST_FIGURE * months
}

impl Writer {
    /// SE and SC of so many months.
    pub fn sums(&mut self, months: u64) -> (u64, u64) {
        match self.rng.below(8) {
            0 | 1 => (10_000 * months, 10_000 * months),
            2 => (
                self.rng.range(0, largest_sum(months)),
                self.rng.range(0, largest_sum(months)),
            ),
            _ => {
                let mut sum = |low, high| (0..months).map(|_| self.rng.range(low, high)).sum();
                (sum(9_000, 12_500), sum(6_000, 15_000))
            }
        }
    }

    pub fn power(&mut self) -> u64 {
        match self.rng.below(8) {
            0 => self.rng.range(1, LARGEST_POWER),
            1 => self
                .rng
                .pick(&[1, 99, 100, 101, 299, 300, 301, 2_499, 2_500]),
            2 => self.rng.range(300, 800),
            _ => self.rng.range(9, 300),
        }
    }

    pub fn exempt(&mut self, power: u64) -> u64 {
        match self.rng.below(4) {
            0 => self.rng.range(0, power),
            1 => self.rng.pick(&[0, 1, power / 2, power - 1, power]),
            _ => 0,
        }
    }

    fn kwh(&mut self) -> u64 {
        match self.rng.below(12) {
            0 => self
                .rng
                .pick(&[1, 499, 500, 501, 2_999, 3_000, 3_001, 99_999, LARGEST_KWH]),
            1 => self.rng.range(0, LARGEST_KWH),
            2..=4 => 0,
            5..=7 => self.rng.range(0, 700),
            _ => self.rng.range(0, 12_000),
        }
    }

    /// Marks and the class that allows them.
    fn agreement(&mut self) -> (u64, u64) {
        let marks = self.rng.range(0, 7);
        let class = if marks >= 4 { 0 } else { self.rng.range(0, 1) };
        (class, marks)
    }

    /// Any facts within the limits.
    pub fn any_facts(&mut self) -> Entries {
        let (class, marks) = self.agreement();
        let power = self.power();
        let months = self.rng.range(1, 12);
        let (se, sc) = self.sums(months);
        let mut entries = Entries {
            class,
            marks,
            power,
            exempt: self.exempt(power),
            months,
            se,
            sc,
            ..Entries::default()
        };
        for i in 0..CIRCUITS {
            entries.kinds[i] = self.rng.pick(&[0, 0, 1, 1, 2, 3]);
            if entries.kinds[i] != 0 {
                entries.day[i] = self.kwh();
                entries.night[i] = self.kwh();
            }
            if entries.kinds[i] == 2 && !self.rng.once_in(4) {
                entries.day[i] = 0;
            }
        }
        entries
    }

    /// Facts with which the wanted plan wins on the decree sheet, the surer the
    /// more often they are tried.
    pub fn facts_for(&mut self, wanted: Wanted, tries: usize) -> Entries {
        let mut entries = self.likely_facts(wanted);
        for _ in 0..tries {
            let facts = Facts::new(&entries).expect("likely facts are within their limits");
            if choose(&DecreeSheet, &facts).is_some_and(|(code, _)| wanted.is(code)) {
                break;
            }
            entries = self.likely_facts(wanted);
        }
        entries
    }

    /// Facts that favour the wanted plan.
    fn likely_facts(&mut self, wanted: Wanted) -> Entries {
        let mut entries = self.likely_agreement(wanted);
        let others = self.rng.range(0, 2);
        let mut free: Vec<usize> = (0..CIRCUITS).collect();
        self.rng.shuffle(&mut free);
        let mut next = || free.pop().expect("at most six circuits are taken");
        self.main_circuit(&mut entries, next(), wanted);
        // The extended bases need a night-reserved circuit beside it.
        if wanted.base >= 4 {
            let reserved = next();
            entries.kinds[reserved] = 2;
            entries.day[reserved] = self.amount(entries.months, 0, 300);
            entries.night[reserved] = self.amount(entries.months, 0, 3_000);
        }
        if wanted.night {
            let reserved = next();
            entries.kinds[reserved] = 2;
            entries.night[reserved] = self.amount(entries.months, 1_000, 9_000);
        }
        if wanted.shed {
            let shed = next();
            entries.kinds[shed] = 3;
            entries.day[shed] = self.amount(entries.months, 700, 9_000);
            entries.night[shed] = self.amount(entries.months, 0, 900);
        }
        for _ in 0..others {
            self.other_circuit(&mut entries, next(), wanted);
        }
        entries
    }

    /// Months, sums, class, marks and powers that favour the wanted plan.
    fn likely_agreement(&mut self, wanted: Wanted) -> Entries {
        let months = self.rng.range(1, 12);
        let (se, sc) = self.sums(months);
        let mut marks = match wanted.base {
            0 | 2 => self.rng.pick(&[0, 0, 2, 1, 3]),
            1 | 3 => self.rng.pick(&[1, 1, 3]),
            _ => 3,
        };
        let mut class = self.rng.range(0, 1);
        if self.rng.once_in(6) {
            (class, marks) = (0, marks + 4);
        }
        let power = if wanted.is_30_kva() {
            self.rng.range(60, 420)
        } else {
            self.power()
        };
        Entries {
            class,
            marks,
            power,
            exempt: self.exempt(power),
            months,
            se,
            sc,
            ..Entries::default()
        }
    }

    /// kWh of so many months, from amounts a year: the charges weigh by the
    /// months, so the kWh do too.
    fn amount(&mut self, months: u64, low: u64, high: u64) -> u64 {
        (self.rng.range(low, high) * months)
            .div_ceil(12)
            .min(LARGEST_KWH)
    }

    /// A general circuit on the main meter.
    fn main_circuit(&mut self, entries: &mut Entries, main: usize, wanted: Wanted) {
        let months = entries.months;
        entries.kinds[main] = 1;
        entries.day[main] = if wanted.is_30_kva() {
            self.amount(months, 22_000, 100_000)
        } else {
            self.amount(months, 0, 14_000)
        };
        entries.night[main] = match wanted.base {
            4 | 5 => 3_000 + self.amount(months, 1, 20_000),
            1 | 3 => self.amount(months, 500, 8_000),
            _ => self.amount(months, 0, 500),
        };
    }

    /// One more circuit beside those that decide.
    fn other_circuit(&mut self, entries: &mut Entries, other: usize, wanted: Wanted) {
        entries.kinds[other] = match (wanted.shed, wanted.night) {
            (true, _) => 3,
            (false, true) => 2,
            (false, false) => 1,
        };
        if entries.kinds[other] != 2 {
            entries.day[other] = self.amount(entries.months, 0, 2_000);
        }
        entries.night[other] = self.amount(entries.months, 0, 400);
    }

    /// Facts of all kWh together T, for a protected customer.
    pub fn social_facts(&mut self, kwh: u64) -> Entries {
        let power = self.power();
        let months = self.rng.range(1, 12);
        let (se, sc) = self.sums(months);
        let mut entries = Entries {
            class: 0,
            marks: self.rng.range(4, 7),
            power,
            exempt: self.exempt(power),
            months,
            se,
            sc,
            ..Entries::default()
        };
        let mut left = kwh;
        for i in 0..CIRCUITS {
            entries.kinds[i] = self.rng.range(1, 3);
            entries.day[i] = self.rng.range(0, left.min(LARGEST_KWH));
            left -= entries.day[i];
            entries.night[i] = self.rng.range(0, left.min(LARGEST_KWH));
            left -= entries.night[i];
        }
        // What is left goes where there is room.
        for kwh in entries.night.iter_mut().chain(&mut entries.day) {
            let more = left.min(LARGEST_KWH - *kwh);
            *kwh += more;
            left -= more;
        }
        entries
    }

    /// Facts with so many night kWh, on circuits of the main meter, and a
    /// night-reserved circuit: what the extended bases ask for.
    pub fn extended_facts(&mut self, night: u64) -> Entries {
        let power = self.power();
        let months = self.rng.range(1, 12);
        let (se, sc) = self.sums(months);
        let mut entries = Entries {
            class: self.rng.range(0, 1),
            marks: 3,
            power,
            exempt: self.exempt(power),
            kinds: [1, 1, 2, 0, 0, 0],
            months,
            se,
            sc,
            ..Entries::default()
        };
        entries.day[0] = self.rng.range(0, 60_000);
        entries.night[0] = self.rng.range(0, night);
        entries.night[1] = night - entries.night[0];
        // The reserved circuit has no kWh, or takes a share.
        if !self.rng.once_in(3) {
            entries.day[2] = self.rng.range(0, 2);
            entries.night[2] = self.rng.range(0, entries.night[1]);
            entries.night[1] -= entries.night[2];
        }
        entries
    }

    /// A code whose places suit the kinds of the circuits, and whose base
    /// mostly suits the marks.
    pub fn suitable_code(&mut self, entries: &Entries) -> u64 {
        let bases: &[u64] = match entries.marks % 4 {
            _ if self.rng.once_in(6) => &[0, 1, 2, 3, 4, 5],
            0 | 2 => &[0, 2],
            1 => &[0, 1, 2, 3],
            _ if entries.kinds.contains(&2) => &[0, 1, 2, 3, 4, 4, 5, 5],
            _ => &[0, 1, 2, 3],
        };
        let base = self.rng.pick(bases);
        let mut code = 729 * base;
        for i in 0..CIRCUITS {
            let place = match entries.kinds[i] {
                2 if base >= 4 && !self.rng.once_in(4) => 0,
                2 => self.rng.pick(&[0, 1]),
                3 => self.rng.pick(&[0, 2]),
                _ => 0,
            };
            code += place * 3u64.pow(i as u32);
        }
        code
    }
}
