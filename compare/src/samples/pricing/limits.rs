//! Numbers at their limits and beyond, codes at the end of a sheet, and plans
//! that one circumstance forbids.

use super::facts::largest_sum;
use crate::rules::decree::CODES;
use crate::rules::facts::{LARGEST_KWH, LARGEST_POWER};
use crate::rules::{CIRCUITS, Entries};
use crate::samples::calls::rating_words;
use crate::samples::{Turn, Writer};
use crate::script::SheetName;

use SheetName::{Decree, ProtectedDecree};

const SHEETS: [SheetName; 4] = SheetName::ALL;

/// Moves some numbers to a limit or beyond, with a random circuit at hand.
type Push = fn(&mut Writer, &mut Entries, usize);

const LIMITS: [Push; 29] = [
    |_, e, _| (e.class, e.marks) = (1, 3),
    |_, e, _| e.class = 2,
    |_, e, _| (e.class, e.marks) = (0, 7),
    |_, e, _| (e.class, e.marks) = (0, 8),
    |w, e, _| (e.class, e.marks) = (1, w.rng.range(4, 7)),
    |_, e, _| (e.power, e.exempt) = (0, 0),
    |w, e, _| (e.power, e.exempt) = (1, w.rng.range(0, 1)),
    |_, e, _| e.power = LARGEST_POWER,
    |_, e, _| e.power = LARGEST_POWER + 1,
    |_, e, _| e.exempt = e.power,
    |_, e, _| e.exempt = e.power + 1,
    |_, e, i| e.kinds[i] = 3,
    |_, e, i| e.kinds[i] = 4,
    |_, e, i| (e.kinds[i], e.day[i]) = (1, LARGEST_KWH),
    |_, e, i| (e.kinds[i], e.day[i]) = (1, LARGEST_KWH + 1),
    |_, e, i| (e.kinds[i], e.night[i]) = (2, LARGEST_KWH),
    |_, e, i| (e.kinds[i], e.night[i]) = (2, LARGEST_KWH + 1),
    |_, e, i| (e.kinds[i], e.day[i], e.night[i]) = (0, 1, 0),
    |_, e, i| (e.kinds[i], e.day[i], e.night[i]) = (0, 0, 1),
    |_, e, _| e.months = 0,
    |_, e, _| (e.months, e.se, e.sc) = (0, 0, 0),
    |_, e, _| e.months = 12,
    |_, e, _| e.months = 13,
    |_, e, _| e.se = largest_sum(e.months),
    |_, e, _| e.se = largest_sum(e.months) + 1,
    |_, e, _| e.sc = largest_sum(e.months),
    |_, e, _| e.sc = largest_sum(e.months) + 1,
    |_, e, _| (e.kinds, e.day, e.night) = Default::default(),
    |_, e, _| (e.months, e.se, e.sc) = (1, 99_999, 99_999),
];

/// A decree plan that one circumstance forbids, and facts that lift it.
struct Hindered {
    code: u64,
    entries: Entries,
    lifted: Entries,
}

/// Where a hindrance is built: facts, one of their circuits with its share of
/// a code, and a normal and an extended base.
struct Ground {
    entries: Entries,
    circuit: usize,
    place: u64,
    extended: u64,
    normal: u64,
    /// The mark of a protected customer, or 0.
    social: u64,
}

const HINDRANCES: [fn(&mut Writer, Ground) -> Hindered; 6] = [
    Writer::wrong_place,
    Writer::day_on_exclusive_night,
    Writer::two_rate_missing,
    Writer::extension_missing,
    Writer::reserved_missing,
    Writer::extended_and_exclusive,
];

impl Writer {
    /// Every number at its limits and one beyond them, in turn.
    pub fn limits(&mut self) {
        let mut entries = self.any_facts();
        let circuit = self.rng.below(CIRCUITS);
        let push = LIMITS[self.turn(Turn::Limit, LIMITS.len())];
        push(self, &mut entries, circuit);
        let sheet = self.rng.pick(&SHEETS);
        if self.rng.once_in(2) {
            self.say_choose(sheet, &entries);
        } else {
            let code = self.rng.pick(&[0, 0, 729, 1_458, 2_187, CODES, u64::MAX]);
            self.say_price(sheet, code, &entries);
        }
    }

    /// All numbers at their largest.
    pub fn largest_numbers(&mut self) {
        let kind = self.rng.range(1, 3);
        let entries = Entries {
            class: 0,
            marks: 7,
            power: LARGEST_POWER,
            exempt: self.rng.pick(&[0, 0, LARGEST_POWER]),
            kinds: [kind; CIRCUITS],
            day: [self.rng.pick(&[LARGEST_KWH, 0]); CIRCUITS],
            night: [LARGEST_KWH; CIRCUITS],
            months: 12,
            se: largest_sum(12),
            sc: largest_sum(12),
        };
        if self.rng.once_in(2) {
            let bytes = self.house_at_limits();
            self.say_house(&bytes);
        }
        for sheet in SHEETS {
            self.say_choose(sheet, &entries);
            let code = self.rng.pick(&[0, 1, 729, 4 * 729, 5 * 729, CODES]);
            self.say_price(sheet, code, &entries);
        }
    }

    /// A number of a good line far too large, or such that its low bits alone would do.
    pub fn huge_numbers(&mut self) {
        let mut words = self.price_line();
        if words[0] == "house" {
            words = rating_words(1, 4);
        }
        self.with_huge_number(words);
    }

    /// SE or SC or both are 0, or no kWh: plans tie, the lowest code wins.
    pub fn zeros(&mut self) {
        let mut entries = self.any_facts();
        match self.rng.below(5) {
            0 | 1 => (entries.se, entries.sc) = (0, 0),
            2 => entries.se = 0,
            3 => entries.sc = 0,
            _ => (entries.day, entries.night) = ([0; CIRCUITS], [0; CIRCUITS]),
        }
        let sheet = self.rng.pick(&SHEETS);
        self.say_choose(sheet, &entries);
        if self.rng.once_in(2) {
            let code = self.suitable_code(&entries);
            self.say_price(Decree, code, &entries);
        }
    }

    /// Codes around and beyond the end of a sheet.
    pub fn codes(&mut self) {
        const EDGES: [u64; 13] = [
            0,
            CODES - 1,
            CODES,
            CODES + 1,
            7,
            8,
            9,
            65_000,
            65_001,
            65_536,
            1 << 32,
            (1 << 32) + CODES,
            u64::MAX,
        ];
        let code = EDGES[self.turn(Turn::Code, EDGES.len())];
        let entries = if self.rng.once_in(2) {
            self.any_facts()
        } else {
            self.social_facts(1_000)
        };
        for sheet in SHEETS {
            if self.rng.once_in(2) {
                self.say_price(sheet, code, &entries);
            }
        }
        // The last decree code: base 5 with all circuits interruptible and shed.
        if code == CODES - 1 {
            let mut entries = entries;
            entries.kinds = [3; CIRCUITS];
            self.say_price(Decree, code, &entries);
        }
    }

    /// Decree plans that one single circumstance forbids, in turn, and what lifts it.
    pub fn hindrances(&mut self) {
        let entries = self.any_facts();
        let circuit = self.rng.below(CIRCUITS);
        let ground = Ground {
            circuit,
            place: 3u64.pow(circuit as u32),
            extended: 729 * self.rng.range(4, 5),
            normal: self.rng.pick(&[0, 2 * 729]),
            social: entries.marks / 4 * 4,
            entries,
        };
        let hindrance = HINDRANCES[self.turn(Turn::Hindrance, HINDRANCES.len())];
        let hindered = hindrance(self, ground);
        self.say_price(Decree, hindered.code, &hindered.entries);
        if self.rng.once_in(2) {
            self.say_price(ProtectedDecree, hindered.code, &hindered.lifted);
        }
    }

    fn wrong_place(&mut self, ground: Ground) -> Hindered {
        let (mut entries, mut lifted) = (ground.entries.clone(), ground.entries);
        let meter = self.rng.range(1, 2);
        entries.kinds[ground.circuit] = self.rng.pick(&[1, 4 - meter]);
        lifted.kinds[ground.circuit] = 1 + meter;
        lifted.day[ground.circuit] = 0;
        Hindered {
            code: ground.normal + meter * ground.place,
            entries,
            lifted,
        }
    }

    fn day_on_exclusive_night(&mut self, ground: Ground) -> Hindered {
        let mut entries = ground.entries;
        entries.kinds[ground.circuit] = 2;
        entries.day[ground.circuit] = self.rng.pick(&[1, 1, 500]);
        let mut lifted = entries.clone();
        lifted.day[ground.circuit] = 0;
        Hindered {
            code: ground.normal + ground.place,
            entries,
            lifted,
        }
    }

    fn two_rate_missing(&mut self, ground: Ground) -> Hindered {
        let (mut entries, mut lifted) = (ground.entries.clone(), ground.entries);
        entries.marks = ground.social + self.rng.pick(&[0, 2]);
        lifted.marks = ground.social + 1;
        Hindered {
            code: self.rng.pick(&[729, 3 * 729]),
            entries,
            lifted,
        }
    }

    fn extension_missing(&mut self, ground: Ground) -> Hindered {
        let mut entries = ground.entries;
        (entries.marks, entries.kinds[ground.circuit]) = (ground.social + 1, 2);
        let mut lifted = entries.clone();
        lifted.marks += 2;
        Hindered {
            code: ground.extended,
            entries,
            lifted,
        }
    }

    fn reserved_missing(&mut self, ground: Ground) -> Hindered {
        let mut entries = ground.entries;
        entries.marks = ground.social + 3;
        entries.kinds = entries.kinds.map(|kind| if kind == 2 { 1 } else { kind });
        let mut lifted = entries.clone();
        lifted.kinds[ground.circuit] = 2;
        Hindered {
            code: ground.extended,
            entries,
            lifted,
        }
    }

    fn extended_and_exclusive(&mut self, ground: Ground) -> Hindered {
        let mut entries = ground.entries;
        (entries.marks, entries.kinds[ground.circuit]) = (ground.social + 3, 2);
        entries.day[ground.circuit] = 0;
        self.say_price(Decree, ground.extended, &entries);
        Hindered {
            code: ground.extended + ground.place,
            lifted: entries.clone(),
            entries,
        }
    }
}
