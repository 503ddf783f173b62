//! Amounts of kWh at which the chosen plan changes.

use super::Wanted;
use crate::rules::facts::LARGEST_KWH;
use crate::rules::{CIRCUITS, Entries, Facts, choose};
use crate::samples::{Turn, Writer};
use crate::script::{SheetName, sheet};

use SheetName::{Decree, House, ProtectedDecree, ProtectedHouse};

/// A circuit by day or by night.
#[derive(Clone, Copy)]
struct Spot {
    circuit: usize,
    at_night: bool,
}

impl Spot {
    /// The same numbers with other kWh at this spot.
    fn with(self, entries: &Entries, kwh: u64) -> Entries {
        let mut entries = entries.clone();
        let row = if self.at_night {
            &mut entries.night
        } else {
            &mut entries.day
        };
        row[self.circuit] = kwh;
        entries
    }
}

impl Writer {
    /// Two neighbouring amounts of kWh between which the chosen plan changes.
    pub fn breaking_even(&mut self) {
        let all = Wanted::all();
        let wanted = all[self.rng.below(all.len())];
        let sheet =
            [Decree, Decree, ProtectedDecree, House, ProtectedHouse][self.turn(Turn::Step, 5)];
        let base = match sheet {
            ProtectedDecree | ProtectedHouse => {
                let kwh = self.rng.range(0, 6_000);
                self.social_facts(kwh)
            }
            _ => self.facts_for(wanted, 60),
        };
        let mut spots: Vec<Spot> = (0..CIRCUITS)
            .filter(|&circuit| base.kinds[circuit] != 0)
            .flat_map(|circuit| [false, true].map(|at_night| Spot { circuit, at_night }))
            .collect();
        self.rng.shuffle(&mut spots);
        let found = spots
            .into_iter()
            .find_map(|spot| self.change_at(sheet, &base, spot));
        let Some(pair) = found else { return };
        for entries in &pair {
            self.say_choose(sheet, entries);
        }
        if self.rng.once_in(2) {
            for entries in &pair {
                if let Some(code) = self.chosen(sheet, entries) {
                    self.say_price(sheet, code, &pair[1]);
                }
            }
        }
    }

    /// The numbers on both sides of a change of plan, by the kWh at a spot.
    fn change_at(&self, sheet: SheetName, base: &Entries, spot: Spot) -> Option<[Entries; 2]> {
        let (mut low, mut high) = (0, LARGEST_KWH);
        let chosen = |kwh: u64| self.chosen(sheet, &spot.with(base, kwh));
        let first = chosen(low);
        if first == chosen(high) {
            return None;
        }
        while high - low > 1 {
            let middle = (low + high) / 2;
            if chosen(middle) == first {
                low = middle
            } else {
                high = middle
            }
        }
        Some([spot.with(base, low), spot.with(base, high)])
    }

    fn chosen(&self, name: SheetName, entries: &Entries) -> Option<u64> {
        let facts = Facts::new(entries).ok()?;
        let plan = choose(&*sheet(&self.replay.house, name), &facts);
        plan.map(|(code, _)| code)
    }
}
